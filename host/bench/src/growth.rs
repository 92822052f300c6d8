//! How the cost of a call grows with the revisions of a history and with the entries of a record.

use crate::calls;
use crate::histories::{self, Store};
use crate::timing::{grouped, Seconds};
use forge::NEWEST;

pub fn print() {
    println!("## How the cost grows");
    println!();
    println!("Read is of 4 KiB of the newest revision, write of one byte (a first touch), commit of a session with one page.");
    println!();
    println!("With the revisions, each of 16 entries, p = 16. Write and commit are those of the last of them:");
    println!();
    table("revisions", [16, 128, 1_024], |revisions| {
        [revisions - 1, revisions].map(histories::with_revisions)
    });
    println!("With the entries of the only record, p = 16:");
    println!();
    table("entries", [16, 512, 4_096], |entries| {
        [entries; 2].map(histories::with_one_revision)
    });
}

/// A table for three sizes; a size makes a history to write to and one to read.
fn table(what: &str, sizes: [u64; 3], make: fn(u64) -> [Store; 2]) {
    let [first, second, third] = sizes.map(grouped);
    println!("| Call | Side | {first} {what} | {second} | {third} | {third} to {first} |");
    println!("|---|---|---|---|---|---|");
    let columns = sizes.map(|size| measure(make(size)));
    for (place, name) in ["read", "write", "commit", "check"].iter().enumerate() {
        for (side, whose) in ["proved", "twin"].iter().enumerate() {
            let [first, second, third] = columns.map(|calls| calls[place][side]);
            let growth = third.0 / first.0;
            println!("| {name} | {whose} | {first} | {second} | {third} | {growth:.1} |");
        }
    }
    println!();
}

/// Read, write, commit and check, each for both sides.
fn measure([mut written, whole]: [Store; 2]) -> [[Seconds; 2]; 4] {
    let start = written.open();
    let touched = written.write(start, 16, b"x");
    [
        calls::read(&whole, NEWEST, 4_096),
        calls::write(&written, start, 160, b"x"),
        calls::commit(&written, touched),
        calls::check(&whole),
    ]
}
