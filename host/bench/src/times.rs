//! The table of times.

use crate::calls;
use crate::histories::{self, accepted, Store};
use crate::timing::{best, grouped, line, ROUNDS};
use compare::proved as compared;
use forge::{Random, TIME};
use onion::raw as proved;
use onion_sys::ONION_LIST_MOST;
use std::hint::black_box;

const MEBIBYTE: usize = 1 << 20;

pub fn print() {
    println!("## Times");
    println!();
    println!("One run, release build, warm buffers: the best of {ROUNDS} rounds, both sides turn by turn. The ratio is the proved");
    println!("store's time divided by the twin's; below 1 the proved store is faster.");
    println!();
    checksums();
    println!("| Job | Proved | Twin | Ratio |");
    println!("|---|---|---|---|");
    whole_sessions();
    write_and_commit_apart();
    one_byte_write();
    reads();
    look_ups();
    many_revisions();
    println!();
}

fn checksums() {
    println!("| Checksum of | Proved | Twin | Ratio | Proved | Plain copy of the same bytes |");
    println!("|---|---|---|---|---|---|");
    for (name, length) in [("4 KiB", 4_096), ("64 KiB", 65_536), ("16 MiB", 16 << 20)] {
        let bytes = Random::seeded(&[1]).bytes(length);
        let mut copy = vec![0; length];
        assert_eq!(proved::checksum(&bytes), twin::checksum(&bytes));
        let [ours, theirs, copied] = best([
            &mut || {
                black_box(proved::checksum(black_box(&bytes)));
            },
            &mut || {
                black_box(twin::checksum(black_box(&bytes)));
            },
            &mut || {
                copy.copy_from_slice(black_box(&bytes));
                black_box(&copy);
            },
        ]);
        println!(
            "| {name} | {ours} | {theirs} | {:.2} | {:.2} GB/s | {copied} |",
            ours.0 / theirs.0,
            length as f64 / 1e9 / ours.0,
        );
    }
    println!();
}

/// Creation, opening, a write of 256 pages and the commit.
fn whole_sessions() {
    for page in [4_096, 16] {
        let length = 256 * page;
        let store = histories::new(page as u64, length, 2 * length + 100_000);
        let data = Random::seeded(&[2]).bytes(length);
        let (mut ours, mut theirs) = (store.clone(), store);
        let times = best([
            &mut || {
                let Store { original, history } = &mut ours;
                let size = original.len() as u64;
                accepted(proved::create(history, size, page as u64, false));
                let session = proved::open(original, history, 0).session;
                let session = proved::write(session, original, history, 0, &data).session;
                let answer = proved::commit(session, history, TIME, 7, b"ana\0", b"\0");
                accepted(answer.number);
            },
            &mut || {
                let Store { original, history } = &mut theirs;
                let size = original.len() as u64;
                accepted(twin::create(history, size, page as u64, false));
                let session = twin::open(original, history, 0).session;
                let session = twin::write(session, original, history, 0, &data).session;
                let answer = twin::commit(session, history, TIME, 7, b"ana\0", b"\0");
                accepted(answer.number);
            },
        ]);
        assert!(ours.history == theirs.history);
        let name = format!(
            "create, open, write and commit of 256 pages, p = {}",
            grouped(page as u64)
        );
        line(&name, times);
    }
}

/// The two halves of a session of 256 pages, each for itself.
fn write_and_commit_apart() {
    const PAGE: usize = 16;
    let length = 256 * PAGE;
    let mut store = histories::new(PAGE as u64, length, 2 * length + 100_000);
    let data = Random::seeded(&[2]).bytes(length);
    let session = store.open();
    let times = calls::write(&store, session, 0, &data);
    line("write of 256 pages into a new session, p = 16", times);
    let written = store.write(session, 0, &data);
    let times = calls::commit(&store, written);
    line("commit of these 256 pages, p = 16", times);
}

fn one_byte_write() {
    let mut store = histories::with_entries(16, 4_096, 256, MEBIBYTE);
    let session = store.open();
    let times = calls::write(&store, session, 1 << 19, b"x");
    line("write of one byte, parent of 4,096 entries, p = 16", times);
}

fn reads() {
    let large = histories::with_entries(4_096, 256, 4_096, MEBIBYTE);
    let small = histories::with_entries(16, 4_096, 256, MEBIBYTE);
    for (name, store, revision) in [
        (
            "read of 1 MiB, p = 4,096, all of its 256 pages indexed",
            &large,
            1,
        ),
        ("read of 1 MiB, p = 4,096, the original", &large, 0),
        (
            "read of 1 MiB, p = 16, every sixteenth of its pages indexed (4,096)",
            &small,
            16,
        ),
        ("read of 1 MiB, p = 16, the original", &small, 0),
    ] {
        line(name, calls::read(store, revision, MEBIBYTE));
    }
}

fn look_ups() {
    let store = histories::with_entries(16, 4_096, 256, MEBIBYTE);
    let Store { original, history } = &store;
    for (name, address) in [
        (
            "look-up of an indexed page among 4,096, p = 16",
            256 * 1_234,
        ),
        (
            "look-up of a page of the original beside 4,096 entries, p = 16",
            256 * 1_234 + 16,
        ),
    ] {
        assert_eq!(
            compared::look_up(original, history, 16, address),
            twin::look_up(original, history, 16, address)
        );
        let times = best([
            &mut || accepted(proved::look_up(original, history, 16, address).number),
            &mut || accepted(twin::look_up(original, history, 16, address).number),
        ]);
        line(name, times);
    }
}

fn many_revisions() {
    let store = histories::with_revisions(1_024);
    let history = &store.history;
    line(
        "whole check of 1,024 revisions with 16 entries each",
        calls::check(&store),
    );
    let times = best([
        &mut || (1..=1_024).for_each(|k| accepted(proved::browse(history, k).number)),
        &mut || (1..=1_024).for_each(|k| accepted(twin::browse(history, k).number)),
    ]);
    line(
        "browsing of the records of all 1,024 revisions, one call each",
        times,
    );
    let times = best([
        &mut || accepted(proved::setting_of(history).number),
        &mut || accepted(twin::setting_of(history).number),
    ]);
    line("what a history of 1,024 revisions says of itself", times);
    let times = best([
        &mut || (1..=1_024).for_each(|k| accepted(proved::record_of(history, k).number)),
        &mut || (1..=1_024).for_each(|k| accepted(twin::record_of(history, k).number)),
    ]);
    line(
        "what the records of all 1,024 revisions say, one call each",
        times,
    );
    let mut ours = vec![0; ONION_LIST_MOST];
    let mut theirs = ours.clone();
    let times = best([
        &mut || {
            black_box(proved::list(history, &mut ours));
        },
        &mut || {
            black_box(twin::list(history, &mut theirs));
        },
    ]);
    assert!(ours == theirs);
    line("list of 1,024 revisions", times);
}
