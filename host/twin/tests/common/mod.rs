//! What the tests share. Places in a history come from `forge`, which has them
//! from the paper, so that a slip in the crate's layout is not repeated here.

// Each of the tests uses a part of it.
#![allow(dead_code)]

use forge::{LATER, TIME};
use twin::*;

/// As the length of a buffer.
pub const LIMIT: usize = forge::LIMIT as usize;

/// Address and size of the whole history.
pub fn whole(hist: &[u8]) -> (usize, usize) {
    let whole = forge::whole(hist).expect("a whole history");
    (whole.start, whole.len())
}

pub fn committed_end(hist: &[u8]) -> usize {
    forge::committed_end(hist) as usize
}

/// Where location k, counted from 1, stands.
pub fn location(hist: &[u8], k: u64) -> usize {
    forge::locations(hist)[k as usize - 1]
}

/// Address and size of the record of revision k.
pub fn record(hist: &[u8], k: u64) -> (usize, usize) {
    let record = forge::record(hist, location(hist, k)).expect("a record");
    (record.start, record.len())
}

/// Where entry i of revision k stands.
pub fn entry(hist: &[u8], k: u64, i: usize) -> usize {
    let (at, size) = record(hist, k);
    forge::entries(hist, &(at..at + size))[i]
}

/// The text of a history, in a buffer that just holds it.
pub fn listed(hist: &[u8]) -> Vec<u8> {
    let mut text = vec![0; list(hist, &mut []) as usize];
    assert_eq!(list(hist, &mut text), text.len() as u64);
    text
}

/// The session of an accepted call.
pub fn accepted(answer: Answer) -> Session {
    assert_eq!(answer.number, 0);
    answer.session
}

/// Opens a revision, writes each of the parts and commits.
pub fn revise(orig: &[u8], hist: &mut [u8], parent: u64, parts: &[(u64, &[u8])]) {
    let mut st = accepted(open(orig, hist, parent));
    for &(at, data) in parts {
        st = accepted(write(st, orig, hist, at, data));
    }
    assert_eq!(
        accepted(commit(st, hist, TIME, 7, b"ana\0", b"\0")),
        Session::ENDED
    );
}

/// The paper's example: an original of 20 bytes, pages of 16, a buffer of 512,
/// two revisions.
pub fn example() -> (Vec<u8>, Vec<u8>) {
    let orig: Vec<u8> = (100..120).collect();
    let mut hist = vec![0xEE; 512];
    assert_eq!(create(&mut hist, 20, 16, false), 0);
    let st = accepted(open(&orig, &mut hist, 0));
    let st = accepted(write(st, &orig, &mut hist, 14, b"abcd"));
    accepted(commit(st, &mut hist, TIME, 1000, b"ana\0", b"\0"));
    let st = accepted(open(&orig, &mut hist, 1));
    let st = accepted(write(st, &orig, &mut hist, 20, b"e"));
    accepted(commit(st, &mut hist, LATER, 1000, b"ana\0", b"\0"));
    (orig, hist)
}

/// A revision's index, by browsing.
pub fn index(hist: &[u8], revision: u64) -> Vec<Step> {
    let found = browse(hist, revision);
    assert_eq!(found.number, 0);
    let record = &hist[found.offset as usize..][..found.length as usize];
    let mut steps = Vec::new();
    for place in 0.. {
        match browse_step(record, place) {
            step if step.kind == 0 => steps.push(step),
            step => {
                assert_eq!(step.kind, 1);
                break;
            }
        }
    }
    steps
}
