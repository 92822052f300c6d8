//! The parts of a history, found where its own numbers say that they lie, and their checksums made right. The history
//! may be damaged.

use crate::checksum;
use std::ops::Range;

/// The little-endian number at a place.
pub fn number_of_4(bytes: &[u8], at: usize) -> u32 {
    u32::from_le_bytes(bytes[at..at + 4].try_into().unwrap())
}

/// The little-endian number at a place.
pub fn number_of_8(bytes: &[u8], at: usize) -> u64 {
    u64::from_le_bytes(bytes[at..at + 8].try_into().unwrap())
}

/// Lays bytes over those at a place.
pub fn put(bytes: &mut [u8], at: usize, part: &[u8]) {
    bytes[at..at + part.len()].copy_from_slice(part);
}

/// Gives the number at a place another value.
pub fn put_4(bytes: &mut [u8], at: usize, number: u32) {
    put(bytes, at, &number.to_le_bytes());
}

/// Gives the number at a place another value.
pub fn put_8(bytes: &mut [u8], at: usize, number: u64) {
    put(bytes, at, &number.to_le_bytes());
}

/// Makes the last four bytes the checksum of all before them.
fn seal(bytes: &mut [u8]) {
    let (body, sum) = bytes.split_at_mut(bytes.len() - 4);
    sum.copy_from_slice(&checksum(body).to_le_bytes());
}

/// The bytes that an address and a size describe, if they lie in the history.
pub(crate) fn part(history: &[u8], at: u64, size: u64) -> Option<Range<usize>> {
    let end = at.checked_add(size)?;
    (end <= history.len() as u64).then_some(at as usize..end as usize)
}

/// Where the whole history lies by the header, if it is there at all.
pub fn whole(history: &[u8]) -> Option<Range<usize>> {
    if history.len() < 40 {
        return None;
    }
    let range = part(history, number_of_8(history, 20), number_of_8(history, 28))?;
    (range.len() >= 20).then_some(range)
}

/// The committed end by the header, whatever it says.
pub fn committed_end(history: &[u8]) -> u64 {
    match history.len() {
        0..40 => 0,
        _ => number_of_8(history, 20).wrapping_add(number_of_8(history, 28)),
    }
}

/// Where the locations lie that there is room for.
pub fn locations(history: &[u8]) -> Vec<usize> {
    let Some(whole) = whole(history) else {
        return Vec::new();
    };
    let count = number_of_8(history, whole.start + 8).min((whole.len() as u64 - 20) / 20);
    (0..count as usize)
        .map(|k| whole.start + 16 + 20 * k)
        .collect()
}

/// Where the record of the location at a place lies, if it is there and long enough for its fixed part.
pub fn record(history: &[u8], location: usize) -> Option<Range<usize>> {
    let at = number_of_8(history, location);
    let range = part(history, at, number_of_8(history, location + 8))?;
    (range.len() >= 76).then_some(range)
}

/// Where the entries of a record lie that there is room for.
pub fn entries(history: &[u8], record: &Range<usize>) -> Vec<usize> {
    let count = number_of_8(history, record.start + 56).min((record.len() as u64 - 76) / 24);
    (0..count as usize)
        .map(|k| record.start + 72 + 24 * k)
        .collect()
}

/// How far up the checksums are made right again after damage.
#[derive(Clone, Copy, PartialEq, Eq, PartialOrd, Ord, Debug)]
pub enum Repair {
    Nothing,
    Header,
    WholeHistory,
    Locations,
    Records,
    Entries,
    Pages,
}

pub const REPAIRS: [Repair; 7] = [
    Repair::Nothing,
    Repair::Header,
    Repair::WholeHistory,
    Repair::Locations,
    Repair::Records,
    Repair::Entries,
    Repair::Pages,
];

/// Makes the checksums of the named part and of all parts around it right.
pub fn repair(history: &mut [u8], depth: Repair) {
    if depth >= Repair::Records {
        for location in locations(history) {
            if let Some(record) = record(history, location) {
                repair_record(history, record, depth);
            }
        }
    }
    if depth >= Repair::Locations {
        for location in locations(history) {
            seal(&mut history[location..location + 20]);
        }
    }
    if depth >= Repair::WholeHistory {
        if let Some(range) = whole(history) {
            seal(&mut history[range]);
        }
    }
    if depth >= Repair::Header && history.len() >= 40 {
        seal(&mut history[..40]);
    }
}

fn repair_record(history: &mut [u8], record: Range<usize>, depth: Repair) {
    let page = u64::from(number_of_4(history, 8));
    for entry in entries(history, &record) {
        if depth >= Repair::Pages {
            if let Some(page) = part(history, number_of_8(history, entry + 8), page) {
                let sum = checksum(&history[page]);
                put_4(history, entry + 16, sum);
            }
        }
        if depth >= Repair::Entries {
            let sum = checksum(&history[entry..entry + 16]);
            put_4(history, entry + 20, sum);
        }
    }
    seal(&mut history[record]);
}
