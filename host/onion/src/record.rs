//! A revision's record, and its index entries one at a time.

use std::str;

use onion_sys::{onion_part, ONION_STEP_ENTRY};

use crate::{raw, Refusal};

/// What the record of a revision says.
#[derive(Clone, Copy, Debug, PartialEq, Eq)]
#[non_exhaustive]
pub struct Record<'a> {
    /// The revision's number.
    pub revision: u64,
    /// The revision that its session was opened on.
    pub parent: u64,
    /// When it was committed: `YYYYMMDDThhmmssZ`.
    pub time: &'a str,
    /// How many bytes the revision has.
    pub logical_size: u64,
    /// The number of the user.
    pub user: u32,
    /// How many entries its index has.
    pub entry_count: u64,
    /// The user's name, without its closing zero.
    pub name: &'a str,
    /// The comment, without its closing zero.
    pub comment: &'a str,
}

/// One entry of a revision's index: a page that is stored in the history.
#[derive(Clone, Copy, Debug, PartialEq, Eq)]
pub struct Entry {
    /// The page's address in the revision.
    pub logical: u64,
    /// The page's address in the history.
    pub physical: u64,
    /// The checksum of the page.
    pub page_checksum: u32,
    /// The checksum of the two addresses.
    pub entry_checksum: u32,
}

/// The entries of a revision's index, in rising order of their logical addresses.
#[derive(Clone, Debug)]
pub struct Entries<'a> {
    record: &'a [u8],
    place: u64,
}

impl<'a> Record<'a> {
    /// The record of a revision of a history; the original has none.
    pub(crate) fn of(history: &'a [u8], revision: u64) -> Result<Option<Record<'a>>, Refusal> {
        let said = raw::record_of(history, revision);
        Refusal::from_number(said.number)?;
        if said.revision == 0 {
            return Ok(None);
        }
        let text = |place: onion_part| {
            let bytes = part(history, place.offset, place.length);
            let bytes = bytes.strip_suffix(&[0]).unwrap_or(bytes);
            str::from_utf8(bytes).expect("an accepted record's texts are ASCII")
        };
        Ok(Some(Record {
            revision: said.revision,
            parent: said.parent,
            time: text(said.time),
            logical_size: said.logical,
            user: said.user as u32,
            entry_count: said.entries,
            name: text(said.name),
            comment: text(said.comment),
        }))
    }
}

impl<'a> Entries<'a> {
    /// The entries of a lent record; over no bytes there are none.
    pub(crate) fn over(record: &'a [u8]) -> Entries<'a> {
        Entries { record, place: 0 }
    }
}

impl Iterator for Entries<'_> {
    type Item = Entry;

    fn next(&mut self) -> Option<Entry> {
        let step = raw::browse_step(self.record, self.place);
        if step.kind != ONION_STEP_ENTRY {
            return None;
        }
        self.place += 1;
        Some(Entry {
            logical: step.logical,
            physical: step.physical,
            page_checksum: step.page_sum as u32,
            entry_checksum: step.entry_sum as u32,
        })
    }
}

/// A part that the store has found within the bytes.
pub(crate) fn part(bytes: &[u8], offset: u64, length: u64) -> &[u8] {
    &bytes[offset as usize..][..length as usize]
}
