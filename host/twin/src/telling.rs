//! What a history says of itself, and what the record of a revision says.

use crate::layout::{ENTRY, INDEX, TIME, TIME_SIZE};
use crate::rows::{self, Row};

/// A part of the history.
#[derive(Clone, Copy, PartialEq, Eq, Debug)]
pub struct Part {
    pub offset: u64,
    pub length: u64,
}

/// What a history says of itself; all zeros but the number where refused.
#[derive(Clone, Copy, PartialEq, Eq, Debug)]
pub struct Setting {
    pub number: u64,
    pub page_size: u64,
    pub original: u64,
    pub revisions: u64,
    pub end: u64,
    pub lock: bool,
    pub branching: bool,
}

/// What a revision's record says; all zeros but the number where refused, and
/// but the logical size for the original.
#[derive(Clone, Copy, PartialEq, Eq, Debug)]
pub struct Record {
    pub number: u64,
    pub revision: u64,
    pub parent: u64,
    pub logical: u64,
    pub user: u64,
    pub entries: u64,
    pub time: Part,
    pub name: Part,
    pub comment: Part,
}

impl Part {
    const NOWHERE: Part = Part {
        offset: 0,
        length: 0,
    };
}

impl Setting {
    const NOTHING: Setting = Setting {
        number: 0,
        page_size: 0,
        original: 0,
        revisions: 0,
        end: 0,
        lock: false,
        branching: false,
    };
}

impl Record {
    const NOTHING: Record = Record {
        number: 0,
        revision: 0,
        parent: 0,
        logical: 0,
        user: 0,
        entries: 0,
        time: Part::NOWHERE,
        name: Part::NOWHERE,
        comment: Part::NOWHERE,
    };
}

/// Says what a history says of itself.
pub fn setting_of(hist: &[u8]) -> Setting {
    match rows::standing(hist) {
        Ok(standing) => Setting {
            number: 0,
            page_size: standing.header.page,
            original: standing.header.original,
            revisions: standing.count,
            end: standing.end() as u64,
            lock: standing.header.locked,
            branching: standing.header.branching,
        },
        Err(row) => Setting {
            number: row as u64,
            ..Setting::NOTHING
        },
    }
}

/// Says what the record of a revision says, and where its texts lie.
pub fn record_of(hist: &[u8], revision: u64) -> Record {
    try_record_of(hist, revision).unwrap_or_else(|row| Record {
        number: row as u64,
        ..Record::NOTHING
    })
}

fn try_record_of(hist: &[u8], revision: u64) -> Result<Record, Row> {
    let standing = rows::standing(hist)?;
    let k = rows::revision(&standing, revision)?;
    if k == 0 {
        return Ok(Record {
            logical: standing.header.original,
            ..Record::NOTHING
        });
    }
    let head = rows::record(hist, &standing, k)?.head;
    let at = standing.location(hist, k).at;
    let name = Part {
        offset: at + INDEX as u64 + ENTRY as u64 * head.entries,
        length: head.name_size.into(),
    };
    Ok(Record {
        number: 0,
        revision: head.revision,
        parent: head.parent,
        logical: head.size,
        user: head.user.into(),
        entries: head.entries,
        time: Part {
            offset: at + TIME as u64,
            length: TIME_SIZE as u64,
        },
        name,
        comment: Part {
            offset: name.offset + name.length,
            length: head.comment_size.into(),
        },
    })
}
