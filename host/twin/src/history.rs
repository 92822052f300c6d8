//! Creation, the whole check and browsing.

use crate::layout::{self, Entry, Header, CREATED, ENTRY, HEADER, INDEX, LIMIT, RECORD};
use crate::rows::{self, Row};

/// The whole check's answer; a place that its fault does not name is 0.
#[derive(Clone, Copy, PartialEq, Eq, Debug)]
pub struct Checked {
    pub number: u64,
    pub revision: u64,
    pub entry: u64,
}

/// Where a revision's record lies: zeros for revision 0 and where refused.
#[derive(Clone, Copy, PartialEq, Eq, Debug)]
pub struct Browsed {
    pub number: u64,
    pub offset: u64,
    pub length: u64,
}

/// One step of browsing. Kind 0 is an entry, 1 the end and 7 the refusal; the
/// fields are zero unless it is an entry.
#[derive(Clone, Copy, PartialEq, Eq, Debug)]
pub struct Step {
    pub kind: u64,
    pub logical: u64,
    pub physical: u64,
    pub page_sum: u64,
    pub entry_sum: u64,
}

impl Step {
    const END: Step = Step::empty(1);
    const REFUSED: Step = Step::empty(Row::Record as u64);

    const fn empty(kind: u64) -> Step {
        Step {
            kind,
            logical: 0,
            physical: 0,
            page_sum: 0,
            entry_sum: 0,
        }
    }
}

/// Starts a history in the first 60 bytes of the buffer.
pub fn create(hist: &mut [u8], original: u64, page: u64, branching: bool) -> u64 {
    rows::number(&try_create(hist, original, page, branching))
}

fn try_create(hist: &mut [u8], original: u64, page: u64, branching: bool) -> Result<(), Row> {
    rows::history_length(hist, CREATED)?;
    let wrong = !layout::is_page_size(page) || original > LIMIT;
    rows::unless(wrong, Row::Creation)?;
    let header = Header {
        locked: false,
        branching,
        page,
        original,
        whole_at: HEADER as u64,
        whole_size: (CREATED - HEADER) as u64,
    };
    header.write(hist);
    layout::write_whole(&mut hist[HEADER..CREATED], 0, &[], &[]);
    Ok(())
}

/// Checks the whole history and answers its first fault.
pub fn check(hist: &[u8]) -> Checked {
    let fault = |row: Row, revision, entry| Checked {
        number: row as u64,
        revision,
        entry,
    };
    let standing = match rows::standing(hist) {
        Ok(standing) => standing,
        Err(row) => return fault(row, 0, 0),
    };
    for k in 1..=standing.count {
        let record = match rows::record(hist, &standing, k) {
            Ok(record) => record,
            Err(row) => return fault(row, k, 0),
        };
        for (place, raw) in record.index.iter().enumerate() {
            let entry = Entry::decode(raw);
            let physical = entry.physical as usize;
            if let Err(row) = rows::page_sum(hist, physical, standing.page(), entry.page_sum) {
                return fault(row, k, place as u64);
            }
        }
    }
    Checked {
        number: 0,
        revision: 0,
        entry: 0,
    }
}

/// Says where the record to browse lies.
pub fn browse(hist: &[u8], revision: u64) -> Browsed {
    try_browse(hist, revision).unwrap_or_else(|row| Browsed {
        number: row as u64,
        offset: 0,
        length: 0,
    })
}

fn try_browse(hist: &[u8], revision: u64) -> Result<Browsed, Row> {
    let standing = rows::standing(hist)?;
    let k = rows::revision(&standing, revision)?;
    if k == 0 {
        // The original has no record; no bytes are browsed to the end at once.
        return Ok(Browsed {
            number: 0,
            offset: 0,
            length: 0,
        });
    }
    rows::record(hist, &standing, k)?;
    let location = standing.location(hist, k);
    Ok(Browsed {
        number: 0,
        offset: location.at,
        length: location.size,
    })
}

/// Gives the entry at a place of a lent record. The lent bytes may be
/// anything; only whether their entries are there is judged.
pub fn browse_step(record: &[u8], place: u64) -> Step {
    if record.is_empty() {
        return Step::END;
    }
    let Some(head) = record.first_chunk::<INDEX>() else {
        return Step::REFUSED;
    };
    let count = layout::entry_count(head);
    // Divided, not multiplied: the count may be any number.
    let room = record.len().checked_sub(RECORD).map(|rest| rest / ENTRY);
    if room.is_none_or(|room| count > room as u64) {
        return Step::REFUSED;
    }
    if place >= count {
        return Step::END;
    }
    let entries = record[INDEX..].as_chunks().0;
    let entry = Entry::decode(&entries[place as usize]);
    Step {
        kind: 0,
        logical: entry.logical,
        physical: entry.physical,
        page_sum: entry.page_sum.into(),
        entry_sum: entry.entry_sum.into(),
    }
}
