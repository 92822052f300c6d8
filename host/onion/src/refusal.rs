//! Why a call was refused.

use std::error::Error;
use std::fmt;

use onion_sys::*;

use crate::raw;

/// A row of the paper's table of refusals. A refused call has changed no byte.
#[derive(Clone, Copy, Debug, PartialEq, Eq, Hash, PartialOrd, Ord)]
#[non_exhaustive]
pub enum Refusal {
    /// The history is too short or too long.
    HistoryLength,
    /// The header is not one.
    Header,
    /// The header is damaged.
    HeaderChecksum,
    /// The original is not the history's: its length differs.
    OriginalLength,
    /// The whole history, which says where the records lie, is damaged or missing.
    WholeHistory,
    /// There is no such revision.
    Revision,
    /// A record is against the layout.
    Record,
    /// A record or an entry of it is damaged.
    RecordChecksum,
    /// A page is damaged.
    PageChecksum,
    /// The range or the address lies outside.
    Outside,
    /// A session is open, or its lock was left behind.
    Locked,
    /// Only the newest revision can be opened for writing in this history.
    NotNewest,
    /// The session has ended, or belongs to another history.
    Session,
    /// Too many pages for one session or one record.
    TooManyPages,
    /// The buffer is too short for what is to be stored.
    NoRoom,
    /// Time, name or comment cannot be stored.
    Text,
    /// A history cannot be created so.
    Creation,
    /// The history is full of revisions.
    TooManyRevisions,
    /// The revision would become too long.
    PastLimit,
    /// The page lies in no one place: neither stored nor wholly in the original.
    NotStored,
    /// A number that this version of the crate has no name for.
    Unknown(u64),
}

impl Refusal {
    /// Every refusal that has a name, in the order of the numbers, which count from 1.
    pub const ALL: [Refusal; 20] = [
        Refusal::HistoryLength,
        Refusal::Header,
        Refusal::HeaderChecksum,
        Refusal::OriginalLength,
        Refusal::WholeHistory,
        Refusal::Revision,
        Refusal::Record,
        Refusal::RecordChecksum,
        Refusal::PageChecksum,
        Refusal::Outside,
        Refusal::Locked,
        Refusal::NotNewest,
        Refusal::Session,
        Refusal::TooManyPages,
        Refusal::NoRoom,
        Refusal::Text,
        Refusal::Creation,
        Refusal::TooManyRevisions,
        Refusal::PastLimit,
        Refusal::NotStored,
    ];

    /// The number of the paper's row.
    pub const fn number(self) -> u64 {
        match self {
            Refusal::HistoryLength => ONION_REFUSED_HISTORY_LENGTH,
            Refusal::Header => ONION_REFUSED_HEADER,
            Refusal::HeaderChecksum => ONION_REFUSED_HEADER_CHECKSUM,
            Refusal::OriginalLength => ONION_REFUSED_ORIGINAL_LENGTH,
            Refusal::WholeHistory => ONION_REFUSED_WHOLE_HISTORY,
            Refusal::Revision => ONION_REFUSED_REVISION,
            Refusal::Record => ONION_REFUSED_RECORD,
            Refusal::RecordChecksum => ONION_REFUSED_RECORD_CHECKSUM,
            Refusal::PageChecksum => ONION_REFUSED_PAGE_CHECKSUM,
            Refusal::Outside => ONION_REFUSED_OUTSIDE,
            Refusal::Locked => ONION_REFUSED_LOCKED,
            Refusal::NotNewest => ONION_REFUSED_NOT_NEWEST,
            Refusal::Session => ONION_REFUSED_SESSION,
            Refusal::TooManyPages => ONION_REFUSED_TOO_MANY_PAGES,
            Refusal::NoRoom => ONION_REFUSED_NO_ROOM,
            Refusal::Text => ONION_REFUSED_TEXT,
            Refusal::Creation => ONION_REFUSED_CREATION,
            Refusal::TooManyRevisions => ONION_REFUSED_TOO_MANY_REVISIONS,
            Refusal::PastLimit => ONION_REFUSED_PAST_LIMIT,
            Refusal::NotStored => ONION_REFUSED_NOT_STORED,
            Refusal::Unknown(number) => number,
        }
    }

    /// The paper's sentence for the row, as the library has it.
    pub fn sentence(self) -> &'static str {
        raw::sentence(self.number())
    }

    /// What the store's number says: 0 is acceptance.
    pub(crate) fn from_number(number: u64) -> Result<(), Refusal> {
        if number == ONION_ACCEPTED {
            return Ok(());
        }
        let named = Refusal::ALL
            .into_iter()
            .find(|refusal| refusal.number() == number);
        Err(named.unwrap_or(Refusal::Unknown(number)))
    }
}

impl fmt::Display for Refusal {
    fn fmt(&self, f: &mut fmt::Formatter<'_>) -> fmt::Result {
        write!(f, "refused {}: {}", self.number(), self.sentence())
    }
}

impl Error for Refusal {}

/// The first fault that the whole check finds, and where.
#[derive(Clone, Copy, Debug, PartialEq, Eq)]
pub struct Fault {
    /// What is wrong.
    pub refusal: Refusal,
    /// The revision whose record or page it is, for a fault in one.
    pub revision: Option<u64>,
    /// The index entry whose page it is, counted from 0, for a damaged page.
    pub entry: Option<u64>,
}

impl fmt::Display for Fault {
    fn fmt(&self, f: &mut fmt::Formatter<'_>) -> fmt::Result {
        write!(f, "{}", self.refusal)?;
        if let Some(revision) = self.revision {
            write!(f, ", in revision {revision}")?;
        }
        if let Some(entry) = self.entry {
            write!(f, ", entry {entry}")?;
        }
        Ok(())
    }
}

impl Error for Fault {}

#[cfg(test)]
mod tests {
    use super::*;

    #[test]
    fn numbers_count_from_1_and_come_back() {
        for (place, refusal) in Refusal::ALL.into_iter().enumerate() {
            assert_eq!(refusal.number(), place as u64 + 1);
            assert_eq!(Refusal::from_number(refusal.number()), Err(refusal));
        }
        assert_eq!(Refusal::from_number(0), Ok(()));
    }

    #[test]
    fn a_number_without_a_name_is_no_reason_to_stop() {
        for number in [Refusal::ALL.len() as u64 + 1, u64::MAX] {
            let refusal = Refusal::from_number(number).unwrap_err();
            assert_eq!(refusal, Refusal::Unknown(number));
            assert_eq!(refusal.number(), number);
            assert_eq!(
                refusal.to_string(),
                format!("refused {number}: unknown number")
            );
        }
    }

    #[test]
    fn a_refusal_shows_its_number_and_sentence() {
        assert_eq!(Refusal::Locked.to_string(), "refused 11: lock set");
    }

    #[test]
    fn a_fault_names_its_places() {
        let fault = Fault {
            refusal: Refusal::PageChecksum,
            revision: Some(3),
            entry: Some(0),
        };
        assert_eq!(
            fault.to_string(),
            "refused 9: page checksum wrong, in revision 3, entry 0"
        );
    }
}
