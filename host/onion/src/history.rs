//! A history over a buffer of bytes.

use onion_sys::{ONION_LIST_MOST, ONION_SOURCE_ORIGINAL};

use crate::record::part;
use crate::{raw, Entries, Fault, Record, Refusal, Session};

/// A history in a buffer: a `Vec<u8>`, an array, or a borrowed slice.
///
/// The buffer may be longer than the history; the bytes past its committed end are the room for sessions. A buffer that
/// is only read can be a `&[u8]`; to write it must be one that can be changed.
///
/// Nothing is judged ahead of a call. Every call judges the bytes it is given, so any bytes may be taken as a history.
#[derive(Clone, Debug, PartialEq, Eq)]
pub struct History<B> {
    bytes: B,
}

/// What a history says of itself.
#[derive(Clone, Copy, Debug, PartialEq, Eq)]
#[non_exhaustive]
pub struct Summary {
    /// The page size.
    pub page_size: u64,
    /// The original's length.
    pub original_length: u64,
    /// How many revisions stand; they are numbered from 1, so this is also the newest.
    pub revisions: u64,
    /// Whether a session is open, or left its lock behind.
    pub locked: bool,
    /// Whether a session may be opened on any revision, or on the newest only.
    pub branching: bool,
    /// The committed end: no reader looks at the bytes from here on.
    pub end: u64,
}

/// A page of a revision, where it lies.
#[derive(Clone, Copy, Debug, PartialEq, Eq)]
pub struct Page<'a> {
    /// The bytes of the page that lie below the revision's logical size.
    pub bytes: &'a [u8],
    /// Which of the two they are a part of.
    pub source: Source,
    /// Where in it they begin.
    pub offset: u64,
}

/// Where a page of a revision lies.
#[derive(Clone, Copy, Debug, PartialEq, Eq)]
pub enum Source {
    /// In the original: no session has touched the page.
    Original,
    /// In the history.
    History,
}

/// The records of a history, from revision 1 on. It ends at the first refusal.
#[derive(Clone, Debug)]
pub struct Revisions<'a> {
    history: &'a [u8],
    // None after the last record or a refusal.
    next: Option<u64>,
}

impl<B> History<B> {
    /// Takes a buffer as a history.
    pub fn over(bytes: B) -> History<B> {
        History { bytes }
    }

    /// Gives the buffer back.
    pub fn into_bytes(self) -> B {
        self.bytes
    }
}

impl<B: AsRef<[u8]>> History<B> {
    /// All bytes of the buffer.
    pub fn bytes(&self) -> &[u8] {
        self.bytes.as_ref()
    }

    /// What the history says of itself.
    pub fn summary(&self) -> Result<Summary, Refusal> {
        let setting = raw::setting_of(self.bytes());
        Refusal::from_number(setting.number)?;
        Ok(Summary {
            page_size: setting.page_size,
            original_length: setting.original,
            revisions: setting.revisions,
            locked: setting.lock,
            branching: setting.branching,
            end: setting.end,
        })
    }

    /// The history as text: a line for itself and one for each revision.
    ///
    /// ```
    /// # fn main() -> Result<(), onion::Refusal> {
    /// let history = onion::History::create([0; onion::CREATED_LENGTH], 20, 16, true)?;
    /// assert_eq!(history.list()?, "pages 16 original 20 revisions 0 lock no branch yes\n");
    /// # Ok(())
    /// # }
    /// ```
    pub fn list(&self) -> Result<String, Refusal> {
        let mut text = vec![0; ONION_LIST_MOST];
        let length = raw::list(self.bytes(), &mut text);
        text.truncate(length as usize);
        let text = String::from_utf8(text).expect("a list is ASCII");
        // Where the store refuses, the list is one line that tells the number.
        let number = text.strip_prefix("refused ").map(str::trim_end);
        if let Some(number) = number.and_then(|number| number.parse().ok()) {
            Refusal::from_number(number)?;
        }
        Ok(text)
    }

    /// Reads a revision from an offset on and fills all of the output.
    pub fn read(
        &self,
        original: &[u8],
        revision: u64,
        at: u64,
        output: &mut [u8],
    ) -> Result<(), Refusal> {
        Refusal::from_number(raw::read(original, self.bytes(), revision, at, output))
    }

    /// The page at an address of a revision, as a part of the original or of the history and not a copy.
    pub fn look_up<'a>(
        &'a self,
        original: &'a [u8],
        revision: u64,
        address: u64,
    ) -> Result<Page<'a>, Refusal> {
        let found = raw::look_up(original, self.bytes(), revision, address);
        Refusal::from_number(found.number)?;
        let (source, whole) = match found.source {
            ONION_SOURCE_ORIGINAL => (Source::Original, original),
            _ => (Source::History, self.bytes()),
        };
        Ok(Page {
            bytes: part(whole, found.offset, found.length),
            source,
            offset: found.offset,
        })
    }

    /// Checks the whole history: header, whole history, every record and every page.
    pub fn check(&self) -> Result<(), Fault> {
        let checked = raw::check(self.bytes());
        Refusal::from_number(checked.number).map_err(|refusal| Fault {
            refusal,
            // Revisions count from 1, so 0 is one that is not named.
            revision: Some(checked.revision).filter(|&revision| revision > 0),
            entry: Some(checked.entry).filter(|_| refusal == Refusal::PageChecksum),
        })
    }

    /// The record of a revision; the original, revision 0, has none.
    pub fn record(&self, revision: u64) -> Result<Option<Record<'_>>, Refusal> {
        Record::of(self.bytes(), revision)
    }

    /// How many bytes a revision has.
    pub fn logical_size(&self, revision: u64) -> Result<u64, Refusal> {
        let record = raw::record_of(self.bytes(), revision);
        Refusal::from_number(record.number)?;
        Ok(record.logical)
    }

    /// The records of all revisions, from 1 on.
    pub fn revisions(&self) -> Revisions<'_> {
        Revisions {
            history: self.bytes(),
            next: Some(1),
        }
    }

    /// The index entries of a revision; the original has none.
    pub fn entries(&self, revision: u64) -> Result<Entries<'_>, Refusal> {
        let browsed = raw::browse(self.bytes(), revision);
        Refusal::from_number(browsed.number)?;
        let record = part(self.bytes(), browsed.offset, browsed.length);
        Ok(Entries::over(record))
    }
}

impl<B: AsRef<[u8]> + AsMut<[u8]>> History<B> {
    /// Starts a history in a buffer of at least [`CREATED_LENGTH`](crate::CREATED_LENGTH) bytes, for an original of the
    /// given length.
    ///
    /// The page size is a power of two from 16 to 4,096. With branching, a session may be opened on any revision.
    pub fn create(
        mut bytes: B,
        original_length: u64,
        page_size: u64,
        branching: bool,
    ) -> Result<History<B>, Refusal> {
        let number = raw::create(bytes.as_mut(), original_length, page_size, branching);
        Refusal::from_number(number)?;
        Ok(History { bytes })
    }

    /// All bytes of the buffer, to change.
    pub fn bytes_mut(&mut self) -> &mut [u8] {
        self.bytes.as_mut()
    }

    /// Opens a revision for writing and sets the lock.
    pub fn open(&mut self, original: &[u8], revision: u64) -> Result<Session, Refusal> {
        let answer = raw::open(original, self.bytes_mut(), revision);
        Refusal::from_number(answer.number)?;
        Ok(Session::from_raw(answer.session))
    }

    /// Clears a lock that a session left behind. Where there is none, nothing changes.
    pub fn clear_lock(&mut self) -> Result<(), Refusal> {
        let answer = raw::release(raw::ENDED, self.bytes_mut());
        Refusal::from_number(answer.number)
    }
}

impl<'a> Iterator for Revisions<'a> {
    type Item = Result<Record<'a>, Refusal>;

    fn next(&mut self) -> Option<Self::Item> {
        let revision = self.next.take()?;
        match Record::of(self.history, revision) {
            Ok(record) => {
                self.next = Some(revision + 1);
                record.map(Ok)
            }
            // The one behind the newest is refused so; that is the end and no fault.
            Err(Refusal::Revision) => None,
            Err(refusal) => Some(Err(refusal)),
        }
    }
}
