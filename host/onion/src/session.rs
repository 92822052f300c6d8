//! A session: the writes that become one revision.

use std::error::Error;
use std::fmt;

use onion_sys::{onion_answer, onion_session};

use crate::{raw, History, Refusal};

/// An open session on a history, got by [`History::open`].
///
/// Each call takes the session and gives back the one to go on with, refused or not, so none can be used twice. A
/// session that is dropped leaves its history locked; [`History::clear_lock`] clears that.
///
/// ```compile_fail,E0382
/// # fn twice(original: &[u8], history: &mut onion::History<Vec<u8>>) -> Result<(), onion::Refusal> {
/// let session = history.open(original, onion::NEWEST)?;
/// let _first = session.write(original, history, 0, b"knot")?;
/// let _second = session.write(original, history, 4, b"knot")?; // the session has moved
/// # Ok(())
/// # }
/// ```
///
/// A session belongs to the history that it was opened on. On another, its calls are refused
/// ([`Refusal::Session`]) or, where that cannot be told from the bytes, work on the bytes that are lent.
#[must_use = "the history stays locked until the session is committed or released"]
#[derive(Debug)]
pub struct Session {
    // About a kilobyte, so it is moved around behind a pointer.
    state: Box<onion_session>,
}

/// A session call that was refused: why, and the session, unchanged.
#[derive(Debug)]
pub struct Refused {
    /// Why.
    pub refusal: Refusal,
    /// The session to go on with.
    pub session: Session,
}

/// What a commit stores beside the bytes.
#[derive(Clone, Copy, Debug, PartialEq, Eq)]
pub struct Note<'a> {
    /// When: `YYYYMMDDThhmmssZ`.
    pub time: &'a str,
    /// The number of the user.
    pub user: u32,
    /// The user's name: at most 63 characters from space to `~`.
    pub name: &'a str,
    /// A comment: at most 255 characters from space to `~`.
    pub comment: &'a str,
}

impl Session {
    pub(crate) fn from_raw(state: onion_session) -> Session {
        Session {
            state: Box::new(state),
        }
    }

    /// The revision that it was opened on.
    pub fn parent(&self) -> u64 {
        self.state.parent
    }

    /// The logical size so far.
    pub fn size(&self) -> u64 {
        self.state.size
    }

    /// The addresses of the pages touched so far, in the order of first touch.
    pub fn pages(&self) -> &[u32] {
        let touched = self.state.pages.len().min(self.state.n as usize);
        &self.state.pages[..touched]
    }

    /// Writes data at an offset up to the session's size; data that ends past the size extends it.
    ///
    /// A touched page is stored whole, behind the committed end, and once only however often it is written.
    pub fn write<B: AsRef<[u8]> + AsMut<[u8]>>(
        self,
        original: &[u8],
        history: &mut History<B>,
        at: u64,
        data: &[u8],
    ) -> Result<Session, Refused> {
        let answer = raw::write(*self.state, original, history.bytes_mut(), at, data);
        go_on(answer)
    }

    /// Fills all of the output with the session's bytes from an offset on.
    pub fn read<B: AsRef<[u8]>>(
        self,
        original: &[u8],
        history: &History<B>,
        at: u64,
        output: &mut [u8],
    ) -> Result<Session, Refused> {
        go_on(raw::session_read(
            *self.state,
            original,
            history.bytes(),
            at,
            output,
        ))
    }

    /// Commits the session and gives the number of the new revision. The lock is clear then.
    pub fn commit<B: AsRef<[u8]> + AsMut<[u8]>>(
        self,
        history: &mut History<B>,
        note: &Note<'_>,
    ) -> Result<u64, Refused> {
        // An accepted commit adds one revision to those that the session was opened over.
        let revision = self.state.count.wrapping_add(1);
        let answer = raw::commit(
            *self.state,
            history.bytes_mut(),
            note.time.as_bytes(),
            note.user,
            &closed(note.name),
            &closed(note.comment),
        );
        go_on(answer).map(|_ended| revision)
    }

    /// Ends the session without a revision and clears the lock.
    pub fn release<B: AsRef<[u8]> + AsMut<[u8]>>(
        self,
        history: &mut History<B>,
    ) -> Result<(), Refused> {
        go_on(raw::release(*self.state, history.bytes_mut())).map(|_ended| ())
    }
}

/// The session after a call, or the refusal with it.
fn go_on(answer: onion_answer) -> Result<Session, Refused> {
    let session = Session::from_raw(answer.session);
    match Refusal::from_number(answer.number) {
        Ok(()) => Ok(session),
        Err(refusal) => Err(Refused { refusal, session }),
    }
}

/// A text with the closing zero that the store asks for.
fn closed(text: &str) -> Vec<u8> {
    let mut bytes = text.as_bytes().to_vec();
    bytes.push(0);
    bytes
}

/// Drops the session, which leaves the history locked.
impl From<Refused> for Refusal {
    fn from(refused: Refused) -> Refusal {
        refused.refusal
    }
}

impl fmt::Display for Refused {
    fn fmt(&self, f: &mut fmt::Formatter<'_>) -> fmt::Result {
        self.refusal.fmt(f)
    }
}

impl Error for Refused {}
