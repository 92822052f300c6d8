//! Revisions of a binary file, kept in one history beside it.
//!
//! The original is never changed. A [`History`] is a buffer of bytes that holds, behind a header, copied pages and a
//! record for each revision. The work is done by the store, which is proved; this crate lends it slices and turns its
//! numbers into Rust's types. Nothing here allocates on the scale of a file.
//!
//! - [`History::create`] starts a history, [`History::over`] takes one that stands.
//! - [`History::open`] gives a [`Session`] on a revision. Each of its calls takes the session and gives back the one to
//!   go on with, so a session cannot be used twice.
//! - [`History::read`], [`History::look_up`], [`History::check`], [`History::revisions`], [`History::entries`] and
//!   [`History::list`] read.
//!
//! A call that is not accepted gives a [`Refusal`], and no byte has changed.
//!
//! ```
//! use onion::{History, Note, Refusal, NEWEST};
//!
//! fn main() -> Result<(), Refusal> {
//!     let original = *b"a net of 20 meshes..";
//!     let mut history = History::create(vec![0; 512], original.len() as u64, 16, false)?;
//!
//!     // One session: write four bytes, commit them as revision 1.
//!     let session = history.open(&original, NEWEST)?;
//!     let session = session.write(&original, &mut history, 14, b"KNOT")?;
//!     let note = Note { time: "20240305T070000Z", user: 7, name: "ana", comment: "" };
//!     let revision = session.commit(&mut history, &note)?;
//!     assert_eq!(revision, 1);
//!
//!     // Both revisions can be read, for ever.
//!     let mut bytes = [0; 20];
//!     history.read(&original, 1, 0, &mut bytes)?;
//!     assert_eq!(&bytes, b"a net of 20 meKNOT..");
//!     history.read(&original, 0, 0, &mut bytes)?;
//!     assert_eq!(bytes, original);
//!
//!     for record in history.revisions() {
//!         let record = record?;
//!         println!("{} on {} by {}", record.revision, record.parent, record.name);
//!     }
//!     Ok(())
//! }
//! ```
//!
//! # Linking
//!
//! The build takes `libonion.a` from `target/lib`, where `make lib` puts it. `ONION_LIBRARY_FOLDER` names another
//! folder, and `ONION_LINK=dylib` takes `libonion.so` instead.

#![deny(unsafe_code)]
#![warn(missing_docs)]

mod history;
pub mod raw;
mod record;
mod refusal;
mod session;

pub use history::{History, Page, Revisions, Source, Summary};
pub use record::{Entries, Entry, Record};
pub use refusal::{Fault, Refusal};
pub use session::{Note, Refused, Session};

/// Asks for the newest revision, which is 0 (the original) where none was committed.
pub const NEWEST: u64 = onion_sys::ONION_NEWEST;

/// The original, a logical size and a history have at most so many bytes each.
pub const SIZE_MOST: usize = onion_sys::ONION_SIZE_MOST;

/// A page size is a power of two, and at least this.
pub const PAGE_SIZE_LEAST: u64 = onion_sys::ONION_PAGE_SIZE_LEAST;

/// A page size is a power of two, and at most this.
pub const PAGE_SIZE_MOST: u64 = onion_sys::ONION_PAGE_SIZE_MOST;

/// A history holds at most so many revisions.
pub const REVISIONS_MOST: usize = onion_sys::ONION_REVISIONS_MOST;

/// A record has at most so many index entries.
pub const ENTRIES_MOST: usize = onion_sys::ONION_ENTRIES_MOST;

/// A session touches at most so many pages.
pub const TOUCHED_MOST: usize = onion_sys::ONION_TOUCHED_MOST;

/// A name has at most so many bytes, its closing zero included.
pub const NAME_MOST: usize = onion_sys::ONION_NAME_MOST;

/// A comment has at most so many bytes, its closing zero included.
pub const COMMENT_MOST: usize = onion_sys::ONION_COMMENT_MOST;

/// A history begins with a header of so many bytes.
pub const HEADER_LENGTH: usize = onion_sys::ONION_HEADER_LENGTH;

/// A history that was just created has so many bytes.
pub const CREATED_LENGTH: usize = onion_sys::ONION_CREATED_LENGTH;

/// The checksum of the store, Fletcher-32, of any number of bytes.
///
/// ```
/// assert_eq!(onion::checksum(&[0x01]), 0x0100_0100);
/// ```
pub fn checksum(bytes: &[u8]) -> u32 {
    raw::checksum(bytes)
}

/// The version of the library that is linked, major and minor. The major one changes when a program has to.
pub fn version() -> (u16, u16) {
    let version = raw::version();
    ((version >> 16) as u16, version as u16)
}
