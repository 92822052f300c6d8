//! The store's functions over slices, with its numbers and structs as they are.
//!
//! The rest of this crate is written over these. They are for those who want the numbers themselves; nothing here keeps
//! a session from being used twice.
//!
//! This is the only module with unsafe code. What the header asks of a caller holds for every call below:
//!
//! - a slice's bytes stand for the whole call, and exactly its length is lent;
//! - a slice that is changed is a `&mut`, so it overlaps no other argument.
//!
//! The functions keep no pointer, and they are total: no argument of these types makes them fail.

#![allow(unsafe_code)]

use std::ffi::CStr;

use onion_sys::*;

/// The ended session, which fits no history.
pub const ENDED: onion_session = onion_session {
    end: 0,
    count: 0,
    parent: 0,
    size: 0,
    n: 0,
    pages: [0; ONION_TOUCHED_MOST],
};

/// Starts a history.
pub fn create(history: &mut [u8], original: u64, page_size: u64, branching: bool) -> u64 {
    // SAFETY: as the module says; `history` is the only slice.
    unsafe {
        onion_create(
            history.as_mut_ptr(),
            history.len(),
            original,
            page_size,
            branching,
        )
    }
}

/// Opens a revision for writing.
pub fn open(original: &[u8], history: &mut [u8], revision: u64) -> onion_answer {
    // SAFETY: as the module says; `history` is changed and exclusively borrowed.
    unsafe {
        onion_open(
            original.as_ptr(),
            original.len(),
            history.as_mut_ptr(),
            history.len(),
            revision,
        )
    }
}

/// Writes data through a session.
pub fn write(
    session: onion_session,
    original: &[u8],
    history: &mut [u8],
    at: u64,
    data: &[u8],
) -> onion_answer {
    // SAFETY: as the module says; `history` is changed and exclusively borrowed.
    unsafe {
        onion_write(
            session,
            original.as_ptr(),
            original.len(),
            history.as_mut_ptr(),
            history.len(),
            at,
            data.as_ptr(),
            data.len(),
        )
    }
}

/// Commits a session as the next revision. The texts end in the zero that closes them.
pub fn commit(
    session: onion_session,
    history: &mut [u8],
    time: &[u8],
    user: u32,
    name: &[u8],
    comment: &[u8],
) -> onion_answer {
    // SAFETY: as the module says; `history` is changed and exclusively borrowed.
    unsafe {
        onion_commit(
            session,
            history.as_mut_ptr(),
            history.len(),
            time.as_ptr(),
            time.len(),
            user,
            name.as_ptr(),
            name.len(),
            comment.as_ptr(),
            comment.len(),
        )
    }
}

/// Clears the lock and ends the session.
pub fn release(session: onion_session, history: &mut [u8]) -> onion_answer {
    // SAFETY: as the module says; `history` is the only slice.
    unsafe { onion_release(session, history.as_mut_ptr(), history.len()) }
}

/// Fills the output from a revision.
pub fn read(original: &[u8], history: &[u8], revision: u64, at: u64, output: &mut [u8]) -> u64 {
    // SAFETY: as the module says; `output` is changed and exclusively borrowed.
    unsafe {
        onion_read(
            original.as_ptr(),
            original.len(),
            history.as_ptr(),
            history.len(),
            revision,
            at,
            output.as_mut_ptr(),
            output.len(),
        )
    }
}

/// Fills the output through a session.
pub fn session_read(
    session: onion_session,
    original: &[u8],
    history: &[u8],
    at: u64,
    output: &mut [u8],
) -> onion_answer {
    // SAFETY: as the module says; `output` is changed and exclusively borrowed.
    unsafe {
        onion_session_read(
            session,
            original.as_ptr(),
            original.len(),
            history.as_ptr(),
            history.len(),
            at,
            output.as_mut_ptr(),
            output.len(),
        )
    }
}

/// Says where a page of a revision lies.
pub fn look_up(original: &[u8], history: &[u8], revision: u64, address: u64) -> onion_found {
    // SAFETY: as the module says; nothing is changed.
    unsafe {
        onion_look_up(
            original.as_ptr(),
            original.len(),
            history.as_ptr(),
            history.len(),
            revision,
            address,
        )
    }
}

/// Checks the whole history.
pub fn check(history: &[u8]) -> onion_checked {
    // SAFETY: as the module says; nothing is changed.
    unsafe { onion_check(history.as_ptr(), history.len()) }
}

/// Says what a history says of itself.
pub fn setting_of(history: &[u8]) -> onion_setting {
    // SAFETY: as the module says; nothing is changed.
    unsafe { onion_setting_of(history.as_ptr(), history.len()) }
}

/// Says what the record of a revision says.
pub fn record_of(history: &[u8], revision: u64) -> onion_record {
    // SAFETY: as the module says; nothing is changed.
    unsafe { onion_record_of(history.as_ptr(), history.len(), revision) }
}

/// Lists the history as text at the start of the output, where there is room for all of it.
pub fn list(history: &[u8], output: &mut [u8]) -> u64 {
    // SAFETY: as the module says; `output` is changed and exclusively borrowed.
    unsafe {
        onion_list(
            history.as_ptr(),
            history.len(),
            output.as_mut_ptr(),
            output.len(),
        )
    }
}

/// Says where the record of a revision lies.
pub fn browse(history: &[u8], revision: u64) -> onion_browsed {
    // SAFETY: as the module says; nothing is changed.
    unsafe { onion_browse(history.as_ptr(), history.len(), revision) }
}

/// Gives the index entry at a place of a record.
pub fn browse_step(record: &[u8], place: u64) -> onion_step {
    // SAFETY: as the module says; nothing is changed.
    unsafe { onion_browse_step(record.as_ptr(), record.len(), place) }
}

/// The checksum of any bytes.
pub fn checksum(bytes: &[u8]) -> u32 {
    // SAFETY: as the module says; nothing is changed.
    unsafe { onion_checksum(bytes.as_ptr(), bytes.len()) }
}

/// The sentence of a number.
pub fn sentence(number: u64) -> &'static str {
    // SAFETY: the function takes any number and gives a text of the library's own, closed by a zero, which stands as
    // long as the program.
    let sentence = unsafe { CStr::from_ptr(onion_sentence(number)) };
    sentence.to_str().expect("the sentences are ASCII")
}

/// The version of the library that is linked.
pub fn version() -> u32 {
    // SAFETY: the function takes nothing and tells a number.
    unsafe { onion_version() }
}
