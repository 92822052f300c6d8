//! The proved store with the same signatures as the twin.
//!
//! The twin has types of its own, so each answer is handed on field by field.

use onion::raw;
use onion_sys::*;
use twin::{Answer, Browsed, Checked, Found, Part, Record, Session, Setting, Step};

pub use raw::{checksum, create, list, read};

/// The session as the C interface has it.
pub fn c_session(session: Session) -> onion_session {
    let Session {
        end,
        count,
        parent,
        size,
        n,
        pages,
    } = session;
    onion_session {
        end,
        count,
        parent,
        size,
        n,
        pages,
    }
}

fn answer(answer: onion_answer) -> Answer {
    let onion_session {
        end,
        count,
        parent,
        size,
        n,
        pages,
    } = answer.session;
    Answer {
        number: answer.number,
        session: Session {
            end,
            count,
            parent,
            size,
            n,
            pages,
        },
    }
}

fn part(part: onion_part) -> Part {
    let onion_part { offset, length } = part;
    Part { offset, length }
}

pub fn open(original: &[u8], history: &mut [u8], revision: u64) -> Answer {
    answer(raw::open(original, history, revision))
}

pub fn write(
    session: Session,
    original: &[u8],
    history: &mut [u8],
    at: u64,
    data: &[u8],
) -> Answer {
    answer(raw::write(c_session(session), original, history, at, data))
}

pub fn commit(
    session: Session,
    history: &mut [u8],
    time: &[u8],
    user: u32,
    name: &[u8],
    comment: &[u8],
) -> Answer {
    let session = c_session(session);
    answer(raw::commit(session, history, time, user, name, comment))
}

pub fn release(session: Session, history: &mut [u8]) -> Answer {
    answer(raw::release(c_session(session), history))
}

pub fn session_read(
    session: Session,
    original: &[u8],
    history: &[u8],
    at: u64,
    out: &mut [u8],
) -> Answer {
    let session = c_session(session);
    answer(raw::session_read(session, original, history, at, out))
}

pub fn look_up(original: &[u8], history: &[u8], revision: u64, address: u64) -> Found {
    let onion_found {
        number,
        source,
        offset,
        length,
    } = raw::look_up(original, history, revision, address);
    Found {
        number,
        source,
        offset,
        length,
    }
}

pub fn check(history: &[u8]) -> Checked {
    let onion_checked {
        number,
        revision,
        entry,
    } = raw::check(history);
    Checked {
        number,
        revision,
        entry,
    }
}

pub fn setting_of(history: &[u8]) -> Setting {
    let onion_setting {
        number,
        page_size,
        original,
        revisions,
        end,
        lock,
        branching,
    } = raw::setting_of(history);
    Setting {
        number,
        page_size,
        original,
        revisions,
        end,
        lock,
        branching,
    }
}

pub fn record_of(history: &[u8], revision: u64) -> Record {
    let onion_record {
        number,
        revision,
        parent,
        logical,
        user,
        entries,
        time,
        name,
        comment,
    } = raw::record_of(history, revision);
    Record {
        number,
        revision,
        parent,
        logical,
        user,
        entries,
        time: part(time),
        name: part(name),
        comment: part(comment),
    }
}

pub fn browse(history: &[u8], revision: u64) -> Browsed {
    let onion_browsed {
        number,
        offset,
        length,
    } = raw::browse(history, revision);
    Browsed {
        number,
        offset,
        length,
    }
}

pub fn browse_step(record: &[u8], place: u64) -> Step {
    let onion_step {
        kind,
        logical,
        physical,
        page_sum,
        entry_sum,
    } = raw::browse_step(record, place);
    Step {
        kind,
        logical,
        physical,
        page_sum,
        entry_sum,
    }
}
