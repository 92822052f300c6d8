//! The times of one call on both sides, the proved store's first.

use crate::histories::{accepted, Store};
use crate::timing::{best, Seconds};
use compare::proved::c_session;
use forge::TIME;
use onion::raw as proved;
use twin::Session;

/// A read of so many bytes from the start of a revision.
pub fn read(store: &Store, revision: u64, length: usize) -> [Seconds; 2] {
    let Store { original, history } = store;
    let mut ours = vec![0; length];
    let mut theirs = vec![0; length];
    let times = best([
        &mut || accepted(proved::read(original, history, revision, 0, &mut ours)),
        &mut || accepted(twin::read(original, history, revision, 0, &mut theirs)),
    ]);
    assert!(ours == theirs);
    times
}

/// A write. It touches its pages for the first time in each pass, since the session that it hands back is not used
/// again.
pub fn write(store: &Store, session: Session, at: u64, data: &[u8]) -> [Seconds; 2] {
    let (mut ours, mut theirs) = (store.clone(), store.clone());
    let lent = c_session(session);
    let times = best([
        &mut || {
            let Store { original, history } = &mut ours;
            accepted(proved::write(lent, original, history, at, data).number);
        },
        &mut || {
            let Store { original, history } = &mut theirs;
            accepted(twin::write(session, original, history, at, data).number);
        },
    ]);
    assert!(ours.history == theirs.history);
    times
}

/// A commit. It changes the header and bytes behind the committed end alone, so that the old header makes it possible
/// once more.
pub fn commit(store: &Store, session: Session) -> [Seconds; 2] {
    let (mut ours, mut theirs) = (store.history.clone(), store.history.clone());
    let header = &store.history[..40];
    let lent = c_session(session);
    let times = best([
        &mut || {
            ours[..40].copy_from_slice(header);
            let answer = proved::commit(lent, &mut ours, TIME, 7, b"ana\0", b"\0");
            accepted(answer.number);
        },
        &mut || {
            theirs[..40].copy_from_slice(header);
            let answer = twin::commit(session, &mut theirs, TIME, 7, b"ana\0", b"\0");
            accepted(answer.number);
        },
    ]);
    assert!(ours == theirs);
    times
}

/// The whole check.
pub fn check(store: &Store) -> [Seconds; 2] {
    let history = &store.history;
    best([&mut || accepted(proved::check(history).number), &mut || {
        accepted(twin::check(history).number)
    }])
}
