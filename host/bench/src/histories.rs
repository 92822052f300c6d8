//! Histories to take the time of. Both sides get the same bytes.

use forge::{Entry, Random, NEWEST, TIME};
use twin::Session;

/// An original and a history of it, which both sides find in buffers of their own.
#[derive(Clone)]
pub struct Store {
    pub original: Vec<u8>,
    pub history: Vec<u8>,
}

pub fn new(page: u64, original: usize, room: usize) -> Store {
    let mut random = Random::seeded(&[page, original as u64]);
    let original = random.bytes(original);
    let mut history = vec![0; room];
    accepted(twin::create(
        &mut history,
        original.len() as u64,
        page,
        true,
    ));
    Store { original, history }
}

/// Every call that is timed has to be accepted.
pub fn accepted(number: u64) {
    assert_eq!(number, 0, "a call to be timed was refused");
}

impl Store {
    pub fn open(&mut self) -> Session {
        let answer = twin::open(&self.original, &mut self.history, NEWEST);
        accepted(answer.number);
        answer.session
    }

    pub fn write(&mut self, session: Session, at: u64, data: &[u8]) -> Session {
        let answer = twin::write(session, &self.original, &mut self.history, at, data);
        accepted(answer.number);
        answer.session
    }

    pub fn commit(&mut self, session: Session) {
        let answer = twin::commit(session, &mut self.history, TIME, 7, b"ana\0", b"\0");
        accepted(answer.number);
    }

    /// One revision more, with a byte in each of these pages changed; no more than a session can hold.
    fn revise(&mut self, pages: impl Iterator<Item = u64>) {
        let mut session = self.open();
        for at in pages {
            session = self.write(session, at, b"*");
        }
        self.commit(session);
    }
}

/// A history whose newest revision has so many indexed pages, each so many bytes after the one before.
pub fn with_entries(page: u64, entries: u64, apart: u64, original: usize) -> Store {
    let rest = (3 + entries / 256) * (200 + 24 * entries);
    let mut store = new(page, original, (200_000 + entries * page + rest) as usize);
    for start in (0..entries).step_by(256) {
        let end = entries.min(start + 256);
        store.revise((start..end).map(|k| k * apart));
    }
    store
}

/// A history of one revision with so many indexed pages of sixteen bytes, one after the other.
pub fn with_one_revision(entries: u64) -> Store {
    let mut random = Random::seeded(&[entries]);
    let original = random.bytes(1 << 16);
    let mut plan = forge::empty(16, original.len() as u64);
    let mut record = forge::plain_record(1, 60 + 16 * entries, 16, plan.original);
    record.entries = (0..entries)
        .map(|k| Entry::new(16 * k, 60 + 16 * k))
        .collect();
    plan.append(record);
    plan.give_room(&mut random, 200_000);
    Store {
        original,
        history: plan.build(),
    }
}

/// A history of so many revisions, each with sixteen indexed pages of sixteen bytes.
pub fn with_revisions(revisions: u64) -> Store {
    let room = 100_000 + revisions * 500 + 10 * (revisions + 2) * (revisions + 2);
    let mut store = new(16, 4_096, room as usize);
    store.revise((0..16).map(|k| k * 256));
    for revision in 1..revisions {
        store.revise([revision % 16 * 256].into_iter());
    }
    store
}
