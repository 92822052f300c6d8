//! Random call sequences from creation on, with refused calls in between, and what was written kept beside them.

use crate::calls::Store;
use crate::exercise::{self, guess};
use crate::report::Test;
use forge::{Random, LIMIT, NEWEST};
use twin::Session;

/// What each revision and the open session must read as, by the paper's sentence: the parent's bytes with the writes
/// laid on.
struct Model {
    revisions: Vec<Vec<u8>>,
    session: Vec<u8>,
}

pub fn run(test: &mut Test, random: &mut Random, _: u64) {
    let page = random.page_size();
    let original = match random.below(4) {
        0 => random.below(3) * page,
        _ => random.below(5 * page),
    };
    let original = random.bytes(original as usize);
    let room = match random.below(12) {
        0 => random.below(130),
        1..=4 => 60 + random.below(12 * page + 800),
        _ => 60 + random.below(50 * page + 6_000),
    };
    let history = random.bytes(room as usize);
    let mut store = Store::new(random, &original, &history);
    if random.one_in(3) {
        // Nothing stands there yet.
        exercise::exercise(test, &store, random);
    }
    if random.one_in(4) {
        let page = random.extreme(page);
        let length = random.extreme(original.len() as u64);
        let branching = random.one_in(2);
        store.create(test, length, page, branching);
    }
    let branching = random.below(3) > 0;
    let length = original.len() as u64;
    if store.create(test, length, page, branching) != 0 {
        exercise::exercise(test, &store, random);
        return;
    }
    live(test, random, &mut store, page);
}

fn live(test: &mut Test, random: &mut Random, store: &mut Store, page: u64) {
    let mut model = Model {
        revisions: vec![store.original().to_vec()],
        session: Vec::new(),
    };
    let mut session = Session::ENDED;
    let mut past = vec![Session::ENDED];
    for _ in 0..random.between(8, 60) {
        let count = model.revisions.len() as u64 - 1;
        match random.below(24) {
            0..=3 => {
                let revision = exercise::revision(random, count);
                let answer = store.open(test, revision);
                if answer.number == 0 {
                    past.push(session);
                    session = answer.session;
                    let parent = revision.min(count) as usize;
                    model.session = model.revisions[parent].clone();
                }
            }
            4..=11 => {
                let at = exercise::offset(random, page, session.size);
                let length = exercise::length(random, page);
                let data = random.bytes(length);
                let answer = store.write(test, session, at, &data);
                if answer.number == 0 {
                    past.push(session);
                    session = answer.session;
                    lay(&mut model.session, at as usize, &data);
                }
            }
            12..=14 => {
                let at = exercise::offset(random, page, session.size);
                let length = exercise::length(random, page);
                let (number, out) = store.session_read(test, session, at, length);
                if number == 0 {
                    expect(test, "session read", at, &out, &model.session);
                }
            }
            15..=17 => {
                if exercise::commit(test, store, random, session) == 0 {
                    past.push(session);
                    session = Session::ENDED;
                    model.revisions.push(model.session.clone());
                }
            }
            18 => {
                // Its pages stay behind the committed end as scratch.
                if store.release(test, session).number == 0 {
                    past.push(session);
                    session = Session::ENDED;
                }
            }
            19 => {
                // A session of before, or of no history at all.
                let old = random.pick(&past);
                stale(test, random, store, old, page);
            }
            20 => refused_original(test, random, store, session),
            _ => {
                let any = random.below(count + 1);
                let revision = random.pick(&[NEWEST, count, any]);
                let shown = &model.revisions[revision.min(count) as usize];
                let at = exercise::offset(random, page, shown.len() as u64);
                let length = exercise::length(random, page);
                let (number, out) = store.read(test, revision, at, length);
                if number == 0 {
                    expect(test, "read", at, &out, shown);
                }
                exercise::read_all_ways(test, store, random, revision);
            }
        }
    }
    for (revision, shown) in model.revisions.iter().enumerate() {
        let (number, out) = store.read(test, revision as u64, 0, shown.len());
        if number != 0 {
            let text = format!("both sides refuse with {number} to read revision {revision} again");
            test.differs("read of a committed revision", &text, "");
        }
        expect(test, "read", 0, &out, shown);
    }
    if store.check(test).number != 0 {
        let text = "both sides find a fault in a history that they made";
        test.differs("check", text, "");
    }
    exercise::exercise(test, store, random);
}

/// Calls with a session that does not fit any more; what they change is not kept.
fn stale(test: &mut Test, random: &mut Random, store: &Store, session: Session, page: u64) {
    let mut store = store.clone();
    let at = exercise::offset(random, page, session.size);
    store.session_read(test, session, at, 1);
    store.write(test, session, at, b"stale");
    exercise::commit(test, &mut store, random, session);
}

/// Calls over an original of another length.
fn refused_original(test: &mut Test, random: &mut Random, store: &Store, session: Session) {
    let mut original = store.original().to_vec();
    match random.below(3) {
        0 => original.clear(),
        1 => drop(original.pop()),
        _ => original.push(1),
    }
    let mut other = store.with_original(random, &original);
    let count = guess(store.history()).count;
    let revision = exercise::revision(random, count);
    other.read(test, revision, 0, 1);
    other.look_up(test, revision, 0);
    other.session_read(test, session, 0, 1);
    other.write(test, session, 0, &[1]);
    other.open(test, revision);
}

fn lay(bytes: &mut Vec<u8>, at: usize, data: &[u8]) {
    if bytes.len() < at + data.len() {
        bytes.resize(at + data.len(), 0);
    }
    bytes[at..at + data.len()].copy_from_slice(data);
}

/// Both sides agree by now, so that the twin's bytes speak for both.
fn expect(test: &Test, call: &str, at: u64, out: &[u8], shown: &[u8]) {
    let at = at as usize;
    if out != &shown[at..at + out.len()] {
        let text = format!(
            "both sides read {} bytes at {at} that are not the parent's with the writes laid on",
            out.len()
        );
        test.differs(call, &text, "");
    }
}

/// Sequences on the largest buffers: a history of the limit, an original near it, sometimes one over it.
pub fn run_large(test: &mut Test, random: &mut Random, _: u64) {
    let page = random.pick(&[16, 4_096]);
    let length = match random.below(3) {
        0 => LIMIT as usize,
        _ => random.below(LIMIT) as usize,
    };
    let original = random.bytes(length);
    let over = random.one_in(4);
    let mut history = vec![0xEE; LIMIT as usize + usize::from(over)];
    random.fill(&mut history[..1 << 16]);
    let mut store = Store::new(random, &original, &history);
    if store.create(test, length as u64, page, true) != 0 {
        store.open(test, NEWEST);
        return;
    }
    for _ in 0..2 {
        let answer = store.open(test, NEWEST);
        let mut session = answer.session;
        for at in [
            0,
            session.size.saturating_sub(5),
            random.below(session.size + 1),
            session.size,
        ] {
            let length = exercise::length(random, page);
            let data = random.bytes(length);
            session = store.write(test, session, at, &data).session;
        }
        let at = random.below(session.size);
        store.session_read(test, session, at, (session.size - at) as usize);
        store.commit(test, session, forge::TIME, 1, b"large\0", b"\0");
    }
    store.read(test, 2, 0, exercise::size_of(&store, 2) as usize);
    store.check(test);
    store.setting_of(test);
    store.record_of(test, 2);
    store.list(test);
}
