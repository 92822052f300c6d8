//! Sessions of every kind on locked histories: right ones, ones with one word off, and random words.

use crate::calls::Store;
use crate::exercise;
use crate::report::Test;
use forge::{Plan, Random, LIMIT};
use twin::Session;

pub fn run(test: &mut Test, random: &mut Random, _: u64) {
    let mut plan = forge::legal(random);
    if !random.one_in(12) {
        plan.set_lock();
    }
    let count = plan.records.len() as u64;
    let parent = match random.below(3) {
        0 => count,
        _ => random.between(0, count),
    };
    let mut session = right_session(&plan, random, parent);
    // Room for the pages and what a commit stores, or not quite.
    let room = session.n * plan.page;
    let room = match random.below(5) {
        0 => room + random.below(400),
        1 => room.saturating_sub(random.below(2)),
        _ => room + 30 * plan.page + 4_000,
    };
    plan.give_room(random, room);
    let store = Store::planned(random, &plan);
    use_it(test, random, &store, session, plan.page);
    for _ in 0..6 {
        let mut other = session;
        spoil(random, &mut other, &plan, store.history().len() as u64);
        use_it(test, random, &store, other, plan.page);
    }
    // Slots from n on mean nothing, whatever they hold.
    for page in &mut session.pages[session.n as usize..] {
        *page = random.number() as u32;
    }
    use_it(test, random, &store, session, plan.page);
}

/// Every session call, those that change the history on copies.
fn use_it(test: &mut Test, random: &mut Random, store: &Store, session: Session, page: u64) {
    for _ in 0..2 {
        let at = exercise::offset(random, page, session.size);
        let length = exercise::length(random, page);
        store.session_read(test, session, at, length);
    }
    let mut written = store.clone();
    let at = exercise::offset(random, page, session.size);
    let length = exercise::length(random, page);
    let data = random.bytes(length);
    let answer = written.write(test, session, at, &data);
    if answer.number == 0 {
        exercise::commit(test, &mut written, random, answer.session);
    }
    let mut committed = store.clone();
    exercise::commit(test, &mut committed, random, session);
    let mut released = store.clone();
    released.release(test, session);
}

/// A session with some pages that fits the plan, in any order of touch.
fn right_session(plan: &Plan, random: &mut Random, parent: u64) -> Session {
    let mut session = exercise::opened_session(plan, parent);
    session.size = match random.below(4) {
        0 => session.size,
        1 => LIMIT,
        _ => (session.size + random.below(6 * plan.page)).min(LIMIT),
    };
    let pages = session.size.div_ceil(plan.page);
    let most = match random.below(10) {
        0 => 256,
        _ => 8,
    };
    let held = random.below(most + 1).min(pages);
    // A stride without common factor with the number of pages gives each page at most once.
    let start = random.below(pages);
    let stride = if held * 3 < pages { 3 } else { 1 };
    for k in 0..held {
        let number = match stride {
            3 => (start % 3 + 3 * ((start / 3 + k) % (pages / 3))).min(pages - 1),
            _ => (start + k) % pages,
        };
        session.pages[k as usize] = (number * plan.page) as u32;
    }
    session.n = held;
    if random.one_in(2) {
        session.pages[..held as usize].sort_unstable();
    }
    session
}

/// Makes one word wrong, or more.
fn spoil(random: &mut Random, session: &mut Session, plan: &Plan, room: u64) {
    let page = plan.page;
    let held = session.n.min(256) as usize;
    let slot = random.below(held as u64) as usize;
    match random.below(22) {
        0 => {
            session.end = session
                .end
                .wrapping_add(random.pick(&[1, u64::MAX, page, 1 << 32]))
        }
        1 => session.end = random.extreme(session.end),
        2 => {
            session.count = session
                .count
                .wrapping_add(random.pick(&[1, u64::MAX, 1 << 32]))
        }
        3 => session.count = random.extreme(1_023),
        4 => session.parent = session.count + random.pick(&[1, 2, 1 << 32]),
        5 => session.parent = random.extreme(session.count),
        6 => session.parent = random.below(session.count),
        7 => session.size = random.pick(&[LIMIT, LIMIT + 1, 1 << 32, u64::MAX]),
        8 => session.size = session.size.wrapping_add(1 << 32),
        9 => {
            session.size = plan
                .size_of(session.parent.min(session.count))
                .wrapping_sub(1)
        }
        10 => session.size = random.below(session.size + 1),
        11 => session.size = random.extreme(session.size),
        12 => session.n = random.pick(&[256, 257, 258, 1 << 32, 1 << 60, 1 << 63, u64::MAX]),
        13 => session.n = session.n.wrapping_add(1 << random.between(28, 63)),
        14 => {
            // As many pages as the buffer has room for, and one more.
            let fitting = room.saturating_sub(session.end) / page;
            let held = (fitting + random.below(2)).min(256);
            for k in 0..held {
                session.pages[k as usize] = (k * page) as u32;
            }
            session.n = held;
            session.size = session.size.max(held * page);
        }
        15 if held > 1 => session.pages[slot] = session.pages[(slot + 1) % held],
        16 if held > 0 => {
            session.pages[slot] = session.pages[slot].wrapping_add(1 << random.below(12))
        }
        17 if held > 0 => {
            let past = session.size.next_multiple_of(page) as u32;
            session.pages[slot] = random.pick(&[past, past.wrapping_add(page as u32)]);
        }
        18 if held > 0 => {
            session.pages[slot] =
                random.pick(&[u32::MAX, 1 << 31, u32::MAX - page as u32 + 1, LIMIT as u32])
        }
        19 => *session = Session::ENDED,
        20 => {
            *session = Session {
                end: random.number(),
                count: random.number(),
                parent: random.number(),
                size: random.number(),
                n: random.number(),
                pages: [(); 256].map(|()| random.number() as u32),
            }
        }
        _ => {
            session.n = random.below(257);
            for slot in &mut session.pages {
                *slot = random.number() as u32 & 0xFFFF & !(page as u32 - 1);
            }
        }
    }
}
