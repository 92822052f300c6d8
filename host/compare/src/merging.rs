//! Long indexes, and sessions with many pages that are put in or put over.

use crate::calls::Store;
use crate::exercise;
use crate::report::Test;
use forge::{Entry, Plan, Random, LIMIT, NEWEST};
use twin::Session;

pub fn run(test: &mut Test, random: &mut Random, _: u64) {
    let mut plan = long_index(random);
    let parent = random.pick(&[0, 1, 1, 1]);
    let session = many_pages(random, &plan, parent);
    plan.set_lock();
    let room = match random.below(4) {
        0 => session.n * plan.page + random.below(100_000),
        _ => (session.n + 300) * plan.page + 130_000,
    };
    plan.give_room(random, room);
    let mut store = Store::planned(random, &plan);
    let page = plan.page;
    let mut session = session;
    for _ in 0..3 {
        let at = exercise::offset(random, page, session.size);
        store.session_read(test, session, at, 1 + 4 * page as usize);
        let at = match damaged(&plan) {
            // Around the page that is wrong.
            Some(logical) if random.one_in(2) => {
                (logical + page).saturating_sub(random.below(3 * page))
            }
            _ => random.below(session.size.min(5_000 * page) + 1),
        };
        let length = random.below(40 * page) as usize;
        let rest = session.size.saturating_sub(at) as usize;
        store.session_read(test, session, at, length.min(rest));
        let data = random.bytes(length);
        session = store.write(test, session, at, &data).session;
    }
    if exercise::commit(test, &mut store, random, session) != 0 {
        return;
    }
    store.check(test);
    let size = exercise::size_of(&store, NEWEST);
    for _ in 0..3 {
        let at = random.below(size.min(5_000 * page));
        let length = random.below(100 * page).min(size - at) as usize;
        store.read(test, NEWEST, at, length);
        store.read(test, 1, at, length);
        store.look_up(test, NEWEST, at & !(page - 1));
    }
    store.browse(test, 2);
    let answer = store.open(test, NEWEST);
    exercise::use_session(test, &mut store, random, answer.session);
}

/// One revision with an index of any length. Most pages are right; sometimes one is not.
fn long_index(random: &mut Random) -> Plan {
    let page = random.pick(&[16, 16, 16, 32, 64]);
    let held = match random.below(4) {
        0 => random.below(60),
        1 => random.between(100, 700),
        2 => random.between(3_700, 4_096),
        _ => 4_096 - random.below(4),
    };
    let mut plan = forge::empty(page, random.below(30_000));
    plan.allow_branching();
    // Each next page is one of those that follow.
    let stride = random.between(1, 4);
    let mut logical = random.below(stride);
    let mut logicals = Vec::new();
    for _ in 0..held {
        logicals.push(logical * page);
        logical += random.between(1, stride);
    }
    let least = logicals.last().map_or(0, |last| last + 1);
    let most = (least + 400 * page).min(LIMIT);
    let size = plan.original.max(random.between(least, most));
    let pages = random.between(1, 40);
    let mut record = forge::plain_record(1, 60 + pages * page, page, size);
    for logical in logicals {
        let physical = 60 + random.below((pages - 1) * page + 1);
        record.entries.push(Entry::new(logical, physical));
    }
    if random.one_in(3) {
        let place = random.below(held) as usize;
        if let Some(entry) = record.entries.get_mut(place) {
            entry.page_sum_fault = 1 << random.below(32);
        }
    }
    plan.append(record);
    plan
}

/// The address of the page with a wrong checksum.
fn damaged(plan: &Plan) -> Option<u64> {
    let entries = &plan.records[0].entries;
    let entry = entries.iter().find(|entry| entry.page_sum_fault != 0)?;
    Some(entry.logical)
}

/// A session with up to 256 pages in any order, over indexed pages as well as beside them.
fn many_pages(random: &mut Random, plan: &Plan, parent: u64) -> Session {
    let mut session = exercise::opened_session(plan, parent);
    session.size = (session.size + random.below(300 * plan.page)).min(LIMIT);
    let pages = session.size.div_ceil(plan.page);
    let wanted = match random.below(3) {
        0 => 256,
        1 => random.below(257),
        _ => random.below(20),
    };
    let mut logicals: Vec<u32> = (0..wanted)
        .map(|_| (random.below(pages) * plan.page) as u32)
        .collect();
    if pages == 0 {
        logicals.clear();
    }
    exercise::touch(random, &mut session, logicals);
    session
}
