//! All calls on a history of any kind, with arguments that mostly fit it.

use crate::calls::{browse_step, Store};
use crate::report::Test;
use forge::{Plan, Random, NEWEST};
use twin::Session;

/// What a history seems to say; it may be damaged.
pub struct Guess {
    pub page: u64,
    pub count: u64,
}

pub fn guess(history: &[u8]) -> Guess {
    let page = match history.len() {
        0..40 => 16,
        _ => match u64::from(forge::number_of_4(history, 8)) {
            page @ 16..=4_096 if page.is_power_of_two() => page,
            _ => 16,
        },
    };
    Guess {
        page,
        count: forge::locations(history).len() as u64,
    }
}

/// The logical size that a revision seems to have.
pub fn size_of(store: &Store, revision: u64) -> u64 {
    let locations = forge::locations(store.history());
    let place = match revision {
        NEWEST => locations.last(),
        _ => locations.get(revision.wrapping_sub(1) as usize),
    };
    let record = place.and_then(|place| forge::record(store.history(), *place));
    match record {
        Some(record) => forge::number_of_8(store.history(), record.start + 40),
        None => store.original().len() as u64,
    }
}

pub fn revision(random: &mut Random, count: u64) -> u64 {
    match random.below(12) {
        0 => 0,
        1 => count.saturating_add(1),
        2 => random.extreme(count),
        3..=5 => NEWEST,
        _ => random.between(0, count),
    }
}

/// An offset, mostly up to the size and often near a border.
pub fn offset(random: &mut Random, page: u64, size: u64) -> u64 {
    match random.below(10) {
        0 => random.extreme(size),
        1 => size,
        2 => size.saturating_sub(random.below(3)),
        3..=5 => {
            let border = random.below(size.min(12 * page) / page + 1) * page;
            border.saturating_add(random.below(3)).saturating_sub(1)
        }
        6 => random.below(size.saturating_add(1)),
        _ => random.below(size.min(10 * page).saturating_add(1)),
    }
}

pub fn length(random: &mut Random, page: u64) -> usize {
    let length = match random.below(6) {
        0 => 0,
        1 => 1,
        2 => page * random.between(1, 3),
        3 => random.below(4 * page),
        _ => random.below(40),
    };
    length as usize
}

/// A length for a read at an offset; mostly one that the size allows, sometimes up to the last byte or one over.
fn read_length(random: &mut Random, page: u64, size: u64, at: u64) -> usize {
    let rest = size.saturating_sub(at);
    if rest < 20_000 && random.one_in(6) {
        return (rest + random.below(2)) as usize;
    }
    length(random, page).min(match random.below(8) {
        0 => 20_000,
        _ => rest.min(20_000) as usize,
    })
}

/// Reads, look-ups and browsing of one revision.
pub fn read_all_ways(test: &mut Test, store: &Store, random: &mut Random, revision: u64) {
    let page = guess(store.history()).page;
    let size = size_of(store, revision);
    for _ in 0..2 {
        let at = offset(random, page, size);
        let length = read_length(random, page, size, at);
        store.read(test, revision, at, length);
    }
    for _ in 0..2 {
        let address = match random.below(8) {
            0 => random.extreme(size),
            1 => offset(random, page, size),
            2 => size.saturating_sub(1) & !(page - 1),
            _ => offset(random, page, size) & !(page - 1),
        };
        store.look_up(test, revision, address);
    }
    let browsed = store.browse(test, revision);
    if browsed.number == 0 {
        let record = browsed.offset as usize..(browsed.offset + browsed.length) as usize;
        let record = &store.history()[record];
        for place in [0, 1, random.below(10), random.extreme(0)] {
            browse_step(test, record, place);
        }
    }
}

/// A session that seems to fit the history, with some own pages.
pub fn fitting_session(store: &Store, random: &mut Random, revision: u64) -> Session {
    let guess = guess(store.history());
    let size = size_of(store, revision);
    let mut session = Session {
        end: forge::committed_end(store.history()),
        count: guess.count,
        parent: revision.min(guess.count),
        size,
        ..Session::ENDED
    };
    if random.one_in(2) {
        session.size = size.saturating_add(random.below(3 * guess.page));
    }
    let room = (store.history().len() as u64).saturating_sub(session.end) / guess.page;
    let pages = session.size.min(forge::LIMIT).div_ceil(guess.page);
    let logicals = (0..random.below(5).min(room).min(pages))
        .map(|_| (random.below(pages.min(12)) * guess.page) as u32)
        .collect();
    touch(random, &mut session, logicals);
    session
}

/// The session that an opening of this revision would hand back.
pub fn opened_session(plan: &Plan, parent: u64) -> Session {
    Session {
        end: plan.end(),
        count: plan.records.len() as u64,
        parent,
        size: plan.size_of(parent),
        ..Session::ENDED
    }
}

/// Gives a session these pages, each once, in any order of touch.
pub fn touch(random: &mut Random, session: &mut Session, mut logicals: Vec<u32>) {
    logicals.sort_unstable();
    logicals.dedup();
    random.shuffle(&mut logicals);
    session.n = logicals.len() as u64;
    session.pages[..logicals.len()].copy_from_slice(&logicals);
}

/// Some writes and reads through a session, then its end.
pub fn use_session(test: &mut Test, store: &mut Store, random: &mut Random, start: Session) {
    let page = guess(store.history()).page;
    let mut session = start;
    for _ in 0..random.below(4) {
        let at = offset(random, page, session.size);
        let data = random.pick(&[true, true, false]);
        if data {
            let length = length(random, page);
            let data = random.bytes(length);
            session = store.write(test, session, at, &data).session;
        } else {
            let length = read_length(random, page, session.size, at);
            store.session_read(test, session, at, length);
        }
    }
    if random.one_in(5) {
        store.release(test, session);
        return;
    }
    let answer = commit(test, store, random, session);
    if answer == 0 {
        read_all_ways(test, store, random, NEWEST);
        store.check(test);
    } else {
        store.release(test, session);
    }
}

/// A commit with words that are mostly by the layout.
pub fn commit(test: &mut Test, store: &mut Store, random: &mut Random, session: Session) -> u64 {
    let mut time = forge::time(random);
    let mut name = forge::text(random, 64);
    let mut comment = forge::text(random, 256);
    if random.one_in(6) {
        spoil_words(random, &mut time, &mut name, &mut comment);
    }
    let user = random.number() as u32;
    store
        .commit(test, session, &time, user, &name, &comment)
        .number
}

/// Makes one of the words wrong.
pub fn spoil_words(
    random: &mut Random,
    time: &mut Vec<u8>,
    name: &mut Vec<u8>,
    comment: &mut Vec<u8>,
) {
    match random.below(9) {
        0 | 1 => *time = forge::wrong_time(random),
        2 => time.truncate(random.below(16) as usize),
        3 => time.extend_from_slice(&b"00000Z"[..random.between(1, 6) as usize]),
        4 => *name = forge::wrong_text(random, 64),
        5 => *comment = forge::wrong_text(random, 256),
        6 => name.clear(),
        7 => comment.clear(),
        _ => {
            let (word, length) = match random.below(2) {
                0 => (name, random.pick(&[65, 66, 256, 300])),
                _ => (comment, random.pick(&[257, 258, 512, 1_000])),
            };
            *word = vec![b'a'; length];
            word[length - 1] = 0;
        }
    }
}

/// What the history and each of its records say, and the list.
fn tell_all(test: &mut Test, store: &Store, random: &mut Random, count: u64) {
    store.setting_of(test);
    let others = [NEWEST, count.saturating_add(1), random.extreme(count)];
    for revision in (0..=count).chain(others) {
        store.record_of(test, revision);
    }
    store.list(test);
}

/// All calls on the history, those that change it on copies.
pub fn exercise(test: &mut Test, store: &Store, random: &mut Random) {
    store.check(test);
    let count = guess(store.history()).count;
    tell_all(test, store, random, count);
    for _ in 0..2 {
        let revision = revision(random, count);
        read_all_ways(test, store, random, revision);
    }
    let parent = revision(random, count);
    let mut opened = store.clone();
    let answer = opened.open(test, parent);
    if answer.number == 0 {
        use_session(test, &mut opened, random, answer.session);
    }
    let mut locked = locked(store, random);
    let session = fitting_session(store, random, parent);
    use_session(test, &mut locked, random, session);
    let mut released = store.clone();
    released.release(test, session);
}

/// The same history with the lock set. The header's checksum is made right if it was.
pub fn locked(store: &Store, random: &mut Random) -> Store {
    let mut history = store.history().to_vec();
    if history.len() >= 40 {
        let right = forge::number_of_4(&history, 36) == twin::checksum(&history[..36]);
        history[5] |= 1;
        if right {
            forge::repair(&mut history, forge::Repair::Header);
        }
    }
    store.with_history(random, &history)
}
