//! Extreme numbers as arguments, empty slices, arbitrary records to browse, and checksums of many lengths.

use crate::calls::{self, Store};
use crate::exercise;
use crate::report::Test;
use forge::{Random, EXTREMES, LIMIT, NEWEST};
use twin::Session;

/// Every call with extreme numbers on one legal history.
pub fn run_extremes(test: &mut Test, random: &mut Random, number: u64) {
    let mut plan = forge::legal(random);
    plan.allow_branching();
    let store = Store::planned(random, &plan);
    let count = plan.records.len() as u64;
    let mut numbers = EXTREMES.to_vec();
    for near in [count, plan.original, plan.size_of(count), plan.page] {
        numbers.extend([near.wrapping_sub(1), near, near + 1]);
    }
    let revision = match number % 3 {
        0 => NEWEST,
        1 => 0,
        _ => random.between(0, count),
    };
    let mut opened = store.clone();
    let session = opened.open(test, revision).session;
    for at in &numbers {
        for length in [0, 1, 17, 4_097] {
            store.read(test, revision, *at, length);
            opened.session_read(test, session, *at, length);
            let data = random.bytes(length);
            opened.clone().write(test, session, *at, &data);
        }
        store.look_up(test, revision, *at);
        store.look_up(test, *at, 0);
        store.read(test, *at, 0, 1);
        store.read(test, *at, *at, 0);
        store.browse(test, *at);
        store.record_of(test, *at);
        store.clone().open(test, *at);
        for page in [16, 4_096, *at] {
            store.clone().create(test, *at, page, at % 2 == 0);
        }
        store.clone().create(test, 0, *at, at % 3 == 0);
    }
}

/// Empty slices in every place.
pub fn run_empty(test: &mut Test, random: &mut Random, _: u64) {
    let mut session = Session::ENDED;
    if random.one_in(2) {
        session.n = random.below(300);
        session.size = random.below(300);
    }
    let mut nothing = Store::new(random, &[], &[]);
    exercise::exercise(test, &nothing, random);
    nothing.create(test, 0, 16, true);
    nothing.open(test, 0);
    nothing.write(test, session, 0, &[]);
    nothing.commit(test, session, &[], 0, &[], &[]);
    nothing.release(test, session);
    let page = random.page_size();
    for length in [60, 61, 137, 158, 159, 200, 700 + 20 * page as usize] {
        let history = random.bytes(length);
        let mut store = Store::new(random, &[], &history);
        store.create(test, 0, page, random.one_in(2));
        store.read(test, 0, 0, 0);
        store.read(test, 0, 1, 0);
        store.look_up(test, 0, 0);
        exercise::read_all_ways(test, &store, random, 0);
        let session = store.open(test, 0).session;
        store.write(test, session, 0, &[]);
        store.write(test, session, 1, &[]);
        let length = random.below(3 * page);
        let data = random.bytes(length as usize);
        let session = store.write(test, session, 0, &data).session;
        store.session_read(test, session, 0, length as usize);
        store.commit(test, session, forge::TIME, 0, &[], &[]);
        store.commit(test, session, &[], 0, b"\0", b"\0");
        store.commit(test, session, forge::TIME, u32::MAX, b"\0", b"\0");
        store.check(test);
        exercise::exercise(test, &store, random);
    }
}

/// A browsing step over any bytes at all.
pub fn run_steps(test: &mut Test, random: &mut Random, _: u64) {
    for _ in 0..20 {
        let length = match random.below(4) {
            0 => random.below(80),
            1 => 76 + 24 * random.below(6),
            2 => 75 + 24 * random.below(6),
            _ => random.below(400),
        };
        let mut record = random.bytes(length as usize);
        let room = length.saturating_sub(76) / 24;
        if length >= 64 {
            let count = match random.below(5) {
                0 => room + 1,
                1 => room,
                2 => random.extreme(room),
                3 => room + random.pick(&[1 << 61, 1 << 62, 1 << 63]),
                _ => random.below(room + 1),
            };
            forge::put_8(&mut record, 56, count);
        }
        for place in [
            0,
            room,
            room.wrapping_sub(1),
            random.below(room + 2),
            random.extreme(room),
        ] {
            calls::browse_step(test, &record, place);
        }
    }
    calls::browse_step(test, &[], random.extreme(0));
}

fn checksum(test: &mut Test, bytes: &[u8]) {
    calls::checksum(test, bytes);
    if twin::checksum(bytes) != forge::checksum(bytes) {
        let text = "both sides answer another number than the paper";
        test.differs(&format!("checksum of {} bytes", bytes.len()), text, "");
    }
}

/// Checksums of lengths odd and even, of bytes light and heavy.
pub fn run_checksums(test: &mut Test, random: &mut Random, number: u64) {
    let lengths = 40 * number as usize..40 * (number as usize + 1);
    let most = match random.below(5) {
        0 => 70_000,
        _ => 9_000,
    };
    for length in lengths
        .chain((0..20).map(|_| random.below(most) as usize))
        .collect::<Vec<_>>()
    {
        let skipped = random.below(16) as usize;
        let mut bytes = random.bytes(skipped + length);
        let kind = random.below(4);
        match kind {
            0 => bytes.fill(0xFF),
            1 => bytes.fill(0),
            _ => {}
        }
        if kind == 1 && length > 0 && random.one_in(2) {
            let at = skipped + random.below(length as u64) as usize;
            bytes[at] = random.number() as u8;
        }
        checksum(test, &bytes[skipped..]);
    }
}

/// Checksums of megabytes, also over the limit.
pub fn run_large_checksums(test: &mut Test, random: &mut Random, number: u64) {
    let length = match number % 6 {
        0 => LIMIT,
        1 => LIMIT - 1,
        2 => LIMIT + 1,
        3 => 3 * LIMIT + 1,
        4 => random.below(LIMIT),
        _ => random.below(1 << 20),
    };
    let mut bytes = random.bytes(length as usize);
    checksum(test, &bytes);
    bytes.fill(0xFF);
    checksum(test, &bytes);
}

/// A session of random words on a history of random bytes.
pub fn run_anything(test: &mut Test, random: &mut Random, _: u64) {
    let length = random.below(300) as usize;
    let mut history = random.bytes(length);
    if length >= 40 && random.one_in(2) {
        forge::put(&mut history, 0, b"OHDH\x01\x01\0\0\x10\0\0\0");
        forge::put_8(&mut history, 12, random.extreme(10));
        forge::put_8(&mut history, 20, random.extreme(40));
        forge::put_8(&mut history, 28, random.extreme(20));
        let depth = random.pick(&forge::REPAIRS);
        forge::repair(&mut history, depth);
    }
    let length = random.below(30) as usize;
    let original = random.bytes(length);
    let store = Store::new(random, &original, &history);
    exercise::exercise(test, &store, random);
    let session = Session {
        end: random.extreme(60),
        count: random.extreme(0),
        parent: random.extreme(0),
        size: random.extreme(20),
        n: random.extreme(1),
        pages: [(); 256].map(|()| random.number() as u32),
    };
    exercise::use_session(test, &mut store.clone(), random, session);
}
