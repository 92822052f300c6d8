//! Each limit of the store reached exactly, and passed by one.

use crate::calls::{Store, EVERYTHING};
use crate::exercise;
use crate::report::Test;
use forge::{Entry, Plan, Random, LATER, LIMIT, NEWEST, PAGE_SIZES, TIME};
use twin::Session;

type Scenario = fn(&mut Test, &mut Random);

const SCENARIOS: [Scenario; 13] = [
    worked_example,
    touched_pages,
    merged_entries,
    merged_entries_in_commit,
    revisions_in_one_line,
    last_revision,
    room_for_a_write,
    room_for_a_commit,
    words_of_a_commit,
    end_of_a_write,
    page_over_the_originals_end,
    page_sizes,
    full_buffers,
];

pub const COUNT: u64 = SCENARIOS.len() as u64;

pub fn run(test: &mut Test, random: &mut Random, number: u64) {
    SCENARIOS[number as usize % SCENARIOS.len()](test, random);
}

/// What both sides have to answer by the paper; they agree by now.
fn expect(call: &str, number: u64, want: u64, test: &Test) {
    if number != want {
        let text = format!("both sides answer {number}, and the paper {want}");
        test.differs(call, &text, "");
    }
}

fn new_store(random: &mut Random, original: usize, page: u64, room: usize) -> Store {
    let original = random.bytes(original);
    let mut history = random.bytes(room);
    if twin::create(&mut history, original.len() as u64, page, true) != 0 {
        history.truncate(0);
    }
    Store::new(random, &original, &history)
}

/// A plan with one revision of so many indexed pages, all stored in one place.
fn indexed(page: u64, entries: u64, size: u64, random: &mut Random) -> Plan {
    let mut plan = forge::empty(page, random.below(size.min(1_000)));
    let mut record = forge::plain_record(1, 60 + page, page, size);
    record.entries = (0..entries).map(|k| Entry::new(k * page, 60)).collect();
    plan.append(record);
    plan.allow_branching();
    plan
}

/// The paper's example, call by call.
fn worked_example(test: &mut Test, random: &mut Random) {
    let history = random.bytes(512);
    let original = random.bytes(20);
    let mut store = Store::new(random, &original, &history);
    expect("create", store.create(test, 20, 16, false), 0, test);
    let session = store.open(test, NEWEST).session;
    expect("end", session.end, 60, test);
    let session = store.write(test, session, 14, b"abcd").session;
    expect("pages", session.n, 2, test);
    store.commit(test, session, TIME, 1, b"ana\0", b"\0");
    expect("end", forge::committed_end(store.history()), 261, test);
    let session = store.open(test, 1).session;
    let session = store.write(test, session, 20, b"e").session;
    expect("size", session.size, 21, test);
    store.commit(test, session, LATER, 1, b"ana\0", b"\0");
    expect("end", forge::committed_end(store.history()), 466, test);
    expect("read", store.read(test, 1, 20, 1).0, 10, test);
    expect("read", store.read(test, 2, 20, 1).0, 0, test);
    let session = store.open(test, 0);
    expect("open", session.number, 12, test);
    exercise::exercise(test, &store, random);
}

/// Row 14, first half: 256 touched pages, and 257.
fn touched_pages(test: &mut Test, random: &mut Random) {
    let page = random.pick(&PAGE_SIZES);
    let mut store = new_store(random, 100, page, 300 * page as usize + 20_000);
    let session = store.open(test, 0).session;
    let most = random.bytes(256 * page as usize);
    let over = random.bytes(256 * page as usize + 1);
    expect(
        "write",
        store.write(test, session, 0, &over).number,
        14,
        test,
    );
    // Pages that are touched already do not count again.
    let session = store.write(test, session, 0, &most[..90]).session;
    let answer = store.write(test, session, 0, &most);
    expect("write", answer.number, 0, test);
    let session = answer.session;
    for (at, number) in [
        (256 * page, 14),
        (256 * page - 1, 0),
        (0, 0),
        (256 * page + 1, 10),
    ] {
        expect(
            "write",
            store.write(test, session, at, b"x").number,
            number,
            test,
        );
    }
    expect(
        "write",
        store.write(test, session, 256 * page, b"").number,
        0,
        test,
    );
    store.session_read(test, session, 0, 256 * page as usize);
    let answer = store.commit(test, session, TIME, 3, b"most\0", b"pages\0");
    expect("commit", answer.number, 0, test);
    store.check(test);
    store.read(test, NEWEST, 0, 256 * page as usize);
}

/// Row 14, second half, in a write: 4,096 merged entries, and 4,097.
fn merged_entries(test: &mut Test, random: &mut Random) {
    let size = 16 * 4_200;
    for held in [4_095, 4_096] {
        let mut plan = indexed(16, held, size, random);
        plan.give_room(random, 120_000);
        let mut store = Store::planned(random, &plan);
        let session = store.open(test, 1).session;
        // Over indexed pages nothing is added.
        expect(
            "write",
            store.write(test, session, 5, &[7; 200]).number,
            0,
            test,
        );
        let next = 16 * held;
        let number = if held == 4_095 { 0 } else { 14 };
        let answer = store.write(test, session, next, b"in");
        expect("write", answer.number, number, test);
        let answer = store.write(test, session, next - 1, b"over and in");
        expect("write", answer.number, number, test);
        let two = store.write(test, answer.session, next + 15, b"two");
        expect("write", two.number, 14, test);
        store.session_read(test, answer.session, next - 40, 80);
        store.look_up(test, 1, next - 16);
        let answer = store.commit(test, answer.session, TIME, 3, b"most\0", b"entries\0");
        expect("commit", answer.number, 0, test);
        store.check(test);
        store.read(test, NEWEST, 0, 16 * 4_200);
        store.browse(test, NEWEST);
    }
}

/// The same in a commit, through sessions that no write would hand back.
fn merged_entries_in_commit(test: &mut Test, random: &mut Random) {
    let size = 16 * 4_400;
    for held in [3_840, 3_841, 4_096] {
        let mut plan = indexed(16, held, size, random);
        plan.set_lock();
        plan.give_room(random, 120_000);
        let store = Store::planned(random, &plan);
        let mut session = exercise::opened_session(&plan, 1);
        session.n = 256;
        for k in 0..256 {
            // All put in, none put over.
            session.pages[k] = 16 * (held as u32 + (k as u32 * 7) % 256);
        }
        let number = if held == 3_840 { 0 } else { 14 };
        let mut store_in = store.clone();
        let answer = store_in.commit(test, session, TIME, 3, b"a\0", b"\0");
        expect("commit", answer.number, number, test);
        // Row 14 is judged also for a write that adds nothing.
        let answer = store.clone().write(test, session, 0, b"");
        expect("write", answer.number, number, test);
        let answer = store.clone().commit(test, session, b"", 3, b"a\0", b"\0");
        expect(
            "commit",
            answer.number,
            if number == 0 { 16 } else { 14 },
            test,
        );
        // One put over instead.
        session.pages[0] = 16 * (held as u32 - 1);
        let number = if held <= 3_841 { 0 } else { 14 };
        let mut store_over = store.clone();
        let answer = store_over.commit(test, session, TIME, 3, b"a\0", b"\0");
        expect("commit", answer.number, number, test);
        if number == 0 {
            store_over.check(test);
            store_over.read(test, 2, 0, size as usize);
        }
    }
}

/// 1,024 revisions, one after the other, and no more.
fn revisions_in_one_line(test: &mut Test, random: &mut Random) {
    let original = random.bytes(50);
    let mut history = vec![0x77; 11_500_000];
    random.fill(&mut history[..1 << 16]);
    let mut store = Store::new(random, &original, &history);
    store.create(test, 50, 16, true);
    for revision in 1..=1_024 {
        let parent = match random.below(4) {
            0 => random.below(revision),
            _ => NEWEST,
        };
        // All bytes are compared now and then, and otherwise those around the end.
        let end = forge::committed_end(store.history()) as usize;
        store.compared = match revision % 128 {
            0 => EVERYTHING,
            _ => end.saturating_sub(30_000)..end + 30_000,
        };
        let session = store.open(test, parent).session;
        let at = random.below(session.size.min(200));
        let session = store
            .write(test, session, at, &revision.to_le_bytes())
            .session;
        let answer = store.commit(test, session, TIME, revision as u32, b"line\0", b"\0");
        expect("commit", answer.number, 0, test);
    }
    store.compared = EVERYTHING;
    expect("open", store.open(test, NEWEST).number, 18, test);
    expect("open", store.open(test, 1_025).number, 6, test);
    expect("check", store.check(test).number, 0, test);
    expect("revisions", store.setting_of(test).revisions, 1_024, test);
    expect("list", store.list(test), 0, test);
    for _ in 0..40 {
        let revision = random.between(1, 1_024);
        store.read(test, revision, 0, 50);
        store.browse(test, revision);
        let record = store.record_of(test, revision);
        expect("user", record.user, revision, test);
    }
}

/// The 1,024th revision, and what a full history refuses.
fn last_revision(test: &mut Test, random: &mut Random) {
    let mut plan = forge::empty(16, 30);
    let mut at = 60;
    for revision in 1..=1_023 {
        let mut record = forge::plain_record(revision, at, 16, 30 + revision);
        record.parent = random.below(revision);
        at = record.end();
        plan.append(record);
    }
    plan.header_start[5] = random.pick(&[0, 2]);
    plan.give_room(random, 40_000);
    let mut store = Store::planned(random, &plan);
    let mut session = store.open(test, NEWEST).session;
    session = store.write(test, session, 3, b"last but one").session;
    let answer = store.commit(test, session, TIME, 9, b"a\0", b"\0");
    expect("commit", answer.number, 0, test);
    expect("check", store.check(test).number, 0, test);
    expect("open", store.open(test, NEWEST).number, 18, test);
    store.open(test, 5);
    store.open(test, 1_024);
    store.read(test, 1_024, 0, 30);
    store.browse(test, 1_024);
    // A session on it would have a count over 1,023.
    let mut locked = exercise::locked(&store, random);
    session.end = forge::committed_end(store.history());
    session.count = 1_024;
    session.parent = 1_024;
    session.n = 0;
    session.size += 10;
    expect(
        "write",
        locked.write(test, session, 0, b"x").number,
        13,
        test,
    );
    locked.session_read(test, session, 0, 1);
    locked.commit(test, session, TIME, 9, b"a\0", b"\0");
    expect("open", locked.open(test, NEWEST).number, 11, test);
    locked.release(test, session);
    exercise::exercise(test, &store, random);
}

/// Row 15 in a write: the last page fits exactly, or lacks a byte.
fn room_for_a_write(test: &mut Test, random: &mut Random) {
    for page in PAGE_SIZES {
        let pages = random.between(1, 4);
        for missing in [0, 1] {
            let room = (60 + pages * page - missing) as usize;
            let mut store = new_store(random, (5 * page) as usize, page, room);
            let session = store.open(test, 0).session;
            let data = random.bytes(((pages - 1) * page + 1) as usize);
            let answer = store.write(test, session, 0, &data);
            expect(
                "write",
                answer.number,
                if missing == 0 { 0 } else { 15 },
                test,
            );
            let more = store.write(test, answer.session, (pages + 1) * page - 1, b"xx");
            if missing == 0 {
                expect("write", more.number, 15, test);
            }
            store.session_read(test, more.session, 0, page as usize);
            store.commit(test, more.session, TIME, 1, b"a\0", b"\0");
        }
    }
}

/// Row 15 in a commit: record and whole history fit exactly, or lack a byte.
fn room_for_a_commit(test: &mut Test, random: &mut Random) {
    for page in PAGE_SIZES {
        let pages = random.below(4);
        let name = forge::text(random, 64);
        let comment = forge::text(random, 256);
        let words = (name.len() + comment.len()) as u64;
        let needed = 60 + pages * page + 76 + 24 * pages + words + 40;
        for missing in [0, 1, random.between(2, 110)] {
            let room = (needed - missing) as usize;
            let mut store = new_store(random, (4 * page) as usize, page, room);
            let mut session = store.open(test, 0).session;
            if pages > 0 {
                let data = random.bytes((pages * page) as usize);
                session = store.write(test, session, 0, &data).session;
            }
            let user = random.number() as u32;
            let answer = store.commit(test, session, TIME, user, &name, b"no closing zero");
            expect("commit", answer.number, 16, test);
            let answer = store.commit(test, session, TIME, user, &name, &comment);
            expect(
                "commit",
                answer.number,
                if missing == 0 { 0 } else { 15 },
                test,
            );
            store.check(test);
            let session = store.open(test, NEWEST).session;
            store.write(test, session, 0, b"x");
            store.commit(test, session, TIME, user, &name, &comment);
        }
    }
}

/// Row 16: each byte of time, name and comment changed to each value.
fn words_of_a_commit(test: &mut Test, random: &mut Random) {
    let mut store = new_store(random, 5, 16, 700);
    let session = store.open(test, 0).session;
    let locked = store.clone();
    let right = forge::time(random);
    for place in 0..16 {
        for byte in 0..=255 {
            let mut time = right.clone();
            time[place] = byte;
            locked
                .clone()
                .commit(test, session, &time, 0, b"a\0", b"\0");
        }
    }
    for pair in 0..100 {
        let pair = format!("{pair:02}").into_bytes();
        for place in [4, 6, 9, 11, 13] {
            let mut time = TIME.to_vec();
            forge::put(&mut time, place, &pair);
            locked
                .clone()
                .commit(test, session, &time, 0, b"a\0", b"\0");
        }
    }
    for byte in 0..=255 {
        locked
            .clone()
            .commit(test, session, TIME, 0, &[b'a', byte, 0], b"\0");
        locked
            .clone()
            .commit(test, session, TIME, 0, &[b'a', byte], b"\0");
        locked
            .clone()
            .commit(test, session, TIME, 0, b"\0", &[byte, b'a', 0]);
        locked
            .clone()
            .commit(test, session, TIME, 0, b"\0", &[byte]);
    }
    for length in 0..300 {
        let mut word = vec![b'w'; length];
        if let Some(last) = word.last_mut() {
            *last = 0;
        }
        let name = locked.clone().commit(test, session, TIME, 0, &word, b"\0");
        let right = (1..=64).contains(&length);
        expect("commit", name.number, if right { 0 } else { 16 }, test);
        let comment = locked.clone().commit(test, session, TIME, 0, b"\0", &word);
        let right = (1..=256).contains(&length);
        expect("commit", comment.number, if right { 0 } else { 16 }, test);
        locked.clone().commit(test, session, &word, 0, b"\0", b"\0");
    }
}

/// Row 19: a write that ends at the limit, and one over it.
fn end_of_a_write(test: &mut Test, random: &mut Random) {
    for page in [16, 512, 4_096] {
        let mut plan = indexed(page, 3, LIMIT - random.below(2) * 10, random);
        plan.give_room(random, 8 * page + 1_000);
        let mut store = Store::planned(random, &plan);
        let session = store.open(test, 1).session;
        for start in [session.size, LIMIT - 10, session.size - 1, LIMIT - page] {
            let rest = LIMIT - start;
            for (length, number) in [(rest, 0), (rest + 1, 19)] {
                let data = random.bytes(length as usize);
                let answer = store.clone().write(test, session, start, &data);
                expect("write", answer.number, number, test);
            }
        }
        let answer = store.write(test, session, session.size + 1, b"");
        expect("write", answer.number, 10, test);
        let data = random.bytes(10);
        let session = store.write(test, session, LIMIT - 10, &data).session;
        store.session_read(test, session, LIMIT - 10, 10);
        store.session_read(test, session, LIMIT, 0);
        store.session_read(test, session, LIMIT, 1);
        store.commit(test, session, TIME, 1, b"a\0", b"\0");
        store.read(test, NEWEST, LIMIT - 30, 30);
        store.look_up(test, NEWEST, LIMIT - page);
        store.look_up(test, NEWEST, LIMIT);
        store.check(test);
    }
}

/// Row 20: pages that are not in the index, around the original's end.
fn page_over_the_originals_end(test: &mut Test, random: &mut Random) {
    for page in PAGE_SIZES {
        for over in [0, 1, page - 1] {
            let original = (2 * page + over) as usize;
            let mut store = new_store(random, original, page, (900 + 4 * page) as usize);
            let answer = store.look_up(test, 0, 2 * page);
            expect(
                "look-up",
                answer.number,
                if over == 0 { 10 } else { 0 },
                test,
            );
            // One byte more in a page of its own; the original's last page is then cut short, or not there.
            let session = store.open(test, 0).session;
            let data = random.bytes(page as usize + 2);
            let session = store.write(test, session, original as u64, &data).session;
            store.commit(test, session, TIME, 1, b"a\0", b"\0");
            for address in 0..5 {
                store.look_up(test, 1, address * page);
            }
            // A foreign history may lack the page.
            let mut plan = forge::empty(page, original as u64);
            let size = original as u64 + page;
            let record = forge::plain_record(1, 60, page, size);
            plan.append(record);
            plan.give_room(random, 10);
            let foreign = store.with_history(random, &plan.build());
            for (address, number) in [(page, 0), (2 * page, 20), (3 * page, 20)] {
                if address < size {
                    let answer = foreign.look_up(test, 1, address);
                    expect("look-up", answer.number, number, test);
                }
            }
            foreign.read(test, 1, 0, size as usize);
        }
    }
}

/// Creation with page sizes right and wrong, into buffers of 59 and 60 bytes.
fn page_sizes(test: &mut Test, random: &mut Random) {
    for length in [0, 39, 40, 59, 60, 61, 100] {
        for page in (0..5_000).chain([8_192, 1 << 24, 1 << 32, (1 << 32) + 16, 1 << 63]) {
            let mut store = Store::new(random, &[], &vec![0x5C; length]);
            let number = store.create(test, page % 50, page, page % 2 == 0);
            let right = match (length, PAGE_SIZES.contains(&page)) {
                (0..60, _) => 1,
                (_, true) => 0,
                _ => 17,
            };
            expect("create", number, right, test);
        }
        for original in [LIMIT, LIMIT + 1, 1 << 32, u64::MAX] {
            let mut store = Store::new(random, &[], &vec![0x5C; length]);
            store.create(test, original, 16, true);
            exercise::exercise(test, &store, random);
        }
    }
}

/// Buffers of the limit and one byte over it, in every call.
fn full_buffers(test: &mut Test, random: &mut Random) {
    let mut history = vec![0x33; LIMIT as usize + 1];
    let original = random.bytes(40);
    expect(
        "create",
        twin::create(&mut history[..100], 40, 16, true),
        0,
        test,
    );
    let mut over = Store::new(random, &original, &history);
    expect("create", over.create(test, 40, 16, true), 1, test);
    expect("open", over.open(test, 0).number, 1, test);
    expect("read", over.read(test, 0, 0, 1).0, 1, test);
    expect("look-up", over.look_up(test, 0, 0).number, 1, test);
    expect("check", over.check(test).number, 1, test);
    expect("setting", over.setting_of(test).number, 1, test);
    expect("record", over.record_of(test, 0).number, 1, test);
    expect("list", over.list(test), 1, test);
    expect("browse", over.browse(test, 0).number, 1, test);
    expect(
        "release",
        over.release(test, Session::ENDED).number,
        1,
        test,
    );
    expect(
        "write",
        over.write(test, Session::ENDED, 0, b"").number,
        1,
        test,
    );
    expect(
        "session read",
        over.session_read(test, Session::ENDED, 0, 0).0,
        1,
        test,
    );
    let answer = over.commit(test, Session::ENDED, TIME, 0, b"a\0", b"\0");
    expect("commit", answer.number, 1, test);
    history.truncate(LIMIT as usize);
    let mut full = Store::new(random, &original, &history);
    expect("create", full.create(test, 40, 16, true), 0, test);
    let session = full.open(test, 0).session;
    let session = full.write(test, session, 38, b"over the end").session;
    full.session_read(test, session, 0, 50);
    full.commit(test, session, TIME, 0, b"a\0", b"\0");
    expect("check", full.check(test).number, 0, test);
    expect("list", full.list(test), 0, test);
    // Slices that no call can take.
    let long = vec![b'a'; LIMIT as usize + 1];
    let session = full.open(test, NEWEST).session;
    let number = full.write(test, session, 0, &long).number;
    expect("write", number, 19, test);
    let number = full.read(test, NEWEST, 0, long.len()).0;
    expect("read", number, 10, test);
    let number = full.commit(test, session, TIME, 0, &long, b"\0").number;
    expect("commit", number, 16, test);
    let number = full.commit(test, session, &long, 0, b"\0", b"\0").number;
    expect("commit", number, 16, test);
    let number = full.with_original(random, &long).open(test, 0).number;
    expect("open", number, 4, test);
    // The whole history at the very end of the largest buffer.
    let mut plan = forge::empty(16, 40);
    plan.whole_at = LIMIT - 20;
    plan.ground = vec![0; LIMIT as usize];
    let mut last = Store::new(random, &original, &plan.build());
    expect("check", last.check(test).number, 0, test);
    expect("end", last.setting_of(test).end, LIMIT, test);
    let session = last.open(test, 0).session;
    expect("write", last.write(test, session, 0, b"x").number, 15, test);
    let answer = last.commit(test, session, TIME, 0, b"a\0", b"\0");
    expect("commit", answer.number, 15, test);
    expect("release", last.release(test, session).number, 0, test);
}
