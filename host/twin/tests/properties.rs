//! What holds for whatever calls are made: a committed revision reads the same
//! for ever after, a refusal changes nothing, and nothing panics.

mod common;
use common::*;
use forge::{repair, Random, Repair, NEWEST, TIME};
use twin::*;

/// A session's own idea of what it has written.
struct Open {
    session: Session,
    parent: usize,
    bytes: Vec<u8>,
    pages: Vec<u32>,
}

/// The store's contents, kept the plain way: every revision as a whole.
struct Model {
    orig: Vec<u8>,
    page: u64,
    branching: bool,
    revisions: Vec<Vec<u8>>,
    parents: Vec<usize>,
    open: Option<Open>,
}

impl Model {
    fn newest(&self) -> usize {
        self.revisions.len() - 1
    }

    /// Each revision, read at once and in parts, by its index and by look-up.
    fn assert_stored(&self, hist: &[u8], random: &mut Random) {
        assert_eq!(
            check(hist),
            Checked {
                number: 0,
                revision: 0,
                entry: 0
            }
        );
        for (k, want) in self.revisions.iter().enumerate() {
            let k = k as u64;
            let mut out = vec![0xCC; want.len()];
            assert_eq!(read(&self.orig, hist, k, 0, &mut out), 0);
            assert!(&out == want, "revision {k}");

            let from = random.below(want.len() as u64 + 1);
            let length = random.below(want.len() as u64 - from + 1) as usize;
            let mut out = vec![0xCC; length];
            assert_eq!(read(&self.orig, hist, k, from, &mut out), 0);
            assert_eq!(out, want[from as usize..][..length]);

            let entries = index(hist, k);
            for address in (0..want.len() as u64).step_by(self.page as usize) {
                let found = look_up(&self.orig, hist, k, address);
                let stored = entries.iter().find(|entry| entry.logical == address);
                let length = self.page.min(want.len() as u64 - address);
                let bytes = match (found.number, found.source) {
                    (20, _) => {
                        assert!(stored.is_none());
                        assert!(address + length > self.orig.len() as u64);
                        continue;
                    }
                    (0, 0) => {
                        assert!(stored.is_none());
                        &self.orig
                    }
                    (0, 1) => {
                        assert_eq!(found.offset, stored.unwrap().physical);
                        hist
                    }
                    _ => panic!("{found:?}"),
                };
                assert_eq!(found.length, length);
                let bytes = &bytes[found.offset as usize..][..length as usize];
                assert_eq!(bytes, &want[address as usize..][..length as usize]);
            }
        }
    }

    fn assert_listed(&self, hist: &[u8]) {
        let text = String::from_utf8(listed(hist)).unwrap();
        assert_eq!(listed(&hist[..committed_end(hist)]), text.as_bytes());
        let mut lines = text.lines();
        let yes = |flag| if flag { "yes" } else { "no" };
        let first = format!(
            "pages {} original {} revisions {} lock {} branch {}",
            self.page,
            self.orig.len(),
            self.newest(),
            yes(self.open.is_some()),
            yes(self.branching),
        );
        assert_eq!(lines.next(), Some(&first[..]));
        for k in 1..=self.newest() {
            let (parent, size) = (self.parents[k], self.revisions[k].len());
            let entries = index(hist, k as u64).len();
            let line = format!("{k} {parent} 20240305T070000Z {size} {entries} user {k}");
            assert_eq!(lines.next(), Some(&line[..]));
        }
        assert_eq!(lines.next(), None);
    }

    /// One random call, judged against what the model expects of it.
    fn step(&mut self, hist: &mut [u8], random: &mut Random) {
        let before = hist.to_vec();
        let newest = self.newest();
        let choice = random.below(10);
        let Some(mut open) = self.open.take() else {
            let asked = match choice {
                0..=4 => NEWEST,
                _ => random.below(newest as u64 + 2),
            };
            let parent = if asked == NEWEST {
                newest
            } else {
                asked as usize
            };
            let answer = open_at(self, hist, asked);
            let want = match () {
                _ if parent > newest => 6,
                _ if !self.branching && parent != newest => 12,
                _ => 0,
            };
            assert_eq!(answer.number, want);
            if want != 0 {
                assert_eq!(answer.session, Session::ENDED);
                assert!(hist == before);
                return;
            }
            assert_eq!(hist[5] & 1, 1);
            assert!(hist[40..] == before[40..]);
            self.open = Some(Open {
                session: answer.session,
                parent,
                bytes: self.revisions[parent].clone(),
                pages: Vec::new(),
            });
            return;
        };
        assert_eq!(open_at(self, hist, NEWEST).number, 11);
        match choice {
            0 => {
                assert_eq!(accepted(release(open.session, hist)), Session::ENDED);
                return;
            }
            1 | 2 => {
                let k = newest + 1;
                let name = format!("user {k}\0");
                let answer = commit(open.session, hist, TIME, 5, name.as_bytes(), b"why\0");
                if answer.number == 0 {
                    assert_eq!(answer.session, Session::ENDED);
                    let end = open.session.end as usize;
                    assert!(hist[40..end] == before[40..end], "committed bytes stay");
                    self.revisions.push(open.bytes);
                    self.parents.push(open.parent);
                    return;
                }
                assert_eq!((answer.number, answer.session), (15, open.session));
                assert!(hist == before);
            }
            _ => {
                let size = open.bytes.len() as u64;
                let at = match random.below(4) {
                    0 => size,
                    1 => random.below(size + 3),
                    _ => random.below(size + 1),
                };
                let most = random.pick(&[1, 3, self.page, 5 * self.page, 20 * self.page]);
                let length = random.below(most + 1) as usize;
                let data = random.bytes(length);
                let answer = write(open.session, &self.orig, hist, at, &data);
                let end = open.session.end as usize;
                if answer.number == 0 {
                    let mut pages = open.pages.clone();
                    if length > 0 {
                        let first = at / self.page;
                        let last = (at + length as u64 - 1) / self.page;
                        for page in first..=last {
                            let logical = (page * self.page) as u32;
                            if !pages.contains(&logical) {
                                pages.push(logical);
                            }
                        }
                    }
                    let stop = at as usize + length;
                    if stop > open.bytes.len() {
                        open.bytes.resize(stop, 0);
                    }
                    open.bytes[at as usize..stop].copy_from_slice(&data);
                    let session = answer.session;
                    assert_eq!(session.size, open.bytes.len() as u64);
                    assert_eq!(session.pages[..session.n as usize], pages);
                    assert!(hist[..end] == before[..end]);
                    let past = end + pages.len() * self.page as usize;
                    assert!(hist[past..] == before[past..], "nothing past the pages");
                    open.session = session;
                    open.pages = pages;
                } else {
                    match answer.number {
                        10 => assert!(at > size),
                        14 => assert!(open.pages.len() + length / self.page as usize >= 255),
                        15 => (),
                        other => panic!("write refused {other}"),
                    }
                    assert_eq!(answer.session, open.session);
                    assert!(hist == before);
                }
            }
        }
        let mut out = vec![0xCC; open.bytes.len()];
        accepted(session_read(open.session, &self.orig, hist, 0, &mut out));
        assert!(out == open.bytes, "the session shows what was written");
        self.open = Some(open);
    }
}

fn open_at(model: &Model, hist: &mut [u8], revision: u64) -> Answer {
    open(&model.orig, hist, revision)
}

#[test]
fn committed_revisions_read_the_same_for_ever() {
    for seed in 1..=60 {
        let mut random = Random::seeded(&[seed]);
        let page = random.pick(&[16, 16, 32, 64, 256, 4096]);
        let length = random.below(12 * page) as usize;
        let room = random.pick(&[2_000, 20_000, 60_000, 400_000]);
        let mut hist = random.bytes(room);
        let orig = random.bytes(length);
        let branching = random.below(2) == 1;
        assert_eq!(create(&mut hist, length as u64, page, branching), 0);
        let mut model = Model {
            revisions: vec![orig.clone()],
            orig,
            page,
            branching,
            parents: vec![0],
            open: None,
        };
        for turn in 0..150 {
            let revisions = model.revisions.len();
            model.step(&mut hist, &mut random);
            if model.revisions.len() != revisions || turn % 30 == 0 {
                model.assert_stored(&hist, &mut random);
                model.assert_listed(&hist);
            }
        }
    }
}

/// Damages a right history in one or two places, and mostly makes the
/// checksums right again, so that what lies behind them is reached.
fn damage(hist: &mut [u8], random: &mut Random) {
    // Where the numbers are, while the history still says so.
    let mut numbers = forge::fields(hist);
    numbers.retain(|field| field.len() >= 4);
    for _ in 0..=random.below(2) {
        match random.below(4) {
            0 => {
                let at = random.below(hist.len() as u64) as usize;
                hist[at] ^= 1 << random.below(8);
            }
            _ => {
                let place = random.below(numbers.len() as u64) as usize;
                forge::change(random, &mut hist[numbers[place].clone()]);
            }
        }
    }
    let depth = match random.below(16) {
        0 => Repair::Nothing,
        1..=3 => Repair::Header,
        _ => Repair::Entries,
    };
    repair(hist, depth);
}

/// Makes every call on whatever history and session; each is total, and a
/// refusal changes nothing.
fn all_calls(
    orig: &[u8],
    hist: &[u8],
    session: Session,
    random: &mut Random,
    seen: &mut [u64; 21],
) {
    let end = hist.len() as u64;
    let odd = [
        0,
        1,
        16,
        20,
        21,
        32,
        end,
        1 << 24,
        1 << 63,
        u64::MAX - 3,
        u64::MAX,
    ];
    let revision = random.pick(&[0, 1, 2, 3, 4, u64::MAX - 1, u64::MAX]);
    // Often a page's address, which a look-up asks for.
    let at = match random.below(2) {
        0 => random.pick(&odd),
        _ => 16 * random.below(4),
    };
    let length = random.below(70) as usize;
    let mut see = |number: u64| seen[number as usize] += 1;

    let checked = check(hist);
    see(checked.number);
    let text = listed(hist);
    match checked.number {
        0 => assert!(text.starts_with(b"pages ")),
        // The list looks at no page, and so goes on to the records after it.
        9 => assert!(text.starts_with(b"pages ") || text.starts_with(b"refused ")),
        number => assert_eq!(text, format!("refused {number}\n").as_bytes()),
    }

    let found = browse(hist, revision);
    see(found.number);
    let told = record_of(hist, revision);
    assert_eq!(told.number, found.number);
    assert_eq!(setting_of(hist).number, browse(hist, 0).number);
    if found.number == 0 {
        let record = &hist[found.offset as usize..][..found.length as usize];
        let place = random.pick(&odd);
        assert!(browse_step(record, place).kind <= 1);
        // The texts lie in the record, one behind the other, and end where its
        // checksum begins.
        if told.revision > 0 {
            assert_eq!(told.name.offset + told.name.length, told.comment.offset);
            let end = told.comment.offset + told.comment.length;
            assert_eq!(end + 4, found.offset + found.length);
        }
    }
    let start = random.below(end) as usize;
    let kind = browse_step(&hist[start..], at).kind;
    assert!(matches!(kind, 0 | 1 | 7));

    let mut out = vec![0xCC; length];
    let number = read(orig, hist, revision, at, &mut out);
    see(number);
    assert!(number == 0 || out.iter().all(|&byte| byte == 0xCC));
    let found = look_up(orig, hist, revision, at);
    see(found.number);
    if found.number == 0 {
        let from = if found.source == 0 { orig } else { hist };
        let page = &from[found.offset as usize..][..found.length as usize];
        let mut copy = vec![0; page.len()];
        assert_eq!(read(orig, hist, revision, at, &mut copy), 0);
        assert_eq!(copy, page);
    }
    let mut out = vec![0xCC; length];
    let answer = session_read(session, orig, hist, at, &mut out);
    see(answer.number);
    assert_eq!(answer.session, session);
    assert!(answer.number == 0 || out.iter().all(|&byte| byte == 0xCC));

    let mut calls = |call: &mut dyn FnMut(&mut [u8]) -> Answer, kept: Session| {
        let mut lent = hist.to_vec();
        let answer = call(&mut lent);
        see(answer.number);
        if answer.number != 0 {
            assert!(lent == hist, "{} changed the history", answer.number);
            assert_eq!(answer.session, kept);
        }
        (answer, lent)
    };
    let data = vec![0x77; length];
    calls(&mut |h| open(orig, h, revision), Session::ENDED);
    calls(&mut |h| release(session, h), session);
    calls(&mut |h| write(session, orig, h, at, &data), session);
    let (answer, after) = calls(&mut |h| commit(session, h, TIME, 9, b"x\0", b"\0"), session);
    if answer.number == 0 {
        // What was committed is right, whatever else may not be.
        let mut byte = [0];
        let number = read(orig, &after, u64::MAX, 0, &mut byte);
        assert!(matches!(number, 0 | 4 | 9 | 10), "{number}");
    }
}

#[test]
fn every_call_is_total_and_refusals_change_nothing() {
    let mut seen = [0; 21];
    for seed in 1..=6000 {
        let mut random = Random::seeded(&[seed]);
        let orig = random.bytes(40);
        let mut hist = random.bytes(2048);
        create(&mut hist, 40, 16, true);
        revise(&orig, &mut hist, 0, &[(14, b"abcd")]);
        revise(&orig, &mut hist, 1, &[(32, b"ef"), (39, b"grow")]);
        revise(&orig, &mut hist, 1, &[(16, b"gh")]);
        let mut session = Session::ENDED;
        if random.below(4) > 0 {
            let parent = random.below(4);
            session = accepted(open(&orig, &mut hist, parent));
            let size = session.size;
            session = accepted(write(session, &orig, &mut hist, size - 9, b"tail"));
            session = accepted(write(session, &orig, &mut hist, size - 30, b"head"));
        }
        if random.below(8) > 0 {
            damage(&mut hist, &mut random);
        }
        if random.below(3) == 0 {
            let value = random.pick(&[0, 1, 16, 47, 257, 1 << 24, 1 << 61, u64::MAX]);
            match random.below(6) {
                0 => session.end = session.end.wrapping_add(value),
                1 => session.count = value,
                2 => session.parent = value,
                3 => session.size = value,
                4 => session.n = value,
                _ => session.pages[random.below(3) as usize] = value as u32,
            }
        }
        let lent = match random.below(6) {
            0 => random.below(2049) as usize,
            _ => 2048,
        };
        let original = if random.below(12) == 0 {
            &orig[1..]
        } else {
            &orig
        };
        if lent > 0 {
            all_calls(original, &hist[..lent], session, &mut random, &mut seen);
        }
    }
    // The damage reaches the rows that it can: not 12 (branching is on), 14,
    // 16, 17, 18.
    for number in [0, 1, 2, 3, 4, 5, 6, 7, 8, 9, 10, 11, 13, 15, 20] {
        assert!(seen[number] > 0, "{number} never seen: {seen:?}");
    }
}
