//! The table of refusals: each number of each call, their order, and what each
//! row covers.
//!
//! The order is tested by ladders. A ladder is a call's faults in the paper's
//! order; with all of them made at once the first is answered, without it the
//! next, and so on down to acceptance.

mod common;
use common::*;
use forge::{number_of_8, put_4, put_8, repair, Entry, Plan, Repair, NEWEST, TIME};
use std::sync::OnceLock;
use twin::*;

/// Everything that a call may be lent.
#[derive(Clone)]
struct Scene {
    orig: Vec<u8>,
    hist: Vec<u8>,
    /// How much of the history is lent.
    lent: usize,
    session: Session,
    revision: u64,
    at: u64,
    length: usize,
    time: Vec<u8>,
    name: Vec<u8>,
    comment: Vec<u8>,
}

type Fault = (u64, fn(&mut Scene));

/// A call on a scene. A refusal has to leave everything as it was.
fn refused_untouched(scene: &mut Scene, call: fn(&mut Scene) -> u64) -> u64 {
    let before = scene.clone();
    let number = call(scene);
    if number != 0 {
        assert!(scene.hist == before.hist, "{number} changed the history");
        assert_eq!(scene.session, before.session, "{number}");
    }
    number
}

fn ladder(scene: &Scene, faults: &[Fault], call: fn(&mut Scene) -> u64) {
    for step in 0..=faults.len() {
        let mut scene = scene.clone();
        // The later ones first: the earlier damage more.
        for (_, fault) in faults[step..].iter().rev() {
            fault(&mut scene);
        }
        let want = faults.get(step).map_or(0, |fault| fault.0);
        assert_eq!(refused_untouched(&mut scene, call), want, "step {step}");
    }
    // And each alone.
    for (number, fault) in faults {
        let mut scene = scene.clone();
        fault(&mut scene);
        assert_eq!(refused_untouched(&mut scene, call), *number, "alone");
    }
}

fn call_open(s: &mut Scene) -> u64 {
    let answer = open(&s.orig, &mut s.hist[..s.lent], s.revision);
    if answer.number != 0 {
        assert_eq!(answer.session, Session::ENDED);
    }
    answer.number
}

fn call_write(s: &mut Scene) -> u64 {
    let data = vec![0x55; s.length];
    let answer = write(s.session, &s.orig, &mut s.hist[..s.lent], s.at, &data);
    s.session = answer.session;
    answer.number
}

fn call_commit(s: &mut Scene) -> u64 {
    let hist = &mut s.hist[..s.lent];
    let answer = commit(s.session, hist, &s.time, 3, &s.name, &s.comment);
    s.session = answer.session;
    answer.number
}

fn call_release(s: &mut Scene) -> u64 {
    let answer = release(s.session, &mut s.hist[..s.lent]);
    s.session = answer.session;
    answer.number
}

fn call_read(s: &mut Scene) -> u64 {
    let mut out = vec![0xCC; s.length];
    let number = read(&s.orig, &s.hist[..s.lent], s.revision, s.at, &mut out);
    assert!(number == 0 || out.iter().all(|&byte| byte == 0xCC));
    number
}

fn call_session_read(s: &mut Scene) -> u64 {
    let mut out = vec![0xCC; s.length];
    let answer = session_read(s.session, &s.orig, &s.hist[..s.lent], s.at, &mut out);
    assert_eq!(answer.session, s.session);
    assert!(answer.number == 0 || out.iter().all(|&byte| byte == 0xCC));
    answer.number
}

fn call_look_up(s: &mut Scene) -> u64 {
    let found = look_up(&s.orig, &s.hist[..s.lent], s.revision, s.at);
    if found.number != 0 {
        assert_eq!((found.source, found.offset, found.length), (0, 0, 0));
    }
    found.number
}

fn call_browse(s: &mut Scene) -> u64 {
    let found = browse(&s.hist[..s.lent], s.revision);
    if found.number != 0 {
        assert_eq!((found.offset, found.length), (0, 0));
    }
    found.number
}

fn call_setting_of(s: &mut Scene) -> u64 {
    let setting = setting_of(&s.hist[..s.lent]);
    if setting.number != 0 {
        assert!(!setting.lock && !setting.branching);
        let numbers = [setting.page_size, setting.original, setting.revisions];
        assert_eq!((numbers, setting.end), ([0; 3], 0));
    }
    setting.number
}

fn call_record_of(s: &mut Scene) -> u64 {
    let record = record_of(&s.hist[..s.lent], s.revision);
    if record.number != 0 {
        let numbers = [record.revision, record.parent, record.logical];
        assert_eq!((numbers, record.user, record.entries), ([0; 3], 0, 0));
        for part in [record.time, record.name, record.comment] {
            assert_eq!((part.offset, part.length), (0, 0));
        }
    }
    record.number
}

fn call_check(s: &mut Scene) -> u64 {
    let checked = check(&s.hist[..s.lent]);
    match checked.number {
        7 | 8 => assert_eq!((checked.revision, checked.entry), (s.revision, 0)),
        9 => assert_eq!(checked.revision, s.revision),
        _ => assert_eq!((checked.revision, checked.entry), (0, 0)),
    }
    checked.number
}

fn call_list(s: &mut Scene) -> u64 {
    let text = String::from_utf8(listed(&s.hist[..s.lent])).unwrap();
    match text.strip_prefix("refused ") {
        Some(number) => number.strip_suffix('\n').unwrap().parse().unwrap(),
        None => {
            assert!(text.starts_with("pages "));
            0
        }
    }
}

/// Three revisions with branching, and room for a fourth. Revision 2 is the
/// one that calls are about; a session on it is open where asked for.
fn scene(session: bool) -> Scene {
    let orig: Vec<u8> = (0..5000).map(|i| (i % 251) as u8).collect();
    let mut hist = vec![0; 16_384];
    assert_eq!(create(&mut hist, 5000, 16, true), 0);
    revise(&orig, &mut hist, 0, &[(14, b"abcd")]);
    revise(&orig, &mut hist, 1, &[(32, b"ef"), (4998, b"grow")]);
    revise(&orig, &mut hist, 1, &[(64, b"gh")]);
    let session = match session {
        true => accepted(open(&orig, &mut hist, 2)),
        false => Session::ENDED,
    };
    Scene {
        lent: hist.len(),
        orig,
        hist,
        session,
        revision: 2,
        at: 0,
        length: 100,
        time: TIME.to_vec(),
        name: b"ana\0".to_vec(),
        comment: b"\0".to_vec(),
    }
}

const F1: Fault = (1, |s| s.lent = 39);
const F2: Fault = (2, |s| s.hist[0] ^= 1);
const F3: Fault = (3, |s| s.hist[36] ^= 1);
const F4: Fault = (4, |s| s.orig.push(0));
const F5: Fault = (5, |s| {
    let at = whole(&s.hist).0;
    s.hist[at + 4] = 2;
});
const F6: Fault = (6, |s| s.revision = NEWEST - 1);
/// Read by what is asked for before row 6's fault changes it.
const F7: Fault = (7, |s| {
    let at = record(&s.hist, s.revision).0;
    s.hist[at + 4] = 2;
});
const F8: Fault = (8, |s| {
    let (at, size) = record(&s.hist, s.revision);
    s.hist[at + size - 1] ^= 1;
});
const F9: Fault = (9, |s| {
    let page = number_of_8(&s.hist, entry(&s.hist, s.revision, 0) + 8);
    s.hist[page as usize + 15] ^= 1;
});
const F10: Fault = (10, |s| s.at = 6000);
const F11: Fault = (11, |s| {
    s.hist[5] |= 1;
    repair(&mut s.hist, Repair::Header);
});
const F12: Fault = (12, |s| {
    s.hist[5] &= !2;
    repair(&mut s.hist, Repair::Header);
});
const F13: Fault = (13, |s| s.session.end += 1);
const F13_LAST: Fault = (13, |s| s.session.size = 5001);

#[test]
fn order_of_creation() {
    let mut hist = vec![0xEE; LIMIT + 1];
    assert_eq!(create(&mut hist[..59], 0, 16, false), 1);
    assert_eq!(create(&mut hist[..59], 0, 17, false), 1);
    assert_eq!(create(&mut hist, 0, 17, false), 1);
    assert_eq!(create(&mut [], u64::MAX, u64::MAX, true), 1);
    for page in [
        0,
        1,
        8,
        15,
        17,
        24,
        4095,
        8192,
        1 << 32,
        (1 << 32) + 16,
        u64::MAX,
    ] {
        assert_eq!(create(&mut hist[..60], 0, page, false), 17, "{page}");
    }
    for original in [LIMIT as u64 + 1, u64::MAX] {
        assert_eq!(create(&mut hist[..60], original, 16, false), 17);
    }
    assert!(hist.iter().all(|&byte| byte == 0xEE));
    for page in [16, 32, 64, 128, 256, 512, 1024, 2048, 4096] {
        assert_eq!(create(&mut hist[..LIMIT], LIMIT as u64, page, false), 0);
    }
}

#[test]
fn order_of_reading() {
    let faults = [F1, F2, F3, F4, F5, F6, F7, F8, F10, F9];
    ladder(&scene(false), &faults, call_read);
}

#[test]
fn order_of_looking_up() {
    let faults = [F1, F2, F3, F4, F5, F6, F7, F8, F10, F9];
    ladder(&scene(false), &faults, call_look_up);

    // Rows 20 and 9 are about different pages, so each has its ladder. Grown
    // to 6,000 bytes, the revision has pages that lie nowhere.
    let mut grown = scene(false);
    let at = record(&grown.hist, 2).0;
    put_8(&mut grown.hist, at + 40, 6000);
    repair(&mut grown.hist, Repair::Records);
    grown.at = 4976;
    let f10: Fault = (10, |s| s.at = 5001);
    let f20: Fault = (20, |s| s.at = 5008);
    let faults = [F1, F2, F3, F4, F5, F6, F7, F8, f10, f20];
    ladder(&grown, &faults, call_look_up);
}

#[test]
fn order_of_opening() {
    let (f12, f18): (Fault, Fault) = (F12, (18, |s| revise(&s.orig, &mut s.hist, NEWEST, &[])));
    let faults = [F1, F2, F3, F4, F5, F6, F11, f12, f18, F7, F8];
    ladder(&nearly_full(), &faults, call_open);
}

/// 1,023 revisions stand.
fn nearly_full() -> Scene {
    let mut s = scene(false);
    s.hist.resize(LIMIT, 0);
    s.lent = LIMIT;
    for _ in 3..1023 {
        revise(&s.orig, &mut s.hist, NEWEST, &[]);
    }
    s.revision = 1000;
    s
}

#[test]
fn order_of_session_reading() {
    let faults = [F1, F2, F3, F4, F5, F13, F7, F8, F13_LAST, F10, F9];
    ladder(&scene(true), &faults, call_session_read);
}

#[test]
fn order_of_writing() {
    let f19: Fault = (19, |s| s.length = LIMIT + 1);
    let f14: Fault = (14, |s| s.length = 257 * 16);
    let f15: Fault = (15, |s| s.lent = committed_end(&s.hist) + 15);
    let faults = [
        F1, F2, F3, F4, F5, F13, F7, F8, F13_LAST, F10, f19, f14, f15, F9,
    ];
    ladder(&scene(true), &faults, call_write);
}

#[test]
fn order_of_committing() {
    let mut s = full_index().clone();
    s.session = accepted(open(&s.orig, &mut s.hist, NEWEST));
    s.session = accepted(write(s.session, &s.orig, &mut s.hist, 3, b"x"));
    s.revision = 16;
    let f13_last: Fault = (13, |s| s.session.size = 4200 * 16 - 1);
    let f14: Fault = (14, |s| s.session.pages[0] = 4096 * 16);
    let f16: Fault = (16, |s| s.time[4] = b'2');
    let f15: Fault = (15, |s| s.lent = committed_end(&s.hist) + 16 + 98_744);
    let faults = [F1, F2, F3, F5, F13, F7, F8, f13_last, f14, f16, f15];
    ladder(&s, &faults, call_commit);
}

/// A newest revision of 4,096 entries, in a larger original.
fn full_index() -> &'static Scene {
    static SCENE: OnceLock<Scene> = OnceLock::new();
    SCENE.get_or_init(|| {
        let mut s = scene(false);
        s.orig = vec![1; 4200 * 16];
        s.hist = vec![0; 2_000_000];
        s.lent = s.hist.len();
        assert_eq!(create(&mut s.hist, 4200 * 16, 16, true), 0);
        for part in 0..16 {
            let parts = [(part * 4096, &[part as u8; 4096][..])];
            revise(&s.orig, &mut s.hist, NEWEST, &parts);
        }
        assert_eq!(index(&s.hist, 16).len(), 4096);
        s
    })
}

#[test]
fn order_of_releasing() {
    ladder(&scene(true), &[F1, F2, F3], call_release);
    let mut s = scene(true);
    F5.1(&mut s);
    s.session = Session {
        n: 9999,
        ..Session::ENDED
    };
    assert_eq!(call_release(&mut s), 0);
    assert_eq!(s.session, Session::ENDED);
    assert_eq!(s.hist[5], 2);
}

#[test]
fn order_of_browsing() {
    let faults = [F1, F2, F3, F5, F6, F7, F8];
    ladder(&scene(false), &faults, call_browse);
}

#[test]
fn order_of_telling() {
    ladder(&scene(false), &[F1, F2, F3, F5], call_setting_of);
    let faults = [F1, F2, F3, F5, F6, F7, F8];
    ladder(&scene(false), &faults, call_record_of);
    // Neither the records nor the pages matter to the setting, nor the other
    // records and the pages to a record.
    let mut s = scene(false);
    F9.1(&mut s);
    assert_eq!(call_record_of(&mut s), 0);
    F7.1(&mut s);
    assert_eq!(call_setting_of(&mut s), 0);
    assert_eq!(call_record_of(&mut s), 7);
    for other in [0, 1, 3] {
        s.revision = other;
        assert_eq!(call_record_of(&mut s), 0);
    }
}

#[test]
fn order_of_the_whole_check() {
    let mut s = scene(false);
    s.revision = 3;
    // Revision 1's pages are in revision 3 as well; its own is the last.
    let f9: Fault = (9, |s| {
        let page = number_of_8(&s.hist, entry(&s.hist, 3, 2) + 8);
        s.hist[page as usize] ^= 1;
    });
    ladder(&s, &[F1, F2, F3, F5, F7, F8, f9], call_check);

    // All of revision k comes before k + 1: a page of 1 before the record of 2.
    let mut s = scene(false);
    F7.1(&mut s);
    let page = number_of_8(&s.hist, entry(&s.hist, 1, 1) + 8) as usize;
    s.hist[page] ^= 1;
    let fault = |number, revision, entry| Checked {
        number,
        revision,
        entry,
    };
    assert_eq!(check(&s.hist), fault(9, 1, 1));
    s.hist[page] ^= 1;
    assert_eq!(check(&s.hist), fault(7, 2, 0));
    // A record's 8 before its pages' 9, also if the 8 is the last entry's.
    let mut s = scene(false);
    let (first, last) = (entry(&s.hist, 2, 0), entry(&s.hist, 2, 3));
    s.hist[last + 20] ^= 1;
    put_4(&mut s.hist, first + 16, 0x1234_5678);
    repair(&mut s.hist, Repair::Records);
    assert_eq!(check(&s.hist), fault(8, 2, 0));
    s.hist[last + 20] ^= 1;
    repair(&mut s.hist, Repair::Records);
    assert_eq!(check(&s.hist), fault(9, 2, 0));
}

#[test]
fn order_of_listing() {
    ladder(&scene(false), &[F1, F2, F3, F5, F7, F8], call_list);
    let mut s = scene(false);
    F9.1(&mut s);
    assert_eq!(call_list(&mut s), 0);
    F8.1(&mut s);
    s.revision = 3;
    F7.1(&mut s);
    // Record after record: revision 2's 8 before revision 3's 7.
    assert_eq!(call_list(&mut s), 8);
    assert_eq!(listed(&[]), b"refused 1\n");
}

#[test]
fn row_1() {
    let mut hist = vec![0; LIMIT + 1];
    assert_eq!(create(&mut hist[..LIMIT], 0, 16, false), 0);
    assert_eq!(check(&hist[..LIMIT]).number, 0);
    assert_eq!(check(&hist).number, 1);
    assert_eq!(check(&hist[..39]).number, 1);
    assert_eq!(check(&hist[..40]).number, 5);
    assert_eq!(check(&hist[..59]).number, 5);
    assert_eq!(check(&hist[..60]).number, 0);
    assert_eq!(check(&[]).number, 1);
}

/// The number that the whole check and each call answer to a damaged history.
#[track_caller]
fn all_answer(s: &Scene, number: u64) {
    let mut s = s.clone();
    assert_eq!(check(&s.hist).number, number, "check");
    assert_eq!(call_browse(&mut s), number, "browse");
    assert_eq!(call_record_of(&mut s), number, "record");
    assert_eq!(call_list(&mut s), number, "list");
    assert_eq!(refused_untouched(&mut s, call_read), number, "read");
    assert_eq!(refused_untouched(&mut s, call_look_up), number, "look-up");
    assert_eq!(refused_untouched(&mut s, call_open), number, "open");
}

#[test]
fn row_2() {
    let faults: [fn(&mut [u8]); 20] = [
        |h| h[0] = b'o',
        |h| h[3] = 0,
        |h| h[4] = 0,
        |h| h[4] = 2,
        |h| h[5] |= 4,
        |h| h[5] |= 8,
        |h| h[5] |= 128,
        |h| h[6] = 1,
        |h| h[6] = 128,
        |h| h[7] = 1,
        |h| h[7] = 128,
        |h| put_4(h, 8, 0),
        |h| put_4(h, 8, 8),
        |h| put_4(h, 8, 24),
        |h| put_4(h, 8, 8192),
        |h| put_4(h, 8, u32::MAX),
        |h| put_4(h, 8, 1 << 31),
        |h| put_8(h, 12, LIMIT as u64 + 1),
        |h| put_8(h, 12, 1 << 63),
        |h| put_8(h, 12, u64::MAX),
    ];
    for fault in faults {
        let mut s = scene(false);
        fault(&mut s.hist);
        all_answer(&s, 2);
        repair(&mut s.hist, Repair::Header);
        all_answer(&s, 2);
    }
}

#[test]
fn row_3() {
    for at in 36..40 {
        let mut s = scene(false);
        s.hist[at] ^= 0x40;
        all_answer(&s, 3);
    }
    // Each other bit of a field that row 2 allows.
    for at in [20, 27, 28, 35] {
        let mut s = scene(false);
        s.hist[at] ^= 1;
        all_answer(&s, 3);
    }
}

#[test]
fn row_5() {
    let end = committed_end(&scene(false).hist) as u64;
    let fields = [
        (0, 80),
        (39, 80),
        (end - 79, 80),
        (end - 80, 79),
        (end - 80, 81),
        (end - 80, 60),
        (end - 80, 100),
        (end - 80, 0),
        (end - 80, 19),
        (16_384, 80),
        (16_384, 0),
        (16_305, 80),
        (u64::MAX, 80),
        (u64::MAX - 79, 80),
        (end - 80, u64::MAX),
        (end - 80, u64::MAX - end + 81),
        (u64::MAX, u64::MAX),
    ];
    for (at, size) in fields {
        let mut s = scene(false);
        put_8(&mut s.hist, 20, at);
        put_8(&mut s.hist, 28, size);
        repair(&mut s.hist, Repair::Header);
        all_answer(&s, 5);
    }
    let faults: [fn(&mut [u8]); 12] = [
        |w| w[0] = b'X',
        |w| w[3] = b'X',
        |w| w[4] = 0,
        |w| w[5] = 1,
        |w| w[6] = 1,
        |w| w[7] = 1,
        |w| put_8(w, 8, 2),
        |w| put_8(w, 8, 4),
        // 20 times this wraps round to 60.
        |w| put_8(w, 8, 3 + (1 << 62)),
        |w| put_8(w, 8, u64::MAX),
        |w| w[32] ^= 1,
        |w| w[75] ^= 1,
    ];
    for fault in faults {
        let mut s = scene(false);
        let (at, size) = whole(&s.hist);
        fault(&mut s.hist[at..at + size]);
        all_answer(&s, 5);
        repair(&mut s.hist, Repair::WholeHistory);
        all_answer(&s, 5);
    }
    // Its own checksum, and a count over 1,024 with all else right.
    let mut s = scene(false);
    let end = committed_end(&s.hist);
    s.hist[end - 1] ^= 1;
    all_answer(&s, 5);
    for (count, number) in [(1025, 5), (1024, 7)] {
        let mut plan = forge::empty(16, 0);
        plan.idle_locations = count;
        assert_eq!(check(&built(plan, 65_536)).number, number);
    }
}

#[test]
fn row_6() {
    let mut s = scene(false);
    for revision in [4, 5, 1024, u64::MAX - 1, 1 << 63] {
        s.revision = revision;
        assert_eq!(call_browse(&mut s), 6);
        assert_eq!(call_record_of(&mut s), 6);
        assert_eq!(call_read(&mut s), 6);
        assert_eq!(call_look_up(&mut s), 6);
        assert_eq!(refused_untouched(&mut s, call_open), 6);
    }
    for revision in [0, 1, 2, 3, NEWEST] {
        s.revision = revision;
        assert_eq!(call_browse(&mut s), 0);
        assert_eq!(call_record_of(&mut s), 0);
        assert_eq!(call_read(&mut s), 0);
        assert_eq!(call_look_up(&mut s), 0);
    }
    create(&mut s.hist, 5000, 16, false);
    assert_eq!(read(&s.orig, &s.hist, NEWEST, 0, &mut [0]), 0);
    assert_eq!(read(&s.orig, &s.hist, 1, 0, &mut [0]), 6);
    assert_eq!(
        browse(&s.hist, NEWEST),
        Browsed {
            number: 0,
            offset: 0,
            length: 0
        }
    );
}

/// Changes to revision 2's record, all checksums made right again: 4 entries,
/// logical size 5002, a name of 4 bytes and a comment of 1.
#[test]
fn row_7_in_the_record() {
    let faults: &[fn(&mut [u8])] = &[
        |r| r[0] = b'o',
        |r| r[3] = b'T',
        |r| r[4] = 0,
        |r| r[4] = 2,
        |r| r[5] = 1,
        |r| r[6] = 1,
        |r| r[7] = 1,
        |r| put_8(r, 8, 1),
        |r| put_8(r, 8, 3),
        |r| put_8(r, 16, 2),
        |r| put_8(r, 16, 3),
        |r| put_8(r, 16, u64::MAX),
        // Time.
        |r| r[24] = b'/',
        |r| r[27] = b':',
        |r| r[28..30].copy_from_slice(b"00"),
        |r| r[28..30].copy_from_slice(b"13"),
        |r| r[28..30].copy_from_slice(b"1 "),
        |r| r[30..32].copy_from_slice(b"00"),
        |r| r[30..32].copy_from_slice(b"32"),
        |r| r[32] = b't',
        |r| r[33..35].copy_from_slice(b"24"),
        |r| r[35..37].copy_from_slice(b"60"),
        |r| r[37..39].copy_from_slice(b"60"),
        |r| r[38] = 0,
        |r| r[39] = b'z',
        // Logical size: below the original's, at an entry, past the limit.
        |r| put_8(r, 40, 4999),
        |r| put_8(r, 40, 0),
        |r| put_8(r, 40, LIMIT as u64 + 1),
        |r| put_8(r, 40, u64::MAX),
        |r| put_4(r, 48, 32),
        |r| put_4(r, 48, 0),
        // Counts, also such as wrap round to the right size.
        |r| put_8(r, 56, 3),
        |r| put_8(r, 56, 5),
        |r| put_8(r, 56, 4 + (1 << 61)),
        |r| put_8(r, 56, 4097),
        |r| put_8(r, 56, u64::MAX),
        |r| put_4(r, 64, 3),
        |r| put_4(r, 64, 5),
        |r| put_4(r, 64, u32::MAX),
        |r| put_4(r, 68, 0),
        |r| put_4(r, 68, 2),
        |r| put_4(r, 68, u32::MAX),
        // The right size in all, but name or comment none or badly closed.
        |r| {
            put_4(r, 64, 0);
            put_4(r, 68, 5)
        },
        |r| {
            put_4(r, 64, 5);
            put_4(r, 68, 0)
        },
        |r| {
            put_4(r, 64, 3);
            put_4(r, 68, 2)
        },
        |r| {
            put_8(r, 56, 3);
            put_4(r, 64, 28)
        },
        |r| {
            put_8(r, 56, 3);
            put_4(r, 68, 25)
        },
        // Entries at 72, 96, 120 and 144; name at 168, comment at 172.
        |r| put_8(r, 72, 1),
        |r| put_8(r, 72, 8),
        |r| put_8(r, 72, 16),
        |r| put_8(r, 72, 32),
        |r| put_8(r, 96, 0),
        |r| put_8(r, 96, 24),
        |r| put_8(r, 144, 32),
        |r| put_8(r, 144, 5008),
        |r| put_8(r, 144, u64::MAX - 15),
        |r| put_8(r, 144, u64::MAX),
        |r| put_8(r, 80, 0),
        |r| put_8(r, 80, 59),
        |r| put_8(r, 80, 40),
        |r| put_8(r, 80, u64::MAX),
        |r| put_8(r, 80, u64::MAX - 15),
        |r| put_8(r, 80, u64::MAX - 16),
        |r| r[168] = 0,
        |r| r[169] = 0x1F,
        |r| r[170] = 0x7F,
        |r| r[170] = 0x80,
        |r| r[171] = b'!',
        |r| r[172] = b'!',
    ];
    for (i, fault) in faults.iter().enumerate() {
        let mut s = scene(false);
        let (at, size) = record(&s.hist, 2);
        fault(&mut s.hist[at..at + size]);
        // Ahead of row 8, whether or not that holds too.
        assert_eq!(
            check(&s.hist),
            Checked {
                number: 7,
                revision: 2,
                entry: 0
            },
            "{i}"
        );
        repair(&mut s.hist, Repair::Entries);
        assert_eq!(
            check(&s.hist),
            Checked {
                number: 7,
                revision: 2,
                entry: 0
            },
            "{i}"
        );
        all_answer(&s, 7);
        let mut other = s.clone();
        other.revision = 1;
        assert_eq!(call_read(&mut other), 0);
    }
    // The last place that a page may have, and one further.
    for (back, number) in [(16, 9), (15, 7), (0, 7)] {
        let mut s = scene(false);
        let (at, _) = record(&s.hist, 2);
        put_8(&mut s.hist, at + 72 + 8, (at - back) as u64);
        s.hist[at - back] ^= 0xFF;
        repair(&mut s.hist, Repair::Entries);
        assert_eq!(check(&s.hist).number, number, "{back}");
    }
}

/// Changes that row 7 has nothing against.
#[test]
fn not_row_7() {
    let fine: &[fn(&mut [u8])] = &[
        |r| put_8(r, 16, 0),
        |r| r[24..40].copy_from_slice(b"00000101T000000Z"),
        |r| r[24..40].copy_from_slice(b"99991231T235959Z"),
        |r| r[24..40].copy_from_slice(b"20230231T235959Z"),
        |r| put_8(r, 40, 4993),
        |r| put_8(r, 40, LIMIT as u64),
        |r| put_4(r, 52, u32::MAX),
        |r| r[168..171].copy_from_slice(b" ~ "),
    ];
    for (i, change) in fine.iter().enumerate() {
        let mut s = scene(false);
        let (at, size) = record(&s.hist, 2);
        change(&mut s.hist[at..at + size]);
        assert_eq!(check(&s.hist).number, if i == 4 { 7 } else { 8 }, "{i}");
        repair(&mut s.hist, Repair::Records);
        // 4993 is above the last entry, but below the original's length.
        assert_eq!(check(&s.hist).number, if i == 4 { 7 } else { 0 }, "{i}");
    }
    // Branching off does not reach back to stored parents.
    let mut s = scene(false);
    F12.1(&mut s);
    assert_eq!(check(&s.hist).number, 0);
}

#[test]
fn row_7_in_the_location() {
    let faults: &[fn(&mut [u8], u64)] = &[
        |l, _| put_8(l, 0, 0),
        |l, _| put_8(l, 0, 59),
        |l, _| put_8(l, 0, u64::MAX),
        |l, _| put_8(l, 0, u64::MAX - 10),
        |l, _| put_8(l, 8, 0),
        |l, _| put_8(l, 8, 75),
        |l, _| put_8(l, 8, 76),
        |l, _| put_8(l, 8, 178),
        |l, _| put_8(l, 8, u64::MAX),
        |l, whole| put_8(l, 0, whole),
        |l, whole| put_8(l, 0, whole - 60),
        |l, whole| put_8(l, 0, whole - 176),
        |l, whole| put_8(l, 8, whole),
    ];
    for (i, fault) in faults.iter().enumerate() {
        let mut s = scene(false);
        let at = location(&s.hist, 2);
        let start = whole(&s.hist).0;
        fault(&mut s.hist[at..at + 20], start as u64);
        repair(&mut s.hist, Repair::Locations);
        assert_eq!(
            check(&s.hist),
            Checked {
                number: 7,
                revision: 2,
                entry: 0
            },
            "{i}"
        );
        all_answer(&s, 7);
    }
    // A whole record that stands at 59, or that ends past the whole history's
    // start, is right in all but that.
    for (at, number) in [(60, 0), (59, 7), (58, 7)] {
        let mut plan = forge::empty(16, 0);
        plan.append(forge::plain_record(1, at, 16, 0));
        assert_eq!(check(&built(plan, 512)).number, number, "{at}");
    }
    let mut plan = forge::empty(16, 0);
    plan.append(forge::plain_record(1, 200, 16, 0));
    for (whole_at, number) in [(60, 7), (400, 0), (plan.whole_at, 0)] {
        let mut plan = plan.clone();
        plan.whole_at = whole_at;
        assert_eq!(check(&built(plan, 512)).number, number, "{whole_at}");
    }
}

/// The history of a plan in a buffer of so many zeros.
fn built(mut plan: Plan, room: usize) -> Vec<u8> {
    plan.ground = vec![0; room];
    plan.build()
}

/// A history of one revision with so many entries, its texts so long.
fn sized(entries: u64, name: usize, comment: usize) -> Vec<u8> {
    let text = |length: usize| {
        let mut text = vec![b'x'; length];
        if let Some(last) = text.last_mut() {
            *last = 0;
        }
        text
    };
    let mut record = forge::plain_record(1, 200, 16, forge::LIMIT);
    record.entries = (0..entries).map(|i| Entry::new(16 * i, 100)).collect();
    record.name = text(name);
    record.comment = text(comment);
    let mut plan = forge::empty(16, 0);
    plan.append(record);
    built(plan, 131_072)
}

#[test]
fn row_7_has_the_sizes_allowed() {
    for (entries, name, comment, number) in [
        (0, 1, 1, 0),
        (4096, 64, 256, 0),
        (4097, 64, 256, 7),
        (4096, 65, 256, 7),
        (4096, 64, 257, 7),
        (1, 0, 1, 7),
        (1, 1, 0, 7),
    ] {
        let hist = sized(entries, name, comment);
        assert_eq!(check(&hist).number, number, "{entries} {name} {comment}");
    }
}

/// A whole history that starts in the header's last byte, right in all else.
#[test]
fn row_5_has_the_header_in_front() {
    // Some length's checksum ends in the signature's first letter.
    let hist = (0..LIMIT as u64)
        .map(|original| {
            let mut plan = forge::empty(16, original);
            plan.whole_at = 39;
            plan.build()
        })
        .find(|hist| hist[39] == b'O')
        .unwrap();
    assert_eq!(&hist[39..43], b"OWHR");
    assert_eq!(check(&hist).number, 5);
}

#[test]
fn row_8() {
    let mut s = scene(false);
    let (at, size) = record(&s.hist, 2);
    // Bytes that row 7 leaves free.
    for place in [52, 55, 72 + 16, 72 + 23, size - 4, size - 1] {
        s.hist[at + place] ^= 1;
        all_answer(&s, 8);
        s.hist[at + place] ^= 1;
    }
    // An entry's checksum under a right record checksum, the last one's too.
    for i in 0..4 {
        let place = entry(&s.hist, 2, i) + 20;
        s.hist[place] ^= 1;
        repair(&mut s.hist, Repair::Records);
        all_answer(&s, 8);
        s.hist[place] ^= 1;
        repair(&mut s.hist, Repair::Records);
    }
    assert_eq!(check(&s.hist).number, 0);
}

/// Only the indexed pages that a range shares a byte with are checked.
#[test]
fn row_9_where_it_is_looked_at() {
    let s = scene(true);
    let mut hist = s.hist.clone();
    let page = |i| number_of_8(&s.hist, entry(&s.hist, 2, i) + 8) as usize;
    // Page 16 of revision 2 is damaged.
    hist[page(1) + 3] ^= 1;
    let mut out = [0; 48];
    for (at, length, number) in [
        (0, 16, 0),
        (0, 17, 9),
        (15, 1, 0),
        (16, 0, 0),
        (20, 0, 0),
        (16, 1, 9),
        (31, 1, 9),
        (32, 16, 0),
        (31, 0, 0),
        (0, 48, 9),
    ] {
        let got = read(&s.orig, &hist, 2, at, &mut out[..length]);
        assert_eq!(got, number, "read {at} {length}");
        let got = session_read(s.session, &s.orig, &hist, at, &mut out[..length]);
        assert_eq!(got.number, number, "session read {at} {length}");
        let mut hist = hist.clone();
        let got = write(s.session, &s.orig, &mut hist, at, &out[..length]);
        assert_eq!(got.number, number, "write {at} {length}");
    }
    assert_eq!(look_up(&s.orig, &hist, 2, 16).number, 9);
    assert_eq!(look_up(&s.orig, &hist, 2, 0).number, 0);

    // What an own page replaces is not checked, nor is an own page.
    let mut hist = s.hist.clone();
    let st = accepted(write(s.session, &s.orig, &mut hist, 16, b"own"));
    hist[page(1) + 3] ^= 1;
    hist[st.end as usize + 3] ^= 1;
    accepted(session_read(st, &s.orig, &hist, 0, &mut out));
    let st = accepted(write(st, &s.orig, &mut hist, 0, &out));
    assert_eq!((st.n, &st.pages[..3]), (3, &[16, 0, 32][..]));
    accepted(commit(st, &mut hist, TIME, 1, b"\0", b"\0"));
    assert_eq!(
        check(&hist),
        Checked {
            number: 9,
            revision: 1,
            entry: 1
        }
    );
    assert_eq!(read(&s.orig, &hist, 4, 0, &mut out), 0);
}

#[test]
fn row_10() {
    let s = scene(true);
    let mut out = [0; 8];
    let size = s.session.size;
    assert_eq!(size, 5002);
    for (at, length, number) in [
        (size, 0, 0),
        (size + 1, 0, 10),
        (size - 8, 8, 0),
        (size - 7, 8, 10),
        (size, 1, 10),
        (u64::MAX, 0, 10),
        (u64::MAX, 1, 10),
        (u64::MAX - 7, 8, 10),
    ] {
        let out = &mut out[..length];
        assert_eq!(read(&s.orig, &s.hist, 2, at, out), number);
        let answer = session_read(s.session, &s.orig, &s.hist, at, out);
        assert_eq!(answer.number, number);
    }
    let mut hist = s.hist.clone();
    for (at, number) in [(size, 0), (size + 1, 10), (u64::MAX, 10)] {
        assert_eq!(
            write(s.session, &s.orig, &mut hist, at, b"x").number,
            number
        );
    }
    for (address, number) in [
        (4992, 0),
        (5000, 10),
        (5008, 10),
        (1, 10),
        (u64::MAX - 15, 10),
    ] {
        assert_eq!(look_up(&s.orig, &hist, 2, address).number, number);
    }
}

#[test]
fn row_12() {
    let mut s = scene(false);
    F12.1(&mut s);
    for (revision, number) in [(0, 12), (1, 12), (2, 12), (3, 0), (NEWEST, 0)] {
        let mut s = s.clone();
        s.revision = revision;
        assert_eq!(refused_untouched(&mut s, call_open), number);
    }
}

#[test]
fn row_13() {
    let faults: &[fn(&mut Scene)] = &[
        |s| s.session = Session::ENDED,
        |s| {
            s.hist[5] &= !1;
            repair(&mut s.hist, Repair::Header);
        },
        |s| s.session.end -= 1,
        |s| s.session.end = u64::MAX,
        |s| s.session.count = 2,
        |s| s.session.count = 4,
        |s| s.session.count = u64::MAX,
        |s| s.session.parent = 4,
        |s| s.session.parent = u64::MAX,
        |s| {
            s.hist[5] &= !2;
            repair(&mut s.hist, Repair::Header);
        },
        |s| s.session.n = 257,
        |s| s.session.n = u64::MAX,
        |s| s.session.n = 1 << 60,
        |s| s.session.pages[1] = 0,
        |s| s.session.pages[2] = 0,
        |s| s.session.pages[2] = 33,
        |s| s.session.pages[0] = 8,
        |s| s.session.pages[0] = 5008,
        |s| {
            s.session.size = 5008;
            s.session.pages[0] = 5008;
        },
        |s| s.session.pages[0] = u32::MAX,
        |s| s.session.pages[0] = u32::MAX - 15,
        |s| s.session.size = LIMIT as u64 + 1,
        |s| s.session.size = u64::MAX,
        |s| s.session.size = 5001,
        |s| s.session.size = 0,
        |s| s.lent = committed_end(&s.hist) + 47,
        |s| s.lent = committed_end(&s.hist),
    ];
    let mut good = scene(true);
    good.at = 3;
    good.length = 30;
    assert_eq!(call_write(&mut good), 0);
    good.at = 40;
    good.length = 1;
    assert_eq!(call_write(&mut good), 0);
    assert_eq!(good.session.n, 3);
    for (i, fault) in faults.iter().enumerate() {
        let mut s = good.clone();
        fault(&mut s);
        assert_eq!(refused_untouched(&mut s, call_write), 13, "write {i}");
        assert_eq!(refused_untouched(&mut s, call_commit), 13, "commit {i}");
        assert_eq!(refused_untouched(&mut s, call_session_read), 13, "read {i}");
        s.length = 0;
        assert_eq!(
            refused_untouched(&mut s, call_write),
            13,
            "write nothing {i}"
        );
    }
    // Nothing of this is a fault.
    let fine: &[fn(&mut Scene)] = &[
        |s| s.session.pages[3..].fill(0),
        |s| s.session.pages[3..].fill(u32::MAX),
        |s| s.session.size = LIMIT as u64,
        |s| s.session.pages[2] = 4992,
        |s| s.lent = committed_end(&s.hist) + 48,
        |s| s.session.parent = 0,
        |s| s.session.parent = 3,
    ];
    for (i, change) in fine.iter().enumerate() {
        let mut s = good.clone();
        s.at = 0;
        change(&mut s);
        assert_eq!(call_write(&mut s), 0, "write {i}");
        assert_eq!(call_session_read(&mut s), 0, "read {i}");
    }
    // For parent 0 the size to keep is the original's length.
    let mut s = good.clone();
    s.session.parent = 0;
    s.session.size = 5000;
    assert_eq!(call_session_read(&mut s), 0);
    s.session.size = 4999;
    assert_eq!(call_session_read(&mut s), 13);

    // A count over 1,023, though it is the history's.
    let mut s = nearly_full();
    revise(&s.orig, &mut s.hist, NEWEST, &[]);
    F11.1(&mut s);
    s.session = Session {
        end: committed_end(&s.hist) as u64,
        count: 1024,
        parent: 1024,
        size: 5000,
        ..Session::ENDED
    };
    assert_eq!(refused_untouched(&mut s, call_write), 13);
    assert_eq!(refused_untouched(&mut s, call_commit), 13);
    assert_eq!(check(&s.hist).number, 0);
    assert_eq!(browse(&s.hist, 1024).number, 0);
}

#[test]
fn row_14_touched() {
    let mut s = scene(true);
    s.length = 256 * 16;
    assert_eq!(call_write(&mut s), 0);
    assert_eq!(s.session.n, 256);
    // All of them again, and one more.
    assert_eq!(call_write(&mut s), 0);
    s.length += 1;
    assert_eq!(refused_untouched(&mut s, call_write), 14);
    s.at = 4096;
    s.length = 1;
    assert_eq!(refused_untouched(&mut s, call_write), 14);
    s.length = 0;
    assert_eq!(call_write(&mut s), 0);
    assert_eq!(call_commit(&mut s), 0);
    assert_eq!(check(&s.hist).number, 0);
}

#[test]
fn row_14_merged() {
    let mut s = full_index().clone();
    s.session = accepted(open(&s.orig, &mut s.hist, NEWEST));
    // Over what is in the index: fine. Beside it: one too many.
    s.length = 256;
    assert_eq!(call_write(&mut s), 0);
    s.at = 4096 * 16;
    s.length = 1;
    assert_eq!(refused_untouched(&mut s, call_write), 14);
    s.length = 0;
    assert_eq!(call_write(&mut s), 0);
    // A session beyond it is refused even a write that adds nothing.
    s.session.pages[0] = 4096 * 16;
    assert_eq!(refused_untouched(&mut s, call_write), 14);
    s.at = 16;
    s.length = 5;
    assert_eq!(refused_untouched(&mut s, call_write), 14);
    assert_eq!(call_session_read(&mut s), 0);
    assert_eq!(refused_untouched(&mut s, call_commit), 14);
    // On an older parent with 15 x 256 entries it is not too many.
    s.session.parent = 15;
    assert_eq!(call_write(&mut s), 0);
    assert_eq!(call_commit(&mut s), 0);
    assert_eq!(index(&s.hist, 17).len(), 15 * 256 + 1);
    assert_eq!(check(&s.hist).number, 0);
}

#[test]
fn row_15() {
    // To the byte, in writing and in committing.
    let mut s = scene(true);
    s.at = 8;
    s.length = 16;
    s.lent = committed_end(&s.hist) + 31;
    assert_eq!(refused_untouched(&mut s, call_write), 15);
    s.lent += 1;
    assert_eq!(call_write(&mut s), 0);
    let record = 76 + 24 * 4 + 4 + 1;
    let whole = 20 + 20 * 4;
    s.lent += record + whole - 1;
    assert_eq!(refused_untouched(&mut s, call_commit), 15);
    s.lent += 1;
    assert_eq!(call_commit(&mut s), 0);
    assert_eq!(committed_end(&s.hist), s.lent);
    assert_eq!(check(&s.hist[..s.lent]).number, 0);
}

#[test]
fn row_16() {
    let mut name = vec![b'n'; 65];
    name[64] = 0;
    let mut comment = vec![b'c'; 257];
    comment[256] = 0;
    let fine: [(&[u8], &[u8], &[u8]); 4] = [
        (TIME, b"\0", b"\0"),
        (TIME, &name[1..], &comment[1..]),
        (b"00000101T000000Z", b" ~\0", b"~ \0"),
        (b"99991231T235959Z", b"x\0", b"y\0"),
    ];
    let wrong: [(&[u8], &[u8], &[u8]); 16] = [
        (&TIME[1..], b"\0", b"\0"),
        (&[], b"\0", b"\0"),
        (b"20240305T070000Z\0", b"\0", b"\0"),
        (b"20240005T070000Z", b"\0", b"\0"),
        (b"20241305T070000Z", b"\0", b"\0"),
        (b"20240332T070000Z", b"\0", b"\0"),
        (b"20240305T240000Z", b"\0", b"\0"),
        (b"20240305 070000Z", b"\0", b"\0"),
        (TIME, &[], b"\0"),
        (TIME, &name, b"\0"),
        (TIME, b"ana", b"\0"),
        (TIME, b"a\0a\0", b"\0"),
        (TIME, b"\0\0", b"\0"),
        (TIME, b"\0", &[]),
        (TIME, b"\0", &comment),
        (TIME, b"\0", b"\t\0"),
    ];
    for (number, cases) in [(0, &fine[..]), (16, &wrong[..])] {
        for (i, (time, name, comment)) in cases.iter().enumerate() {
            let mut s = scene(true);
            s.time = time.to_vec();
            s.name = name.to_vec();
            s.comment = comment.to_vec();
            assert_eq!(refused_untouched(&mut s, call_commit), number, "{i}");
            assert_eq!(check(&s.hist).number, 0);
        }
    }
}

#[test]
fn row_19() {
    // At the limit to the byte; the pages would be too many in any case.
    let mut s = scene(true);
    s.session.size = LIMIT as u64;
    s.at = LIMIT as u64;
    s.length = 0;
    assert_eq!(call_write(&mut s), 0);
    s.length = 1;
    assert_eq!(refused_untouched(&mut s, call_write), 19);
    s.at = LIMIT as u64 - 1;
    assert_eq!(call_write(&mut s), 0);
    assert_eq!(s.session.pages[0], LIMIT as u32 - 16);
    s.length = 2;
    assert_eq!(refused_untouched(&mut s, call_write), 19);
    s.at = 0;
    s.length = LIMIT;
    assert_eq!(refused_untouched(&mut s, call_write), 14);
    s.length = LIMIT + 1;
    assert_eq!(refused_untouched(&mut s, call_write), 19);
}
