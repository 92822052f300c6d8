//! The paper's worked examples, starred or not, and its easy errors.

mod common;
use common::*;
use forge::{number_of_4, number_of_8, put_8, repair, Repair, LATER, NEWEST, TIME};
use twin::*;

#[test]
fn checksums() {
    assert_eq!(checksum(&[]), 0);
    assert_eq!(checksum(&[0x01]), 0x0100_0100);
    assert_eq!(checksum(&[0x00, 0x01]), 0x0001_0001);
    assert_eq!(checksum(&[0xFF, 0xFF]), 0xFFFF_FFFF);
    assert_eq!(checksum(&[0xFF, 0xFF, 0x00, 0x01]), 0x0001_0001);
}

/// Vectors published for this word order: those of the HDF5 library's own
/// checksum test, whose Fletcher-32 takes big-endian words too.
#[test]
fn published_vectors_of_this_word_order() {
    assert_eq!(checksum(&[23]), 0x1700_1700);
    assert_eq!(checksum(&[23, 187]), 0x17BB_17BB);
    assert_eq!(checksum(&[23, 187, 98]), 0x9176_79BB);
    assert_eq!(checksum(&[23, 187, 98, 217]), 0x924F_7A94);
    let large: Vec<u8> = (0..3093_u32).map(|i| (i * 3) as u8).collect();
    assert_eq!(checksum(&large), 0x085B_4E2A);
    assert_eq!(checksum(&[0; 3093]), 0);
}

/// The best known vectors are for little-endian words; the two bytes of each
/// word swapped, with the odd byte's zero ahead of it, make them ours.
#[test]
fn published_vectors_of_the_other_word_order() {
    assert_eq!(checksum(b"badc\0e"), 0xF04F_C729);
    assert_eq!(checksum(b"badcfe"), 0x5650_2D2A);
    assert_eq!(checksum(b"badcfehg"), 0xEBE1_9591);
}

#[test]
fn page_sizes() {
    let mut hist = [0; 60];
    for (page, number) in [(16, 0), (4096, 0), (8, 17), (24, 17), (8192, 17)] {
        assert_eq!(create(&mut hist, 20, page, false), number, "{page}");
    }
}

#[test]
fn created_bytes() {
    let mut hist = vec![0xEE; 512];
    assert_eq!(create(&mut hist, 20, 16, false), 0);
    assert_eq!(committed_end(&hist), 60);
    assert_eq!(&hist[..8], b"OHDH\x01\0\0\0");
    assert_eq!(number_of_4(&hist, 8), 16);
    assert_eq!(number_of_8(&hist, 12), 20);
    assert_eq!((number_of_8(&hist, 20), number_of_8(&hist, 28)), (40, 20));
    assert_eq!(number_of_4(&hist, 36), checksum(&hist[..36]));
    assert_eq!(&hist[40..56], b"OWHR\x01\0\0\0\0\0\0\0\0\0\0\0");
    assert_eq!(number_of_4(&hist, 56), checksum(&hist[40..56]));
    assert!(hist[60..].iter().all(|&byte| byte == 0xEE));

    assert_eq!(create(&mut hist, 20, 16, true), 0);
    assert_eq!(&hist[4..8], &[1, 2, 0, 0]);
}

#[test]
fn two_revisions() {
    let orig: Vec<u8> = (100..120).collect();
    let mut hist = vec![0xEE; 512];
    assert_eq!(create(&mut hist, 20, 16, false), 0);

    let st = accepted(open(&orig, &mut hist, 0));
    assert_eq!(hist[5], 1);
    assert_eq!(
        (st.end, st.count, st.parent, st.size, st.n),
        (60, 0, 0, 20, 0)
    );
    let st = accepted(write(st, &orig, &mut hist, 14, b"abcd"));
    assert_eq!((st.size, st.n, &st.pages[..2]), (20, 2, &[0, 16][..]));
    let mut first = orig[..16].to_vec();
    first[14..].copy_from_slice(b"ab");
    assert_eq!(&hist[60..76], first);
    let mut second = [0; 16];
    second[..4].copy_from_slice(b"cdvw");
    assert_eq!(&hist[76..92], second);
    assert!(hist[92..].iter().all(|&byte| byte == 0xEE));

    let ended = accepted(commit(st, &mut hist, TIME, 1000, b"ana\0", b"\0"));
    assert_eq!(ended, Session::ENDED);
    assert_eq!(record(&hist, 1), (92, 129));
    assert_eq!(whole(&hist), (221, 40));
    assert_eq!(committed_end(&hist), 261);
    assert_eq!(hist[5], 0);
    assert_eq!(check(&hist).number, 0);

    // The record, field by field.
    let bytes = &hist[92..221];
    assert_eq!(&bytes[..8], b"ORRS\x01\0\0\0");
    assert_eq!((number_of_8(bytes, 8), number_of_8(bytes, 16)), (1, 0));
    assert_eq!(&bytes[24..40], TIME);
    assert_eq!((number_of_8(bytes, 40), number_of_4(bytes, 48)), (20, 16));
    assert_eq!((number_of_4(bytes, 52), number_of_8(bytes, 56)), (1000, 2));
    assert_eq!((number_of_4(bytes, 64), number_of_4(bytes, 68)), (4, 1));
    assert_eq!((number_of_8(bytes, 72), number_of_8(bytes, 80)), (0, 60));
    assert_eq!(number_of_4(bytes, 88), checksum(&hist[60..76]));
    assert_eq!(number_of_4(bytes, 92), checksum(&bytes[72..88]));
    assert_eq!((number_of_8(bytes, 96), number_of_8(bytes, 104)), (16, 76));
    assert_eq!(number_of_4(bytes, 112), checksum(&hist[76..92]));
    assert_eq!(number_of_4(bytes, 116), checksum(&bytes[96..112]));
    assert_eq!(&bytes[120..125], b"ana\0\0");
    assert_eq!(number_of_4(bytes, 125), checksum(&bytes[..125]));

    let st = accepted(open(&orig, &mut hist, 1));
    let st = accepted(write(st, &orig, &mut hist, 20, b"e"));
    assert_eq!((st.size, st.n, st.pages[0], st.end), (21, 1, 16, 261));
    accepted(commit(st, &mut hist, LATER, 1000, b"ana\0", b"\0"));
    assert_eq!(record(&hist, 2), (277, 129));
    assert_eq!(whole(&hist), (406, 60));
    assert_eq!(committed_end(&hist), 466);
    let pages: Vec<_> = index(&hist, 2)
        .iter()
        .map(|e| (e.logical, e.physical))
        .collect();
    assert_eq!(pages, [(0, 60), (16, 261)]);
    assert_eq!(
        check(&hist),
        Checked {
            number: 0,
            revision: 0,
            entry: 0
        }
    );

    let mut out = [0; 21];
    assert_eq!(read(&orig, &hist, 2, 0, &mut out), 0);
    let mut want = orig.clone();
    want[14..18].copy_from_slice(b"abcd");
    want.push(b'e');
    assert_eq!(out, &want[..]);
    assert_eq!(read(&orig, &hist, 1, 0, &mut out[..20]), 0);
    assert_eq!(read(&orig, &hist, 0, 0, &mut out[..20]), 0);
    assert_eq!(out[..20], orig);
}

#[test]
fn writes_of_no_bytes_and_reads_at_the_end() {
    let orig = [7; 20];
    let mut hist = vec![0; 512];
    create(&mut hist, 20, 16, false);
    let st = accepted(open(&orig, &mut hist, 0));
    assert_eq!(
        write(st, &orig, &mut hist, 20, &[]),
        Answer {
            number: 0,
            session: st
        }
    );
    assert_eq!(
        write(st, &orig, &mut hist, 21, &[]),
        Answer {
            number: 10,
            session: st
        }
    );

    let (orig, hist) = example();
    let mut byte = [0];
    assert_eq!(read(&orig, &hist, 1, 20, &mut byte), 10);
    assert_eq!(read(&orig, &hist, 2, 20, &mut byte), 0);
    assert_eq!(&byte, b"e");
    assert_eq!(read(&orig, &hist, 2, 21, &mut []), 0);
    assert_eq!(read(&orig, &hist, 2, 22, &mut []), 10);
}

#[test]
fn the_list() {
    let (orig, mut hist) = example();
    let text = "pages 16 original 20 revisions 2 lock no branch no\n\
                1 0 20240305T070000Z 20 2 ana\n\
                2 1 20240305T091500Z 21 2 ana\n";
    assert_eq!(listed(&hist[..466]), text.as_bytes());
    assert_eq!(listed(&hist), text.as_bytes());
    assert_eq!(listed(&hist[..465]), b"refused 5\n");
    assert_eq!(list_program(&hist[..466]), text.as_bytes());
    assert_eq!(list_program(&hist[..465]), b"refused 5\n");

    accepted(open(&orig, &mut hist, NEWEST));
    let locked = text.replace("lock no", "lock yes");
    assert_eq!(listed(&hist), locked.as_bytes());

    create(&mut hist, 0, 4096, true);
    assert_eq!(
        listed(&hist),
        b"pages 4096 original 0 revisions 0 lock no branch yes\n"
    );
}

#[test]
fn a_list_and_the_room_for_it() {
    let (_, hist) = example();
    let text = listed(&hist);
    for room in 0..text.len() {
        let mut out = vec![0xCC; room];
        assert_eq!(list(&hist, &mut out), text.len() as u64);
        assert!(out.iter().all(|&byte| byte == 0xCC), "{room}");
    }
    let mut out = vec![0xCC; text.len() + 9];
    assert_eq!(list(&hist, &mut out), text.len() as u64);
    assert_eq!(out, [&text[..], &[0xCC; 9]].concat());

    // A refusal is a text as well.
    let mut out = [0xCC; 12];
    assert_eq!(list(&hist[..39], &mut out[..9]), 10);
    assert_eq!(out, [0xCC; 12]);
    assert_eq!(list(&hist[..39], &mut out), 10);
    assert_eq!(&out, b"refused 1\n\xCC\xCC");
}

/// A history may be longer than what the list program takes.
#[test]
fn lists_of_long_histories() {
    let mut hist = vec![0; LIMIT + 1];
    create(&mut hist[..60], 0, 16, false);
    let text = b"pages 16 original 0 revisions 0 lock no branch no\n";
    for length in [65_536, 65_537, LIMIT] {
        assert_eq!(listed(&hist[..length]), text, "{length}");
    }
    assert_eq!(listed(&hist), b"refused 1\n");
    assert_eq!(list_program(&hist[..65_536]), text);
    assert_eq!(list_program(&hist[..65_537]), b"refused 1\n");
    assert_eq!(list_program(&hist), b"refused 1\n");
}

/// As many revisions as there may be, with the longest names.
#[test]
fn the_longest_list() {
    let name = [[b'~'; 63].as_slice(), &[0]].concat();
    let mut plan = forge::empty(4096, forge::LIMIT);
    let mut at = 60;
    for revision in 1..=1024 {
        let mut record = forge::plain_record(revision, at, 4096, forge::LIMIT);
        record.name = name.clone();
        at = record.end();
        plan.append(record);
    }
    plan.set_lock();
    plan.allow_branching();
    plan.ground = vec![0; plan.end() as usize];
    let hist = plan.build();
    assert_eq!(check(&hist).number, 0);

    let text = String::from_utf8(listed(&hist)).unwrap();
    let mut lines = text.lines();
    let first = "pages 4096 original 16777216 revisions 1024 lock yes branch yes";
    assert_eq!(lines.next(), Some(first));
    for revision in 1..=1024 {
        let (parent, name) = (revision - 1, "~".repeat(63));
        let line = format!("{revision} {parent} 20240305T070000Z 16777216 0 {name}");
        assert_eq!(lines.next(), Some(&line[..]));
    }
    assert_eq!(lines.next(), None);
    assert!(text.ends_with("~\n"));
}

#[test]
fn a_touched_page_is_filled_from_the_parent_and_not_the_original() {
    let (orig, mut hist) = example();
    let mut room = vec![0; 1024];
    room[..512].copy_from_slice(&hist);
    hist = room;
    let st = accepted(open(&orig, &mut hist, 2));
    let st = accepted(write(st, &orig, &mut hist, 0, b"X"));
    assert_eq!(&hist[466..482], b"Xefghijklmnopqab");
    let st = accepted(write(st, &orig, &mut hist, 19, b"YZ"));
    assert_eq!(&hist[482..498], b"cdvYZ\0\0\0\0\0\0\0\0\0\0\0");
    assert_eq!(st.size, 21);
}

#[test]
fn scratch_of_a_released_session_is_never_seen() {
    let orig: Vec<u8> = (0..40).collect();
    let mut hist = vec![0; 1024];
    create(&mut hist, 40, 16, false);
    let st = accepted(open(&orig, &mut hist, 0));
    let st = accepted(write(st, &orig, &mut hist, 0, &[0xAA; 48]));
    assert_eq!(accepted(release(st, &mut hist)), Session::ENDED);
    assert_eq!(hist[5], 0);
    // The next session uses the same room.
    let st = accepted(open(&orig, &mut hist, 0));
    let st = accepted(write(st, &orig, &mut hist, 39, &[1, 2]));
    assert_eq!((st.pages[0], st.end, st.size), (32, 60, 41));
    let mut want = [0; 16];
    want[..7].copy_from_slice(&[32, 33, 34, 35, 36, 37, 38]);
    want[7..9].copy_from_slice(&[1, 2]);
    assert_eq!(&hist[60..76], want);
}

#[test]
fn a_session_reads_its_own_pages_first() {
    let (orig, mut hist) = example();
    let mut out = [0; 21];
    let st = accepted(open(&orig, &mut hist, 2));
    let st = accepted(write(st, &orig, &mut hist, 3, b"?"));
    assert_eq!(
        session_read(st, &orig, &hist, 0, &mut out),
        Answer {
            number: 0,
            session: st
        }
    );
    assert_eq!(&out, b"def?hijklmnopqabcdvwe".map(|b| b).as_ref());
}

#[test]
fn empty_commit_and_branching() {
    let orig = [5; 20];
    let mut hist = vec![0; 4096];
    create(&mut hist, 20, 16, true);
    revise(&orig, &mut hist, 0, &[]);
    assert_eq!(index(&hist, 1), []);
    revise(&orig, &mut hist, 1, &[(0, b"one")]);
    revise(&orig, &mut hist, 1, &[(17, b"two")]);
    let mut out = [0; 20];
    assert_eq!(read(&orig, &hist, NEWEST, 0, &mut out), 0);
    assert_eq!(&out[..3], &[5; 3]);
    assert_eq!(&out[17..], b"two");
    assert_eq!(read(&orig, &hist, 2, 0, &mut out), 0);
    assert_eq!(&out[..3], b"one");
    assert_eq!(&out[17..], &[5; 3]);
    assert_eq!(check(&hist).number, 0);
}

#[test]
fn pages_are_looked_up_where_they_lie() {
    let (orig, hist) = example();
    let found = |source, offset, length| Found {
        number: 0,
        source,
        offset,
        length,
    };
    let refused = |number| Found {
        number,
        source: 0,
        offset: 0,
        length: 0,
    };
    assert_eq!(look_up(&orig, &hist, 0, 0), found(0, 0, 16));
    assert_eq!(look_up(&orig, &hist, 0, 16), found(0, 16, 4));
    assert_eq!(look_up(&orig, &hist, 1, 0), found(1, 60, 16));
    assert_eq!(look_up(&orig, &hist, 1, 16), found(1, 76, 4));
    assert_eq!(look_up(&orig, &hist, NEWEST, 16), found(1, 261, 5));
    assert_eq!(look_up(&orig, &hist, 0, 8), refused(10));
    assert_eq!(look_up(&orig, &hist, 0, 32), refused(10));
}

/// A page that the index lacks and the original does not fill has no place.
#[test]
fn a_page_that_lies_nowhere() {
    let orig = [5; 20];
    let mut hist = vec![0; 4096];
    create(&mut hist, 20, 16, false);
    // Grown in its second page, the revision's third stays without an entry
    // only if its size is forged, which the layout allows.
    revise(&orig, &mut hist, 0, &[(0, b"x")]);
    let at = record(&hist, 1).0;
    put_8(&mut hist, at + 40, 40);
    repair(&mut hist, Repair::Records);
    assert_eq!(look_up(&orig, &hist, 1, 0).source, 1);
    assert_eq!(look_up(&orig, &hist, 1, 16).number, 20);
    assert_eq!(look_up(&orig, &hist, 1, 32).number, 20);
    let mut out = [9; 40];
    assert_eq!(read(&orig, &hist, 1, 0, &mut out), 0);
    assert_eq!(&out[16..20], &[5; 4]);
    assert_eq!(&out[20..], &[0; 20]);
}

/// Decided points 1 and 9: a grown session reads what an indexed page stores
/// past the parent's size, and that is under the page's checksum as well.
#[test]
fn stored_bytes_past_the_parents_size() {
    let orig = [5; 20];
    let mut hist = vec![0; 4096];
    create(&mut hist, 20, 16, false);
    revise(&orig, &mut hist, 0, &[(16, b"x")]);
    let page = number_of_8(&hist, entry(&hist, 1, 0) + 8) as usize;
    hist[page + 6] = 0x66;
    assert_eq!(
        check(&hist),
        Checked {
            number: 9,
            revision: 1,
            entry: 0
        }
    );
    assert_eq!(read(&orig, &hist, 1, 16, &mut [0]), 9);
    repair(&mut hist, Repair::Pages);

    let mut st = accepted(open(&orig, &mut hist, 1));
    // First touched at size 20: zeros past it.
    let touched = accepted(write(st, &orig, &mut hist, 20, b"y"));
    assert_eq!(hist[touched.end as usize + 6], 0);
    // A session that is larger shows the stored byte, and copies it.
    st.size = 24;
    let mut out = [0; 8];
    accepted(session_read(st, &orig, &hist, 16, &mut out));
    assert_eq!(out, [b'x', 5, 5, 5, 0, 0, 0x66, 0]);
    let touched = accepted(write(st, &orig, &mut hist, 16, b"z"));
    let copy = touched.end as usize;
    assert_eq!(&hist[copy..copy + 8], &[b'z', 5, 5, 5, 0, 0, 0x66, 0]);
}

/// Decided points 2 and 4.
#[test]
fn a_later_touch_and_unused_slots() {
    let orig = [5; 20];
    let mut hist = vec![0; 4096];
    create(&mut hist, 20, 16, false);
    let mut st = accepted(open(&orig, &mut hist, 0));
    st.pages = [77; 256];
    let st = accepted(write(st, &orig, &mut hist, 16, b"ab"));
    assert_eq!(st.pages[..3], [16, 77, 77]);
    hist[60 + 9] = 0x99;
    let st = accepted(write(st, &orig, &mut hist, 17, b"cd"));
    assert_eq!((st.n, st.size), (1, 20));
    assert_eq!(&hist[60..70], &[b'a', b'c', b'd', 5, 0, 0, 0, 0, 0, 0x99]);
    let st = accepted(write(st, &orig, &mut hist, 0, &[1; 20]));
    assert_eq!(st.pages[..3], [16, 0, 77]);
}

#[test]
fn release_takes_any_session_and_leaves_an_unlocked_history() {
    let (orig, mut hist) = example();
    let before = hist.clone();
    assert_eq!(accepted(release(Session::ENDED, &mut hist)), Session::ENDED);
    assert_eq!(hist, before);
    let st = accepted(open(&orig, &mut hist, 2));
    assert_ne!(hist, before);
    let stranger = Session {
        end: 3,
        n: 999,
        ..st
    };
    assert_eq!(accepted(release(stranger, &mut hist)), Session::ENDED);
    assert_eq!(hist, before);
}

#[test]
fn browsing() {
    let (_, hist) = example();
    assert_eq!(
        browse(&hist, 0),
        Browsed {
            number: 0,
            offset: 0,
            length: 0
        }
    );
    assert_eq!(
        browse(&hist, 1),
        Browsed {
            number: 0,
            offset: 92,
            length: 129
        }
    );
    assert_eq!(
        browse(&hist, NEWEST),
        Browsed {
            number: 0,
            offset: 277,
            length: 129
        }
    );
    assert_eq!(
        browse(&hist, 3),
        Browsed {
            number: 6,
            offset: 0,
            length: 0
        }
    );

    let step = |kind| Step {
        kind,
        logical: 0,
        physical: 0,
        page_sum: 0,
        entry_sum: 0,
    };
    let record = &hist[92..221];
    let second = Step {
        kind: 0,
        logical: 16,
        physical: 76,
        page_sum: checksum(&hist[76..92]).into(),
        entry_sum: checksum(&record[96..112]).into(),
    };
    assert_eq!(browse_step(record, 1), second);
    assert_eq!(browse_step(record, 2), step(1));
    assert_eq!(browse_step(record, u64::MAX), step(1));
    assert_eq!(browse_step(&[], 0), step(1));
    assert_eq!(browse_step(&record[..124], 1), second);
    for length in 1..124 {
        assert_eq!(browse_step(&record[..length], 0), step(7), "{length}");
    }
    // Counts whose 24-fold wraps round to what is there, or to little.
    let mut forged = record.to_vec();
    for count in [1 << 61, (1 << 61) + 2, u64::MAX, u64::MAX / 24 + 1] {
        put_8(&mut forged, 56, count);
        assert_eq!(browse_step(&forged, 0), step(7), "{count}");
    }
    // Nothing else is judged.
    put_8(&mut forged, 56, 1);
    forged[0] = 0;
    assert_eq!(browse_step(&forged, 0).kind, 0);
    assert_eq!(browse_step(&forged, 1), step(1));
}

#[test]
fn what_the_history_and_its_records_say() {
    let (orig, mut hist) = example();
    let setting = Setting {
        number: 0,
        page_size: 16,
        original: 20,
        revisions: 2,
        end: 466,
        lock: false,
        branching: false,
    };
    assert_eq!(setting_of(&hist), setting);
    assert_eq!(setting_of(&hist[..466]), setting);
    assert_eq!(setting_of(&hist[..465]).number, 5);

    // Both records have two entries, so their texts start 72 + 48 bytes in.
    let part = |offset, length| Part { offset, length };
    let first = Record {
        number: 0,
        revision: 1,
        parent: 0,
        logical: 20,
        user: 1000,
        entries: 2,
        time: part(92 + 24, 16),
        name: part(92 + 120, 4),
        comment: part(92 + 124, 1),
    };
    let second = Record {
        revision: 2,
        parent: 1,
        logical: 21,
        time: part(277 + 24, 16),
        name: part(277 + 120, 4),
        comment: part(277 + 124, 1),
        ..first
    };
    assert_eq!(record_of(&hist, 1), first);
    assert_eq!(record_of(&hist, 2), second);
    assert_eq!(record_of(&hist, NEWEST), second);
    assert_eq!(&hist[277 + 24..277 + 40], LATER);
    assert_eq!(&hist[277 + 120..277 + 125], b"ana\0\0");

    let original = record_of(&hist, 0);
    let nowhere = part(0, 0);
    let nothing = Record {
        number: 0,
        revision: 0,
        parent: 0,
        logical: 20,
        user: 0,
        entries: 0,
        time: nowhere,
        name: nowhere,
        comment: nowhere,
    };
    assert_eq!(original, nothing);
    assert_eq!(record_of(&hist, 3).number, 6);

    accepted(open(&orig, &mut hist, NEWEST));
    let lock = true;
    assert_eq!(setting_of(&hist), Setting { lock, ..setting });
    create(&mut hist, 0, 4096, true);
    let created = Setting {
        number: 0,
        page_size: 4096,
        original: 0,
        revisions: 0,
        end: 60,
        lock: false,
        branching: true,
    };
    assert_eq!(setting_of(&hist), created);
    let logical = 0;
    assert_eq!(record_of(&hist, NEWEST), Record { logical, ..nothing });
}
