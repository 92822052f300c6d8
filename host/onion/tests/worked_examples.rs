//! The worked examples of the paper, and what this crate adds to the store.

use onion::{
    checksum, version, Fault, History, Note, Record, Refusal, Session, Source, CREATED_LENGTH,
    NEWEST, SIZE_MOST,
};

const ORIGINAL: [u8; 20] = *b"abcdefghijklmnopqrst";

fn note(time: &str) -> Note<'_> {
    Note {
        time,
        user: 7,
        name: "ana",
        comment: "",
    }
}

/// The history of the worked example: two revisions, end 466, in a buffer of 512 bytes.
fn two_revisions(branching: bool) -> History<Vec<u8>> {
    let mut history = History::create(vec![0; 512], 20, 16, branching).unwrap();
    let session = history.open(&ORIGINAL, NEWEST).unwrap();
    let session = session.write(&ORIGINAL, &mut history, 14, b"WXYZ").unwrap();
    let first = session.commit(&mut history, &note("20240305T070000Z"));
    assert_eq!(first.unwrap(), 1);
    let session = history.open(&ORIGINAL, 1).unwrap();
    let session = session.write(&ORIGINAL, &mut history, 20, b"!").unwrap();
    assert_eq!(session.size(), 21);
    let second = session.commit(&mut history, &note("20240305T091500Z"));
    assert_eq!(second.unwrap(), 2);
    history
}

fn read_all(history: &History<Vec<u8>>, revision: u64) -> Vec<u8> {
    let size = history.logical_size(revision).unwrap();
    let mut bytes = vec![0; size as usize];
    history.read(&ORIGINAL, revision, 0, &mut bytes).unwrap();
    bytes
}

fn physical_addresses(history: &History<Vec<u8>>, revision: u64) -> Vec<(u64, u64)> {
    let entries = history.entries(revision).unwrap();
    entries
        .map(|entry| (entry.logical, entry.physical))
        .collect()
}

#[test]
fn checksums() {
    assert_eq!(checksum(&[]), 0);
    assert_eq!(checksum(&[0x01]), 0x0100_0100);
    assert_eq!(checksum(&[0x00, 0x01]), 0x0001_0001);
    assert_eq!(checksum(&[0xFF, 0xFF]), 0xFFFF_FFFF);
    assert_eq!(checksum(&[0xFF, 0xFF, 0x00, 0x01]), 0x0001_0001);
}

#[test]
fn published_vectors_in_this_word_order() {
    // The words of the published vectors are little-endian; here their bytes stand swapped.
    assert_eq!(checksum(b"badc\0e"), 0xF04F_C729);
    assert_eq!(checksum(b"badcfe"), 0x5650_2D2A);
    assert_eq!(checksum(b"badcfehg"), 0xEBE1_9591);
}

#[test]
fn page_sizes() {
    for page_size in [16, 4_096] {
        assert!(History::create([0; CREATED_LENGTH], 20, page_size, false).is_ok());
    }
    for page_size in [0, 8, 24, 8_192, u64::MAX] {
        let refused = History::create([0; CREATED_LENGTH], 20, page_size, false);
        assert_eq!(refused.unwrap_err(), Refusal::Creation);
    }
    let too_long = History::create([0; CREATED_LENGTH], SIZE_MOST as u64 + 1, 16, false);
    assert_eq!(too_long.unwrap_err(), Refusal::Creation);
    let too_short = History::create([0; CREATED_LENGTH - 1], 20, 16, false);
    assert_eq!(too_short.unwrap_err(), Refusal::HistoryLength);
}

#[test]
fn created_and_first_session() {
    let mut history = History::create(vec![0xAA; 512], 20, 16, false).unwrap();
    let summary = history.summary().unwrap();
    assert_eq!(summary.end, 60);
    assert_eq!((summary.page_size, summary.original_length), (16, 20));
    assert_eq!((summary.locked, summary.branching), (false, false));
    assert!(history.revisions().next().is_none());

    let session = history.open(&ORIGINAL, NEWEST).unwrap();
    assert!(history.summary().unwrap().locked);
    assert_eq!((session.parent(), session.size()), (0, 20));
    let session = session.write(&ORIGINAL, &mut history, 14, b"WXYZ").unwrap();
    assert_eq!(session.pages(), [0, 16]);
    assert_eq!(&history.bytes()[60..76], b"abcdefghijklmnWX");
    assert_eq!(&history.bytes()[76..92], b"YZst\0\0\0\0\0\0\0\0\0\0\0\0");
    let mut seen = [0; 6];
    let session = session.read(&ORIGINAL, &history, 13, &mut seen).unwrap();
    assert_eq!(&seen, b"nWXYZs");

    session
        .commit(&mut history, &note("20240305T070000Z"))
        .unwrap();
    let summary = history.summary().unwrap();
    assert_eq!((summary.revisions, summary.end), (1, 261));
    assert!(!summary.locked);
    assert_eq!(physical_addresses(&history, 1), [(0, 60), (16, 76)]);
}

#[test]
fn second_session() {
    let history = two_revisions(false);
    let summary = history.summary().unwrap();
    assert_eq!((summary.revisions, summary.end), (2, 466));
    let records: Vec<Record> = history.revisions().map(Result::unwrap).collect();
    assert_eq!(records.len(), 2);
    for (record, revision, parent, time, size) in [
        (records[0], 1, 0, "20240305T070000Z", 20),
        (records[1], 2, 1, "20240305T091500Z", 21),
    ] {
        assert_eq!((record.revision, record.parent), (revision, parent));
        assert_eq!((record.time, record.logical_size), (time, size));
        assert_eq!((record.user, record.entry_count), (7, 2));
        assert_eq!((record.name, record.comment), ("ana", ""));
    }
    assert_eq!(history.record(NEWEST), Ok(Some(records[1])));
    assert_eq!(physical_addresses(&history, 1), [(0, 60), (16, 76)]);
    assert_eq!(physical_addresses(&history, 2), [(0, 60), (16, 261)]);
    let entry = history.entries(2).unwrap().last().unwrap();
    assert_eq!(entry.page_checksum, checksum(&history.bytes()[261..277]));

    assert_eq!(read_all(&history, 0), ORIGINAL);
    assert_eq!(read_all(&history, 1), b"abcdefghijklmnWXYZst");
    assert_eq!(read_all(&history, 2), b"abcdefghijklmnWXYZst!");
    assert_eq!(read_all(&history, NEWEST), read_all(&history, 2));
    assert_eq!(history.check(), Ok(()));
}

#[test]
fn the_edge_of_the_size() {
    let mut history = History::create(vec![0; 512], 20, 16, false).unwrap();
    let session = history.open(&ORIGINAL, 0).unwrap();
    let session = session.write(&ORIGINAL, &mut history, 20, b"").unwrap();
    let before = history.clone();
    let refused = session.write(&ORIGINAL, &mut history, 21, b"").unwrap_err();
    assert_eq!(refused.refusal, Refusal::Outside);
    assert_eq!(history, before);
    // The session that came back is the one to go on with.
    refused.session.release(&mut history).unwrap();
    assert!(!history.summary().unwrap().locked);

    let history = two_revisions(false);
    let mut byte = [0];
    let refused = history.read(&ORIGINAL, 1, 20, &mut byte);
    assert_eq!(refused, Err(Refusal::Outside));
    assert_eq!(history.read(&ORIGINAL, 2, 20, &mut byte), Ok(()));
    assert_eq!(&byte, b"!");
}

#[test]
fn look_up_lends_a_part() {
    let history = two_revisions(false);
    let page = history.look_up(&ORIGINAL, 0, 0).unwrap();
    assert_eq!((page.source, page.offset), (Source::Original, 0));
    assert_eq!(page.bytes.as_ptr(), ORIGINAL.as_ptr());
    assert_eq!(page.bytes.len(), 16);
    let page = history.look_up(&ORIGINAL, 2, 16).unwrap();
    assert_eq!((page.source, page.offset), (Source::History, 261));
    assert_eq!(page.bytes, b"YZst!");
    let refused = history.look_up(&ORIGINAL, 2, 8).unwrap_err();
    assert_eq!(refused, Refusal::Outside);
}

#[test]
fn a_session_that_is_lost_leaves_a_lock_to_clear() {
    let mut history = two_revisions(false);
    drop(history.open(&ORIGINAL, NEWEST).unwrap());
    let refused = history.open(&ORIGINAL, NEWEST).unwrap_err();
    assert_eq!(refused, Refusal::Locked);
    history.clear_lock().unwrap();
    assert!(history.open(&ORIGINAL, NEWEST).is_ok());
}

#[test]
fn branching_is_off_or_on() {
    let refused = two_revisions(false).open(&ORIGINAL, 1).unwrap_err();
    assert_eq!(refused, Refusal::NotNewest);
    assert!(two_revisions(true).open(&ORIGINAL, 1).is_ok());
}

#[test]
fn texts_that_cannot_be_stored_keep_the_session() {
    let mut history = two_revisions(false);
    let mut session = history.open(&ORIGINAL, NEWEST).unwrap();
    let long = "x".repeat(64);
    for (time, name) in [
        ("20241305T070000Z", "ana"),
        ("20240305T07000", "ana"),
        ("20240305T070000Z", "a\nb"),
        ("20240305T070000Z", "a\0b"),
        ("20240305T070000Z", long.as_str()),
    ] {
        let wrong = Note { name, ..note(time) };
        let refused = session.commit(&mut history, &wrong).unwrap_err();
        assert_eq!(refused.refusal, Refusal::Text);
        session = refused.session;
    }
    // The room ends before the record does.
    let refused: Refusal = session
        .commit(&mut history, &note("20240305T100000Z"))
        .unwrap_err()
        .into();
    assert_eq!(refused, Refusal::NoRoom);
}

#[test]
fn the_list() {
    let mut history = two_revisions(false);
    let lines = "pages 16 original 20 revisions 2 lock no branch no\n\
                 1 0 20240305T070000Z 20 2 ana\n\
                 2 1 20240305T091500Z 21 2 ana\n";
    assert_eq!(history.list().unwrap(), lines);
    drop(history.open(&ORIGINAL, NEWEST).unwrap());
    assert_eq!(
        history.list().unwrap(),
        lines.replace("lock no", "lock yes")
    );
    history.bytes_mut()[300] ^= 1;
    assert_eq!(history.list(), Err(Refusal::Record));
    let empty = History::over([]);
    assert_eq!(empty.list(), Err(Refusal::HistoryLength));
}

#[test]
fn faults_are_named() {
    let mut history = two_revisions(false);
    history.bytes_mut()[265] ^= 1;
    let fault = history.check().unwrap_err();
    let page = Fault {
        refusal: Refusal::PageChecksum,
        revision: Some(2),
        entry: Some(1),
    };
    assert_eq!(fault, page);

    let mut history = two_revisions(false);
    history.bytes_mut()[130] ^= 1;
    let fault = history.check().unwrap_err();
    assert_eq!((fault.revision, fault.entry), (Some(1), None));
    let listed: Vec<_> = history.revisions().collect();
    assert_eq!(listed, [Err(fault.refusal)]);

    let short = History::over(&history.bytes()[..39]);
    let fault = short.check().unwrap_err();
    assert_eq!(fault.refusal, Refusal::HistoryLength);
    assert_eq!((fault.revision, fault.entry), (None, None));
    assert_eq!(short.summary(), Err(Refusal::HistoryLength));
}

#[test]
fn a_history_over_a_borrowed_slice() {
    let mut buffer = [0; 512];
    let mut history = History::create(&mut buffer[..], 20, 16, false).unwrap();
    let session: Session = history.open(&ORIGINAL, NEWEST).unwrap();
    session.release(&mut history).unwrap();
    let lent = History::over(&buffer[..]);
    assert_eq!(lent.summary().unwrap().end, 60);
    assert!(lent.entries(0).unwrap().next().is_none());
    assert!(lent.record(0).unwrap().is_none());
    assert_eq!(lent.record(1), Err(Refusal::Revision));
}

#[test]
fn the_library_has_the_version_that_is_declared() {
    let (major, minor) = version();
    assert_eq!(u32::from(major), onion_sys::ONION_VERSION_MAJOR);
    assert_eq!(u32::from(minor), onion_sys::ONION_VERSION_MINOR);
}
