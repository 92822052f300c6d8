//! The worked examples of the paper, run through the twin: the same lines as the proved program `examples` prints.

use twin::{Answer, Session};

const ORIGINAL: &[u8; 20] = b"shade net, two bars.";

fn say(what: &str, number: u64) {
    println!("{what} {number}");
}

fn show_session(session: &Session) {
    say("  its end", session.end);
    say("  its parent", session.parent);
    say("  its size", session.size);
    say("  its pages", session.n);
    say("  its first page", u64::from(session.pages[0]));
    say("  its second page", u64::from(session.pages[1]));
}

fn show_answer(call: &str, answer: Answer) -> Session {
    say(call, answer.number);
    show_session(&answer.session);
    answer.session
}

fn open(history: &mut [u8], revision: u64) -> Session {
    show_answer("open", twin::open(ORIGINAL, history, revision))
}

fn write(session: Session, history: &mut [u8], at: u64, bytes: &[u8]) -> Session {
    show_answer("write", twin::write(session, ORIGINAL, history, at, bytes))
}

fn commit(session: Session, history: &mut [u8], time: &[u8]) {
    show_answer(
        "commit",
        twin::commit(session, history, time, 7, b"ana\0", b"\0"),
    );
    let record = twin::browse(history, u64::MAX);
    say("  record at", record.offset);
    say("  of", record.length);
    say("  whole history at", forge::number_of_8(history, 20));
    say("  of", forge::number_of_8(history, 28));
}

fn show_page(history: &[u8], revision: u64, address: u64) {
    let found = twin::look_up(ORIGINAL, history, revision, address);
    say("  look-up", found.number);
    say("  its source", found.source);
    say("  its offset", found.offset);
    say("  its length", found.length);
}

fn show_index(history: &[u8], revision: u64) {
    let record = twin::browse(history, revision);
    let start = record.offset as usize;
    let bytes = &history[start..start + record.length as usize];
    for place in 0..3 {
        let step = twin::browse_step(bytes, place);
        say("  step", step.kind);
        say("    logical", step.logical);
        say("    physical", step.physical);
    }
}

fn show_bytes(history: &[u8], revision: u64, at: u64, length: usize) {
    let mut out = vec![b'.'; length];
    say(
        "read",
        twin::read(ORIGINAL, history, revision, at, &mut out),
    );
    println!("  {}", String::from_utf8_lossy(&out));
}

fn show_list(history: &[u8]) {
    let mut text = vec![0; twin::list(history, &mut []) as usize];
    twin::list(history, &mut text);
    print!("{}", String::from_utf8_lossy(&text));
}

fn main() {
    let checksums: [&[u8]; 5] = [&[], &[1], &[0, 1], &[255, 255], &[255, 255, 0, 1]];
    for bytes in checksums {
        println!("checksum 0x{:08x}", twin::checksum(bytes));
    }
    for page in [16, 4096, 8, 24, 8192] {
        let number = twin::create(&mut [0; 512], 20, page, false);
        println!("page size {page} created {number}");
    }

    let mut history = [0xEE; 512];
    say("create", twin::create(&mut history, 20, 16, false));

    let session = open(&mut history, 0);
    let none = write(session, &mut history, 20, b"");
    let past = write(none, &mut history, 21, b"");
    let scratch = write(past, &mut history, 0, b"scratch");
    let ended = show_answer("release", twin::release(scratch, &mut history));
    write(ended, &mut history, 0, b"late");

    let session = open(&mut history, 0);
    let written = write(session, &mut history, 14, b"four");
    commit(written, &mut history, forge::TIME);
    show_page(&history, 1, 0);
    show_page(&history, 1, 16);

    let session = open(&mut history, 1);
    let written = write(session, &mut history, 20, b"!");
    commit(written, &mut history, forge::LATER);
    show_index(&history, 2);

    show_bytes(&history, 1, 20, 1);
    show_bytes(&history, 2, 20, 1);
    show_bytes(&history, 0, 0, 20);
    show_bytes(&history, 1, 0, 20);
    show_bytes(&history, 2, 0, 21);
    say("check", twin::check(&history).number);
    show_list(&history[..466]);
}
