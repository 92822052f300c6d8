//! Each call made on both sides with the same inputs, and everything that comes back compared: the answer, every word
//! of the session, and every lent byte, also some around the lent ones.

use crate::report::{Call, Test};
use compare::proved;
use forge::{Plan, Random, LIMIT};
use std::ops::Range;
use twin::{Answer, Browsed, Checked, Found, Record, Session, Setting, Step};

/// Bytes kept around lent ones, to see that nothing is stored there.
const AROUND: usize = 32;

pub const EVERYTHING: Range<usize> = 0..usize::MAX;

/// Bytes to lend, with others around them. The start is not aligned.
#[derive(Clone)]
struct Lent {
    bytes: Vec<u8>,
    start: usize,
    length: usize,
}

impl Lent {
    fn new(content: &[u8], start: usize) -> Lent {
        let mut bytes = vec![0xC3; start + content.len() + AROUND];
        bytes[start..start + content.len()].copy_from_slice(content);
        Lent {
            bytes,
            start,
            length: content.len(),
        }
    }

    fn lend(&self) -> &[u8] {
        &self.bytes[self.start..self.start + self.length]
    }

    fn lend_mut(&mut self) -> &mut [u8] {
        &mut self.bytes[self.start..self.start + self.length]
    }
}

/// An original and a history buffer, for each side its own. They hold the same bytes between calls.
#[derive(Clone)]
pub struct Store {
    proved_original: Lent,
    twin_original: Lent,
    proved_history: Lent,
    twin_history: Lent,
    /// The history before a call that may change it.
    before: Vec<u8>,
    /// The part of the history that is compared after a call, beside its header: all of it, but for a scenario with
    /// thousands of calls on megabytes, which compares all now and then.
    pub compared: Range<usize>,
}

impl Store {
    pub fn new(random: &mut Random, original: &[u8], history: &[u8]) -> Store {
        let starts = [(); 2].map(|()| AROUND + random.below(16) as usize);
        Store {
            proved_original: Lent::new(original, starts[0]),
            twin_original: Lent::new(original, starts[0]),
            proved_history: Lent::new(history, starts[1]),
            twin_history: Lent::new(history, starts[1]),
            before: Vec::new(),
            compared: EVERYTHING,
        }
    }

    /// The history of a plan, and an original for it.
    pub fn planned(random: &mut Random, plan: &Plan) -> Store {
        let lent = match plan.original {
            0..=LIMIT => plan.original,
            // No original of that length can be lent; row 2 comes before row 4.
            _ => 7,
        };
        let original = random.bytes(lent as usize);
        Store::new(random, &original, &plan.build())
    }

    pub fn original(&self) -> &[u8] {
        self.twin_original.lend()
    }

    pub fn history(&self) -> &[u8] {
        self.twin_history.lend()
    }

    /// The same store over another original.
    pub fn with_original(&self, random: &mut Random, original: &[u8]) -> Store {
        Store::new(random, original, self.history())
    }

    /// The same store over another history.
    pub fn with_history(&self, random: &mut Random, history: &[u8]) -> Store {
        Store::new(random, self.original(), history)
    }

    pub fn create(&mut self, test: &mut Test, original: u64, page: u64, branching: bool) -> u64 {
        let call = || format!("create(original {original}, page {page}, branching {branching})");
        self.begin(test, &call);
        let ours = proved::create(self.proved_history.lend_mut(), original, page, branching);
        let theirs = twin::create(self.twin_history.lend_mut(), original, page, branching);
        self.number(test, Call::Create, &call, ours, theirs);
        self.kept(test, &call, theirs);
        theirs
    }

    pub fn open(&mut self, test: &mut Test, revision: u64) -> Answer {
        let call = || format!("open(revision {revision})");
        self.begin(test, &call);
        let ours = proved::open(
            self.proved_original.lend(),
            self.proved_history.lend_mut(),
            revision,
        );
        let theirs = twin::open(
            self.twin_original.lend(),
            self.twin_history.lend_mut(),
            revision,
        );
        self.answer(test, Call::Open, &call, &ours, &theirs);
        if theirs.number != 0 {
            self.same_session(
                test,
                &call,
                &theirs.session,
                &Session::ENDED,
                "the ended session",
            );
        }
        self.kept(test, &call, theirs.number);
        theirs
    }

    pub fn write(&mut self, test: &mut Test, session: Session, at: u64, data: &[u8]) -> Answer {
        let call = || {
            let session = summary(&session);
            format!("write(at {at}, {} bytes) through {session}", data.len())
        };
        self.begin(test, &call);
        let data = Lent::new(data, AROUND + (at % 16) as usize);
        let lent = data.clone();
        let ours = proved::write(
            session,
            self.proved_original.lend(),
            self.proved_history.lend_mut(),
            at,
            lent.lend(),
        );
        let theirs = twin::write(
            session,
            self.twin_original.lend(),
            self.twin_history.lend_mut(),
            at,
            data.lend(),
        );
        self.answer(test, Call::Write, &call, &ours, &theirs);
        self.same_lent(test, &call, "data", &lent, &data);
        if theirs.number != 0 {
            self.same_session(test, &call, &theirs.session, &session, "the given one");
        }
        self.kept(test, &call, theirs.number);
        theirs
    }

    pub fn commit(
        &mut self,
        test: &mut Test,
        session: Session,
        time: &[u8],
        user: u32,
        name: &[u8],
        comment: &[u8],
    ) -> Answer {
        let call = || {
            let session = summary(&session);
            let [time, name, comment] = [time, name, comment].map(|word| word.escape_ascii());
            format!("commit(time \"{time}\", user {user}, name \"{name}\", comment \"{comment}\") of {session}")
        };
        self.begin(test, &call);
        let words = [time, name, comment].map(|word| Lent::new(word, AROUND));
        let lent = words.clone();
        let ours = proved::commit(
            session,
            self.proved_history.lend_mut(),
            lent[0].lend(),
            user,
            lent[1].lend(),
            lent[2].lend(),
        );
        let theirs = twin::commit(
            session,
            self.twin_history.lend_mut(),
            time,
            user,
            name,
            comment,
        );
        self.answer(test, Call::Commit, &call, &ours, &theirs);
        for (lent, word) in lent.iter().zip(&words) {
            self.same_lent(test, &call, "time, name or comment", lent, word);
        }
        let (want, which) = match theirs.number {
            0 => (&Session::ENDED, "the ended session"),
            _ => (&session, "the given one"),
        };
        self.same_session(test, &call, &theirs.session, want, which);
        self.kept(test, &call, theirs.number);
        theirs
    }

    pub fn release(&mut self, test: &mut Test, session: Session) -> Answer {
        let call = || format!("release of {}", summary(&session));
        self.begin(test, &call);
        let ours = proved::release(session, self.proved_history.lend_mut());
        let theirs = twin::release(session, self.twin_history.lend_mut());
        self.answer(test, Call::Release, &call, &ours, &theirs);
        let (want, which) = match theirs.number {
            0 => (&Session::ENDED, "the ended session"),
            _ => (&session, "the given one"),
        };
        self.same_session(test, &call, &theirs.session, want, which);
        self.kept(test, &call, theirs.number);
        theirs
    }

    /// Gives the bytes read, too, where they were.
    pub fn read(&self, test: &mut Test, revision: u64, at: u64, length: usize) -> (u64, Vec<u8>) {
        let call = || format!("read(revision {revision}, at {at}, {length} bytes)");
        test.begin(&call);
        let mut out = pattern(length, at);
        let mut lent = out.clone();
        let ours = proved::read(
            self.proved_original.lend(),
            self.proved_history.lend(),
            revision,
            at,
            lent.lend_mut(),
        );
        let theirs = twin::read(
            self.twin_original.lend(),
            self.twin_history.lend(),
            revision,
            at,
            out.lend_mut(),
        );
        self.number(test, Call::Read, &call, ours, theirs);
        self.filled(test, &call, theirs, at, &lent, &out);
        (theirs, out.lend().to_vec())
    }

    pub fn session_read(
        &self,
        test: &mut Test,
        session: Session,
        at: u64,
        length: usize,
    ) -> (u64, Vec<u8>) {
        let call = || {
            let session = summary(&session);
            format!("session read(at {at}, {length} bytes) through {session}")
        };
        test.begin(&call);
        let mut out = pattern(length, at);
        let mut lent = out.clone();
        let ours = proved::session_read(
            session,
            self.proved_original.lend(),
            self.proved_history.lend(),
            at,
            lent.lend_mut(),
        );
        let theirs = twin::session_read(
            session,
            self.twin_original.lend(),
            self.twin_history.lend(),
            at,
            out.lend_mut(),
        );
        self.answer(test, Call::SessionRead, &call, &ours, &theirs);
        self.same_session(test, &call, &theirs.session, &session, "the given one");
        self.filled(test, &call, theirs.number, at, &lent, &out);
        (theirs.number, out.lend().to_vec())
    }

    pub fn look_up(&self, test: &mut Test, revision: u64, address: u64) -> Found {
        let call = || format!("look-up(revision {revision}, address {address})");
        test.begin(&call);
        let ours = proved::look_up(
            self.proved_original.lend(),
            self.proved_history.lend(),
            revision,
            address,
        );
        let theirs = twin::look_up(
            self.twin_original.lend(),
            self.twin_history.lend(),
            revision,
            address,
        );
        self.number(test, Call::LookUp, &call, ours.number, theirs.number);
        self.same_parts(test, &call, &ours, &theirs);
        theirs
    }

    pub fn check(&self, test: &mut Test) -> Checked {
        let call = || "check".to_string();
        test.begin(&call);
        let ours = proved::check(self.proved_history.lend());
        let theirs = twin::check(self.twin_history.lend());
        self.number(test, Call::Check, &call, ours.number, theirs.number);
        self.same_parts(test, &call, &ours, &theirs);
        theirs
    }

    pub fn setting_of(&self, test: &mut Test) -> Setting {
        let call = || "setting".to_string();
        test.begin(&call);
        let ours = proved::setting_of(self.proved_history.lend());
        let theirs = twin::setting_of(self.twin_history.lend());
        self.number(test, Call::SettingOf, &call, ours.number, theirs.number);
        self.same_parts(test, &call, &ours, &theirs);
        theirs
    }

    pub fn record_of(&self, test: &mut Test, revision: u64) -> Record {
        let call = || format!("record(revision {revision})");
        test.begin(&call);
        let ours = proved::record_of(self.proved_history.lend(), revision);
        let theirs = twin::record_of(self.twin_history.lend(), revision);
        self.number(test, Call::RecordOf, &call, ours.number, theirs.number);
        self.same_parts(test, &call, &ours, &theirs);
        theirs
    }

    /// Into no room at all, into a buffer that lacks a byte, one that just holds the text, and a longer one. Gives the
    /// number that the text tells.
    pub fn list(&self, test: &mut Test) -> u64 {
        let mut text = vec![0; twin::list(self.twin_history.lend(), &mut []) as usize];
        twin::list(self.twin_history.lend(), &mut text);
        let number = told(&text);
        for room in [0, text.len() - 1, text.len(), text.len() + AROUND] {
            let call = || format!("list(into {room} bytes)");
            test.begin(&call);
            let mut out = pattern(room, 0);
            let mut lent = out.clone();
            let ours = proved::list(self.proved_history.lend(), lent.lend_mut());
            let theirs = twin::list(self.twin_history.lend(), out.lend_mut());
            self.same_parts(test, &call, &ours, &theirs);
            self.same_lent(test, &call, "buffer listed into", &lent, &out);
            if room < text.len() && out.bytes != pattern(room, 0).bytes {
                let text = "both sides change a buffer that is too short".to_string();
                self.differs(test, &call, text);
            }
            self.same_buffers(test, &call);
            test.count(Call::List, number);
        }
        number
    }

    pub fn browse(&self, test: &mut Test, revision: u64) -> Browsed {
        let call = || format!("browse(revision {revision})");
        test.begin(&call);
        let ours = proved::browse(self.proved_history.lend(), revision);
        let theirs = twin::browse(self.twin_history.lend(), revision);
        self.number(test, Call::Browse, &call, ours.number, theirs.number);
        self.same_parts(test, &call, &ours, &theirs);
        theirs
    }

    /// Keeps the history as it stands before a call that may change it.
    fn begin(&mut self, test: &mut Test, call: &dyn Fn() -> String) {
        test.begin(call);
        self.before.clear();
        let compared = self.compared_part();
        self.before
            .extend_from_slice(&self.twin_history.lend()[compared]);
    }

    fn compared_part(&self) -> Range<usize> {
        let length = self.twin_history.length;
        self.compared.start.min(length)..self.compared.end.min(length)
    }

    /// Compares and counts numbers, and then compares the buffers.
    fn number(
        &self,
        test: &mut Test,
        which: Call,
        call: &dyn Fn() -> String,
        ours: u64,
        theirs: u64,
    ) {
        if ours != theirs {
            let text = format!("the proved store answers {ours}, the twin {theirs}");
            self.differs(test, call, text);
        }
        test.count(which, theirs);
        self.same_buffers(test, call);
    }

    /// Compares what both sides were lent.
    fn same_buffers(&self, test: &Test, call: &dyn Fn() -> String) {
        let (ours, theirs) = (&self.proved_history, &self.twin_history);
        let same = self.compared != EVERYTHING
            && ours.lend()[..40] == theirs.lend()[..40]
            && ours.lend()[self.compared_part()] == theirs.lend()[self.compared_part()];
        if !same {
            self.same_lent(test, call, "history", ours, theirs);
        }
        let (ours, theirs) = (&self.proved_original, &self.twin_original);
        self.same_lent(test, call, "original", ours, theirs);
    }

    fn answer(
        &self,
        test: &mut Test,
        which: Call,
        call: &dyn Fn() -> String,
        ours: &Answer,
        theirs: &Answer,
    ) {
        self.number(test, which, call, ours.number, theirs.number);
        self.same_session(
            test,
            call,
            &ours.session,
            &theirs.session,
            "that of the twin",
        );
    }

    /// A refusal changes no lent byte. Both sides agree by now, so the twin's bytes speak for both.
    fn kept(&self, test: &Test, call: &dyn Fn() -> String, number: u64) {
        let after = &self.twin_history.lend()[self.compared_part()];
        if number != 0 && after != &self.before[..] {
            let text = format!("both sides refuse with {number} and change the history");
            self.differs(test, call, text);
        }
    }

    /// What a read left in its buffer: the same on both sides, and nothing new where refused.
    fn filled(
        &self,
        test: &Test,
        call: &dyn Fn() -> String,
        number: u64,
        at: u64,
        lent: &Lent,
        out: &Lent,
    ) {
        self.same_lent(test, call, "buffer read into", lent, out);
        if number != 0 && out.bytes != pattern(out.length, at).bytes {
            let text = format!("both sides refuse with {number} and change the buffer read into");
            self.differs(test, call, text);
        }
    }

    fn same_lent(
        &self,
        test: &Test,
        call: &dyn Fn() -> String,
        what: &str,
        ours: &Lent,
        theirs: &Lent,
    ) {
        if ours.bytes == theirs.bytes {
            return;
        }
        let both = ours.bytes.iter().zip(&theirs.bytes);
        let place = both.take_while(|(ours, theirs)| ours == theirs).count();
        let text = format!(
            "the first byte of the {what} that differs is {} of {}: 0x{:02X} by the proved store, 0x{:02X} by the twin",
            place as i64 - ours.start as i64,
            ours.length,
            ours.bytes[place],
            theirs.bytes[place],
        );
        self.differs(test, call, text);
    }

    fn same_session(
        &self,
        test: &Test,
        call: &dyn Fn() -> String,
        session: &Session,
        want: &Session,
        which: &str,
    ) {
        if session == want {
            return;
        }
        let words = |session: &Session| {
            [
                session.end,
                session.count,
                session.parent,
                session.size,
                session.n,
            ]
            .into_iter()
            .chain(session.pages.iter().map(|page| u64::from(*page)))
            .collect::<Vec<u64>>()
        };
        let (words, wanted) = (words(session), words(want));
        let place = (0..words.len())
            .find(|k| words[*k] != wanted[*k])
            .unwrap_or(0);
        let name = match place {
            0..5 => ["end", "count", "parent", "size", "n"][place].to_string(),
            _ => format!("page {}", place - 5),
        };
        let text = format!(
            "the session handed back is not {which}: its {name} is {}, not {}",
            words[place], wanted[place]
        );
        self.differs(test, call, text);
    }

    fn same_parts<T: PartialEq + std::fmt::Debug>(
        &self,
        test: &Test,
        call: &dyn Fn() -> String,
        ours: &T,
        theirs: &T,
    ) {
        if ours != theirs {
            let text = format!("the proved store answers {ours:?}, the twin {theirs:?}");
            self.differs(test, call, text);
        }
    }

    fn differs(&self, test: &Test, call: &dyn Fn() -> String, text: String) -> ! {
        let history = self.twin_history.lend();
        let mut inputs = format!(
            "original of {} bytes, history of {} bytes, checksum 0x{:08X}",
            self.twin_original.length,
            history.len(),
            twin::checksum(history),
        );
        if history.len() >= 40 {
            inputs += &format!(
                "\n  header as the twin leaves it: {}, page {}, original {}, whole history at {} of {}",
                hexadecimal(&history[..8]),
                forge::number_of_4(history, 8),
                forge::number_of_8(history, 12),
                forge::number_of_8(history, 20),
                forge::number_of_8(history, 28),
            );
        }
        if self.before.len() <= 1_500 && !self.before.is_empty() {
            let before = hexadecimal(&self.before);
            inputs += &format!("\n  history before the last call that may change it: {before}");
        }
        if history.len() <= 1_500 {
            inputs += &format!(
                "\n  history as the twin leaves it: {}",
                hexadecimal(history)
            );
        }
        test.differs(&call(), &text, &inputs)
    }
}

pub fn browse_step(test: &mut Test, record: &[u8], place: u64) -> Step {
    let call = || format!("browsing step(place {place}) over {} bytes", record.len());
    test.begin(&call);
    let lent = Lent::new(record, AROUND + (place % 16) as usize);
    let ours = proved::browse_step(lent.lend(), place);
    let theirs = twin::browse_step(record, place);
    if ours != theirs {
        let text = format!("the proved store answers {ours:?}, the twin {theirs:?}");
        let start = &record[..record.len().min(200)];
        test.differs(&call(), &text, &format!("record {}", hexadecimal(start)));
    }
    test.count(Call::BrowseStep, theirs.kind);
    theirs
}

pub fn checksum(test: &mut Test, bytes: &[u8]) {
    let call = || format!("checksum of {} bytes", bytes.len());
    test.begin(&call);
    let (ours, theirs) = (proved::checksum(bytes), twin::checksum(bytes));
    if ours != theirs {
        let text = format!("the proved store answers 0x{ours:08X}, the twin 0x{theirs:08X}");
        let start = &bytes[..bytes.len().min(200)];
        test.differs(
            &call(),
            &text,
            &format!("bytes start {}", hexadecimal(start)),
        );
    }
    test.checksums += 1;
}

/// The number that the text of a list tells: 0 unless it is a refusal.
pub fn told(text: &[u8]) -> u64 {
    let text = String::from_utf8_lossy(text);
    match text.strip_prefix("refused ") {
        Some(number) => number.trim_end().parse().unwrap_or(u64::MAX),
        None => 0,
    }
}

/// A buffer to read into, with bytes in it that no file is likely to have there.
fn pattern(length: usize, at: u64) -> Lent {
    let content: Vec<u8> = (0..length).map(|i| (i * 7 + 0x5A) as u8).collect();
    Lent::new(&content, AROUND + (at % 16) as usize)
}

fn summary(session: &Session) -> String {
    let held = session.n.min(256) as usize;
    let shown = &session.pages[..held.min(12)];
    let more = if held > 12 { " .." } else { "" };
    format!(
        "a session with end {}, count {}, parent {}, size {}, n {}, pages {shown:?}{more}",
        session.end, session.count, session.parent, session.size, session.n
    )
}

fn hexadecimal(bytes: &[u8]) -> String {
    bytes.iter().map(|byte| format!("{byte:02X}")).collect()
}
