//! Slices longer than numbers of 32 bits can tell.

use crate::calls;
use crate::report::{Call, Test};
use compare::proved;
use forge::{Random, TIME};
use std::alloc::{alloc_zeroed, dealloc, Layout};
use twin::Session;

/// A little over 2^32 bytes. They start as a created history; the rest are zeros that take no memory until stored to.
struct Long {
    start: *mut u8,
    layout: Layout,
}

impl Long {
    /// None where the machine does not lend as much.
    fn new() -> Option<Long> {
        let layout = Layout::array::<u8>((1 << 32) + (1 << 16)).ok()?;
        // SAFETY: the layout's size is not zero.
        let start = unsafe { alloc_zeroed(layout) };
        (!start.is_null()).then_some(Long { start, layout })
    }

    /// The first bytes, 2^32 more than told.
    fn lend(&mut self, over: usize) -> &mut [u8] {
        let length = (1 << 32) + over;
        assert!(length <= self.layout.size());
        // SAFETY: so many zeros were allocated, and they are borrowed from their only owner.
        unsafe { std::slice::from_raw_parts_mut(self.start, length) }
    }
}

impl Drop for Long {
    fn drop(&mut self) {
        // SAFETY: allocated with this layout and not freed yet.
        unsafe { dealloc(self.start, self.layout) }
    }
}

/// Each length that is told in 64 bits, 2^32 over one that would be accepted.
pub fn run(test: &mut Test, random: &mut Random, _: u64) {
    let Some(mut long) = Long::new() else {
        println!("note: no slice of 2^32 bytes to be had; lengths over 32 bits were left out");
        return;
    };
    let original = random.bytes(20);
    let mut history = random.bytes(700);
    twin::create(&mut history, 20, 16, true);
    let mut locked = history.clone();
    let session = twin::open(&original, &mut locked, 0).session;

    let bytes = long.lend(20);
    let mut seen = Seen { test, want: 4 };
    let ours = proved::open(bytes, &mut history.clone(), 0).number;
    seen.same(
        Call::Open,
        ours,
        twin::open(bytes, &mut history.clone(), 0).number,
    );
    let ours = proved::read(bytes, &history, 0, 0, &mut []);
    seen.same(Call::Read, ours, twin::read(bytes, &history, 0, 0, &mut []));
    let ours = proved::look_up(bytes, &history, 0, 0).number;
    seen.same(
        Call::LookUp,
        ours,
        twin::look_up(bytes, &history, 0, 0).number,
    );
    let ours = proved::write(session, bytes, &mut locked.clone(), 0, b"x").number;
    let theirs = twin::write(session, bytes, &mut locked.clone(), 0, b"x").number;
    seen.same(Call::Write, ours, theirs);
    let ours = proved::session_read(session, bytes, &locked, 0, &mut []).number;
    let theirs = twin::session_read(session, bytes, &locked, 0, &mut []).number;
    seen.same(Call::SessionRead, ours, theirs);

    seen.want = 10;
    let bytes = long.lend(5);
    let ours = proved::read(&original, &history, 0, 0, bytes);
    seen.same(
        Call::Read,
        ours,
        twin::read(&original, &history, 0, 0, bytes),
    );
    let ours = proved::session_read(session, &original, &locked, 0, bytes).number;
    let theirs = twin::session_read(session, &original, &locked, 0, bytes).number;
    seen.same(Call::SessionRead, ours, theirs);

    seen.want = 0;
    let ours = listed(proved::list, &history, bytes);
    let theirs = listed(twin::list, &history, bytes);
    seen.same(Call::List, ours, theirs);
    bytes[..100].fill(0);

    seen.want = 19;
    let ours = proved::write(session, &original, &mut locked.clone(), 0, bytes).number;
    let theirs = twin::write(session, &original, &mut locked.clone(), 0, bytes).number;
    seen.same(Call::Write, ours, theirs);

    seen.want = 16;
    for (place, over) in [(0, 16), (1, 1), (2, 1)] {
        let bytes: &[u8] = long.lend(over);
        let mut words = [&TIME[..], b"a\0", b"\0"];
        words[place] = bytes;
        let [time, name, comment] = words;
        let ours = proved::commit(session, &mut locked.clone(), time, 1, name, comment).number;
        let theirs = twin::commit(session, &mut locked.clone(), time, 1, name, comment).number;
        seen.same(Call::Commit, ours, theirs);
    }

    seen.want = 1;
    let bytes = long.lend(700);
    bytes[..700].copy_from_slice(&locked);
    seen.same(
        Call::Check,
        proved::check(bytes).number,
        twin::check(bytes).number,
    );
    seen.same(
        Call::SettingOf,
        proved::setting_of(bytes).number,
        twin::setting_of(bytes).number,
    );
    seen.same(
        Call::RecordOf,
        proved::record_of(bytes, 0).number,
        twin::record_of(bytes, 0).number,
    );
    let ours = listed(proved::list, bytes, &mut [0; 20]);
    let theirs = listed(twin::list, bytes, &mut [0; 20]);
    seen.same(Call::List, ours, theirs);
    seen.same(
        Call::Browse,
        proved::browse(bytes, 0).number,
        twin::browse(bytes, 0).number,
    );
    let ours = proved::read(&original, bytes, 0, 0, &mut []);
    seen.same(
        Call::Read,
        ours,
        twin::read(&original, bytes, 0, 0, &mut []),
    );
    let ours = proved::look_up(&original, bytes, 0, 0).number;
    seen.same(
        Call::LookUp,
        ours,
        twin::look_up(&original, bytes, 0, 0).number,
    );
    let ours = proved::session_read(session, &original, bytes, 0, &mut []).number;
    let theirs = twin::session_read(session, &original, bytes, 0, &mut []).number;
    seen.same(Call::SessionRead, ours, theirs);
    let ours = proved::write(session, &original, bytes, 0, b"x").number;
    seen.same(
        Call::Write,
        ours,
        twin::write(session, &original, bytes, 0, b"x").number,
    );
    let ours = proved::commit(session, bytes, TIME, 1, b"a\0", b"\0").number;
    let theirs = twin::commit(session, bytes, TIME, 1, b"a\0", b"\0").number;
    seen.same(Call::Commit, ours, theirs);
    let ours = proved::release(Session::ENDED, bytes).number;
    seen.same(
        Call::Release,
        ours,
        twin::release(Session::ENDED, bytes).number,
    );
    let ours = proved::open(&original, bytes, 0).number;
    seen.same(Call::Open, ours, twin::open(&original, bytes, 0).number);
    let ours = proved::create(bytes, 20, 16, true);
    seen.same(Call::Create, ours, twin::create(bytes, 20, 16, true));
    if bytes[..700] != locked || bytes[700..4_096].iter().any(|byte| *byte != 0) {
        seen.test.differs(
            "a call on 2^32 bytes and more",
            "a refusal changed the history",
            "",
        );
    }

    // A record that says it has more entries than there are, by 2^32 bytes.
    let bytes = long.lend(76 + 24);
    bytes[56..64].copy_from_slice(&((1_u64 << 32) / 24 + 1).to_le_bytes());
    for place in [0, (1 << 32) / 24, (1 << 32) / 24 + 1] {
        let (ours, theirs) = (
            proved::browse_step(bytes, place),
            twin::browse_step(bytes, place),
        );
        seen.want = theirs.kind;
        seen.same(Call::BrowseStep, ours.kind, theirs.kind);
    }

    // All of the bytes are read here, which takes seconds.
    if !test.patient {
        return;
    }
    bytes[0] = 0x91;
    bytes[(1 << 32) + 90] = 0x7B;
    let (ours, theirs) = (proved::checksum(bytes), twin::checksum(bytes));
    test.checksums += 1;
    if ours != theirs {
        let text = format!("the proved store answers 0x{ours:08X}, the twin 0x{theirs:08X}");
        test.differs("checksum of over 2^32 bytes", &text, "");
    }
}

/// The number that a list tells.
fn listed(list: fn(&[u8], &mut [u8]) -> u64, history: &[u8], out: &mut [u8]) -> u64 {
    let length = list(history, out) as usize;
    calls::told(&out[..length])
}

struct Seen<'a> {
    test: &'a mut Test,
    /// What the paper answers.
    want: u64,
}

impl Seen<'_> {
    fn same(&mut self, call: Call, ours: u64, theirs: u64) {
        if ours != self.want || theirs != self.want {
            let text = format!(
                "the proved store answers {ours}, the twin {theirs}, and the paper {}",
                self.want
            );
            self.test
                .differs(call.name(), &text, "a slice of over 2^32 bytes");
        }
        self.test.count(call, theirs);
    }
}
