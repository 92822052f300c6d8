//! The stack of each exported call, measured on a painted stack.
//!
//! A call runs on a stack of its own: bytes of this program that were all given one value before. Afterwards the
//! lowest byte with another value tells how far down the call has stored. The same caller then calls, in the same way
//! and on the same stack, a function that does nothing but return, whose lowest byte is the return address. The
//! difference is what the exported call itself needs below its return address, exactly and without its caller's share.
//! Each call is run on several inputs, with two paints, and the deepest counts.
//!
//! What a function reserves below all that it and its callees store is not seen. The arguments that lie on the stack by
//! the C convention and the return address belong to the caller and are told beside.

use crate::histories::{self, Store};
use crate::timing::grouped;
use compare::proved::c_session;
use forge::{NEWEST, TIME};
use onion_sys::*;
use std::arch::{asm, naked_asm};
use std::ffi::c_void;
use std::hint::black_box;
use std::mem::{transmute, MaybeUninit};
use twin::Session;

const SIZE: usize = 1 << 20;

const COMMENT: &[u8] = b"\0";

/// A function that returns at once and stores nothing. Where the answer is too large for registers, the convention
/// wants its address back.
#[unsafe(naked)]
extern "C" fn nothing() {
    naked_asm!("mov rax, rdi", "ret")
}

/// The exported functions, or none of them. Their answers may be left unset.
#[derive(Clone, Copy)]
struct Exported {
    create: unsafe extern "C" fn(*mut u8, usize, u64, u64, bool) -> u64,
    open: unsafe extern "C" fn(*const u8, usize, *mut u8, usize, u64) -> MaybeUninit<onion_answer>,
    write: unsafe extern "C" fn(
        onion_session,
        *const u8,
        usize,
        *mut u8,
        usize,
        u64,
        *const u8,
        usize,
    ) -> MaybeUninit<onion_answer>,
    commit: unsafe extern "C" fn(
        onion_session,
        *mut u8,
        usize,
        *const u8,
        usize,
        u32,
        *const u8,
        usize,
        *const u8,
        usize,
    ) -> MaybeUninit<onion_answer>,
    release: unsafe extern "C" fn(onion_session, *mut u8, usize) -> MaybeUninit<onion_answer>,
    read: unsafe extern "C" fn(*const u8, usize, *const u8, usize, u64, u64, *mut u8, usize) -> u64,
    session_read: unsafe extern "C" fn(
        onion_session,
        *const u8,
        usize,
        *const u8,
        usize,
        u64,
        *mut u8,
        usize,
    ) -> MaybeUninit<onion_answer>,
    look_up: unsafe extern "C" fn(
        *const u8,
        usize,
        *const u8,
        usize,
        u64,
        u64,
    ) -> MaybeUninit<onion_found>,
    check: unsafe extern "C" fn(*const u8, usize) -> MaybeUninit<onion_checked>,
    setting_of: unsafe extern "C" fn(*const u8, usize) -> MaybeUninit<onion_setting>,
    record_of: unsafe extern "C" fn(*const u8, usize, u64) -> MaybeUninit<onion_record>,
    list: unsafe extern "C" fn(*const u8, usize, *mut u8, usize) -> u64,
    browse: unsafe extern "C" fn(*const u8, usize, u64) -> MaybeUninit<onion_browsed>,
    browse_step: unsafe extern "C" fn(*const u8, usize, u64) -> MaybeUninit<onion_step>,
    checksum: unsafe extern "C" fn(*const u8, usize) -> u32,
}

/// An answer that may be left unset passes as the answer does, so that only its name changes here.
macro_rules! exported {
    ($($field:ident: $function:ident,)*) => {
        Exported { $($field: unsafe { transmute($function as *const ()) },)* }
    };
}

#[allow(clippy::missing_transmute_annotations)]
fn proved() -> Exported {
    exported! {
        create: onion_create,
        open: onion_open,
        write: onion_write,
        commit: onion_commit,
        release: onion_release,
        read: onion_read,
        session_read: onion_session_read,
        look_up: onion_look_up,
        check: onion_check,
        setting_of: onion_setting_of,
        record_of: onion_record_of,
        list: onion_list,
        browse: onion_browse,
        browse_step: onion_browse_step,
        checksum: onion_checksum,
    }
}

#[allow(clippy::missing_transmute_annotations)]
fn none() -> Exported {
    exported! {
        create: nothing,
        open: nothing,
        write: nothing,
        commit: nothing,
        release: nothing,
        read: nothing,
        session_read: nothing,
        look_up: nothing,
        check: nothing,
        setting_of: nothing,
        record_of: nothing,
        list: nothing,
        browse: nothing,
        browse_step: nothing,
        checksum: nothing,
    }
}

/// Inputs of all calls. The caller's frame is the same for whatever functions it is given.
struct Inputs {
    store: Store,
    session: onion_session,
    revision: u64,
    at: u64,
    data: Vec<u8>,
    name: Vec<u8>,
    record: Vec<u8>,
    text: Vec<u8>,
}

type Caller = fn(&mut Inputs, &Exported);

/// Each call, the words that lie on the stack by the convention beside the session, whether a session does, and its
/// caller.
const CALLERS: [(&str, usize, bool, Caller); 15] = [
    ("create", 0, false, |inputs, call| {
        let history = &mut inputs.store.history;
        let create = call.create;
        black_box(unsafe { create(history.as_mut_ptr(), history.len(), 20, 16, true) });
    }),
    ("open", 0, false, |inputs, call| {
        let Store { original, history } = &mut inputs.store;
        let (first, second) = (original.as_ptr(), history.as_mut_ptr());
        let open = call.open;
        black_box(unsafe {
            open(
                first,
                original.len(),
                second,
                history.len(),
                inputs.revision,
            )
        });
    }),
    ("write", 2, true, |inputs, call| {
        let Store { original, history } = &mut inputs.store;
        let write = call.write;
        black_box(unsafe {
            write(
                inputs.session,
                original.as_ptr(),
                original.len(),
                history.as_mut_ptr(),
                history.len(),
                inputs.at,
                inputs.data.as_ptr(),
                inputs.data.len(),
            )
        });
    }),
    ("commit", 4, true, |inputs, call| {
        let history = &mut inputs.store.history;
        let commit = call.commit;
        black_box(unsafe {
            commit(
                inputs.session,
                history.as_mut_ptr(),
                history.len(),
                TIME.as_ptr(),
                TIME.len(),
                7,
                inputs.name.as_ptr(),
                inputs.name.len(),
                COMMENT.as_ptr(),
                COMMENT.len(),
            )
        });
    }),
    ("release", 0, true, |inputs, call| {
        let history = &mut inputs.store.history;
        let release = call.release;
        black_box(unsafe { release(inputs.session, history.as_mut_ptr(), history.len()) });
    }),
    ("read", 2, false, |inputs, call| {
        let Store { original, history } = &inputs.store;
        let read = call.read;
        black_box(unsafe {
            read(
                original.as_ptr(),
                original.len(),
                history.as_ptr(),
                history.len(),
                inputs.revision,
                inputs.at,
                inputs.data.as_mut_ptr(),
                inputs.data.len(),
            )
        });
    }),
    ("session read", 2, true, |inputs, call| {
        let Store { original, history } = &inputs.store;
        let session_read = call.session_read;
        black_box(unsafe {
            session_read(
                inputs.session,
                original.as_ptr(),
                original.len(),
                history.as_ptr(),
                history.len(),
                inputs.at,
                inputs.data.as_mut_ptr(),
                inputs.data.len(),
            )
        });
    }),
    ("look-up", 1, false, |inputs, call| {
        let Store { original, history } = &inputs.store;
        let (first, second) = (original.as_ptr(), history.as_ptr());
        let look_up = call.look_up;
        let address = inputs.at & !4_095;
        black_box(unsafe {
            look_up(
                first,
                original.len(),
                second,
                history.len(),
                inputs.revision,
                address,
            )
        });
    }),
    ("check", 0, false, |inputs, call| {
        let history = &inputs.store.history;
        let check = call.check;
        black_box(unsafe { check(history.as_ptr(), history.len()) });
    }),
    ("setting", 0, false, |inputs, call| {
        let history = &inputs.store.history;
        let setting_of = call.setting_of;
        black_box(unsafe { setting_of(history.as_ptr(), history.len()) });
    }),
    ("record", 0, false, |inputs, call| {
        let history = &inputs.store.history;
        let record_of = call.record_of;
        black_box(unsafe { record_of(history.as_ptr(), history.len(), inputs.revision) });
    }),
    ("list", 0, false, |inputs, call| {
        let history = &inputs.store.history;
        let text = &mut inputs.text;
        let list = call.list;
        black_box(unsafe {
            list(
                history.as_ptr(),
                history.len(),
                text.as_mut_ptr(),
                text.len(),
            )
        });
    }),
    ("browse", 0, false, |inputs, call| {
        let history = &inputs.store.history;
        let browse = call.browse;
        black_box(unsafe { browse(history.as_ptr(), history.len(), inputs.revision) });
    }),
    ("browsing step", 0, false, |inputs, call| {
        let record = &inputs.record;
        let browse_step = call.browse_step;
        black_box(unsafe { browse_step(record.as_ptr(), record.len(), 3) });
    }),
    ("checksum", 0, false, |inputs, call| {
        let bytes = &inputs.store.history;
        let checksum = call.checksum;
        black_box(unsafe { checksum(bytes.as_ptr(), bytes.len()) });
    }),
];

/// A caller, its inputs and the functions that it is given.
struct Run<'a> {
    caller: Caller,
    inputs: &'a mut Inputs,
    exported: &'a Exported,
}

extern "C" fn enter(run: *mut c_void) {
    let run = unsafe { &mut *run.cast::<Run>() };
    (run.caller)(run.inputs, run.exported);
}

/// How far down from the top of the painted stack a run has stored.
fn depth(stack: &mut [u8], paint: u8, mut run: Run) -> usize {
    stack.fill(paint);
    let top = stack.as_mut_ptr_range().end;
    let top = top.wrapping_sub(top as usize % 16);
    let run: *mut Run = &mut run;
    // SAFETY: the stack is this program's own and far larger than a call needs; it is left again before anything else
    // runs. The old stack pointer waits in a register that the called function has to keep.
    unsafe {
        asm!(
            "mov r12, rsp",
            "mov rsp, {top}",
            "call {enter}",
            "mov rsp, r12",
            top = in(reg) top,
            enter = in(reg) enter as extern "C" fn(*mut c_void),
            in("rdi") run,
            out("r12") _,
            clobber_abi("C"),
        );
    }
    let untouched = stack.iter().take_while(|byte| **byte == paint).count();
    assert!(untouched > 0, "the painted stack is too small");
    top as usize - (stack.as_ptr() as usize + untouched)
}

pub fn print() {
    println!("## Stack of each exported call");
    println!();
    println!(
        "| Call | Below its return address | With return address and arguments on the stack |"
    );
    println!("|---|---|---|");
    let mut stack = vec![0; SIZE];
    let mut commit = 0;
    for (name, words, session, caller) in CALLERS {
        let mut deepest = 0;
        for (make, locked) in INPUTS.iter().flat_map(|make| [(make, true), (make, false)]) {
            let [full, empty] = [proved(), none()].map(|exported| {
                // A stored byte that has the paint's value is not seen, so the deeper of two paints counts.
                let depths = [0xA5, 0x5A].map(|paint| {
                    let mut inputs = make();
                    if !locked {
                        twin::release(Session::ENDED, &mut inputs.store.history);
                    }
                    let run = Run {
                        caller,
                        inputs: &mut inputs,
                        exported: &exported,
                    };
                    depth(&mut stack, paint, run)
                });
                depths[0].max(depths[1])
            });
            deepest = deepest.max(full - empty);
        }
        let session = if session {
            size_of::<onion_session>()
        } else {
            0
        };
        let all = deepest + 8 + 8 * words + session;
        let (deepest, together) = (grouped(deepest as u64), grouped(all as u64));
        println!("| {name} | {deepest} bytes | {together} bytes |");
        if name == "commit" {
            commit = all;
        }
    }
    println!();
    let verdict = if commit < 8_192 { "below" } else { "NOT below" };
    println!(
        "Commit needs {} bytes, its session by value included: {verdict} 8 KiB (8,192 bytes).",
        grouped(commit as u64)
    );
    println!();
}

/// Inputs that reach deep: long indexes, many own pages, many revisions, and some that are refused.
const INPUTS: [fn() -> Inputs; 6] = [
    || {
        inputs(
            histories::with_entries(16, 3_900, 256, 1 << 20),
            196,
            b"ana\0",
        )
    },
    || {
        inputs(
            histories::with_entries(4_096, 256, 4_096, 1 << 20),
            256,
            b"ana\0",
        )
    },
    || inputs(histories::with_revisions(300), 200, b"ana\0"),
    || inputs(histories::new(64, 9_000, 400_000), 0, b"ana\0"),
    || {
        inputs(
            histories::with_entries(16, 3_900, 256, 1 << 20),
            256,
            b"ana\0",
        )
    },
    || inputs(histories::with_revisions(20), 2, b"no closing zero"),
];

/// A locked store with a session of so many pages.
fn inputs(mut store: Store, pages: u64, name: &[u8]) -> Inputs {
    let mut session = store.open();
    let page = u64::from(forge::number_of_4(&store.history, 8));
    for k in 0..pages {
        // Between indexed pages where there is room, and over them otherwise.
        let at = (k * 256 + 16 * (k % 2)) % session.size;
        let touched = twin::write(
            session,
            &store.original,
            &mut store.history,
            at & !(page - 1),
            b"x",
        );
        session = touched.session;
    }
    let browsed = twin::browse(&store.history, NEWEST);
    let record = browsed.offset as usize..(browsed.offset + browsed.length) as usize;
    let length = store.original.len().min(100_000);
    Inputs {
        record: store.history[record].to_vec(),
        text: vec![0; ONION_LIST_MOST],
        session: c_session(session),
        revision: NEWEST,
        at: 10,
        data: vec![3; length.min(3_000)],
        name: name.to_vec(),
        store,
    }
}
