//! The C interface of the proved store, declared for Rust as `include/onion.h` has it and under the same names.
//!
//! What a call does, what it refuses and what its caller owes stands in the header. A test compares every declaration
//! here with the header's.

#![allow(non_camel_case_types)]

use std::os::raw::c_char;

pub const ONION_VERSION_MAJOR: u32 = 1;
pub const ONION_VERSION_MINOR: u32 = 0;
pub const ONION_VERSION: u32 = ONION_VERSION_MAJOR << 16 | ONION_VERSION_MINOR;

pub const ONION_PAGE_SIZE_LEAST: u64 = 16;
pub const ONION_PAGE_SIZE_MOST: u64 = 4096;
pub const ONION_SIZE_MOST: usize = 16777216;
pub const ONION_REVISIONS_MOST: usize = 1024;
pub const ONION_ENTRIES_MOST: usize = 4096;
pub const ONION_TOUCHED_MOST: usize = 256;
pub const ONION_NAME_MOST: usize = 64;
pub const ONION_COMMENT_MOST: usize = 256;
pub const ONION_TIME_LENGTH: usize = 16;
pub const ONION_HEADER_LENGTH: usize = 40;
pub const ONION_CREATED_LENGTH: usize = 60;
pub const ONION_LIST_MOST: usize = 169068;
pub const ONION_NEWEST: u64 = u64::MAX;

pub const ONION_ACCEPTED: u64 = 0;
pub const ONION_REFUSED_HISTORY_LENGTH: u64 = 1;
pub const ONION_REFUSED_HEADER: u64 = 2;
pub const ONION_REFUSED_HEADER_CHECKSUM: u64 = 3;
pub const ONION_REFUSED_ORIGINAL_LENGTH: u64 = 4;
pub const ONION_REFUSED_WHOLE_HISTORY: u64 = 5;
pub const ONION_REFUSED_REVISION: u64 = 6;
pub const ONION_REFUSED_RECORD: u64 = 7;
pub const ONION_REFUSED_RECORD_CHECKSUM: u64 = 8;
pub const ONION_REFUSED_PAGE_CHECKSUM: u64 = 9;
pub const ONION_REFUSED_OUTSIDE: u64 = 10;
pub const ONION_REFUSED_LOCKED: u64 = 11;
pub const ONION_REFUSED_NOT_NEWEST: u64 = 12;
pub const ONION_REFUSED_SESSION: u64 = 13;
pub const ONION_REFUSED_TOO_MANY_PAGES: u64 = 14;
pub const ONION_REFUSED_NO_ROOM: u64 = 15;
pub const ONION_REFUSED_TEXT: u64 = 16;
pub const ONION_REFUSED_CREATION: u64 = 17;
pub const ONION_REFUSED_TOO_MANY_REVISIONS: u64 = 18;
pub const ONION_REFUSED_PAST_LIMIT: u64 = 19;
pub const ONION_REFUSED_NOT_STORED: u64 = 20;

#[repr(C)]
#[derive(Clone, Copy, Debug, PartialEq, Eq)]
pub struct onion_session {
    pub end: u64,
    pub count: u64,
    pub parent: u64,
    pub size: u64,
    pub n: u64,
    pub pages: [u32; ONION_TOUCHED_MOST],
}

#[repr(C)]
#[derive(Clone, Copy, Debug, PartialEq, Eq)]
pub struct onion_answer {
    pub number: u64,
    pub session: onion_session,
}

#[repr(C)]
#[derive(Clone, Copy, Debug, PartialEq, Eq)]
pub struct onion_found {
    pub number: u64,
    pub source: u64,
    pub offset: u64,
    pub length: u64,
}

pub const ONION_SOURCE_ORIGINAL: u64 = 0;
pub const ONION_SOURCE_HISTORY: u64 = 1;

#[repr(C)]
#[derive(Clone, Copy, Debug, PartialEq, Eq)]
pub struct onion_checked {
    pub number: u64,
    pub revision: u64,
    pub entry: u64,
}

#[repr(C)]
#[derive(Clone, Copy, Debug, PartialEq, Eq)]
pub struct onion_browsed {
    pub number: u64,
    pub offset: u64,
    pub length: u64,
}

#[repr(C)]
#[derive(Clone, Copy, Debug, PartialEq, Eq)]
pub struct onion_step {
    pub kind: u64,
    pub logical: u64,
    pub physical: u64,
    pub page_sum: u64,
    pub entry_sum: u64,
}

pub const ONION_STEP_ENTRY: u64 = 0;
pub const ONION_STEP_END: u64 = 1;

#[repr(C)]
#[derive(Clone, Copy, Debug, PartialEq, Eq)]
pub struct onion_part {
    pub offset: u64,
    pub length: u64,
}

#[repr(C)]
#[derive(Clone, Copy, Debug, PartialEq, Eq)]
pub struct onion_setting {
    pub number: u64,
    pub page_size: u64,
    pub original: u64,
    pub revisions: u64,
    pub end: u64,
    pub lock: bool,
    pub branching: bool,
}

#[repr(C)]
#[derive(Clone, Copy, Debug, PartialEq, Eq)]
pub struct onion_record {
    pub number: u64,
    pub revision: u64,
    pub parent: u64,
    pub logical: u64,
    pub user: u64,
    pub entries: u64,
    pub time: onion_part,
    pub name: onion_part,
    pub comment: onion_part,
}

extern "C" {
    pub fn onion_create(
        history: *mut u8,
        history_length: usize,
        original: u64,
        page_size: u64,
        branching: bool,
    ) -> u64;

    pub fn onion_open(
        original: *const u8,
        original_length: usize,
        history: *mut u8,
        history_length: usize,
        revision: u64,
    ) -> onion_answer;

    pub fn onion_write(
        session: onion_session,
        original: *const u8,
        original_length: usize,
        history: *mut u8,
        history_length: usize,
        at: u64,
        data: *const u8,
        data_length: usize,
    ) -> onion_answer;

    pub fn onion_commit(
        session: onion_session,
        history: *mut u8,
        history_length: usize,
        time: *const u8,
        time_length: usize,
        user: u32,
        name: *const u8,
        name_length: usize,
        comment: *const u8,
        comment_length: usize,
    ) -> onion_answer;

    pub fn onion_release(
        session: onion_session,
        history: *mut u8,
        history_length: usize,
    ) -> onion_answer;

    pub fn onion_read(
        original: *const u8,
        original_length: usize,
        history: *const u8,
        history_length: usize,
        revision: u64,
        at: u64,
        output: *mut u8,
        output_length: usize,
    ) -> u64;

    pub fn onion_session_read(
        session: onion_session,
        original: *const u8,
        original_length: usize,
        history: *const u8,
        history_length: usize,
        at: u64,
        output: *mut u8,
        output_length: usize,
    ) -> onion_answer;

    pub fn onion_look_up(
        original: *const u8,
        original_length: usize,
        history: *const u8,
        history_length: usize,
        revision: u64,
        address: u64,
    ) -> onion_found;

    pub fn onion_check(history: *const u8, history_length: usize) -> onion_checked;

    pub fn onion_setting_of(history: *const u8, history_length: usize) -> onion_setting;

    pub fn onion_record_of(
        history: *const u8,
        history_length: usize,
        revision: u64,
    ) -> onion_record;

    pub fn onion_list(
        history: *const u8,
        history_length: usize,
        output: *mut u8,
        output_length: usize,
    ) -> u64;

    pub fn onion_browse(history: *const u8, history_length: usize, revision: u64) -> onion_browsed;

    pub fn onion_browse_step(record: *const u8, record_length: usize, place: u64) -> onion_step;

    pub fn onion_checksum(bytes: *const u8, length: usize) -> u32;

    pub fn onion_sentence(number: u64) -> *const c_char;

    pub fn onion_version() -> u32;
}
