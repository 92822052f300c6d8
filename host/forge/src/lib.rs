//! What the programs that test the store share: histories made byte by byte from the paper's layout, the checksum taken
//! word by word, and numbers that look random.
//!
//! It rests on neither the proved store nor the twin. All places and sizes are written out from the paper once more, so
//! that a slip of theirs is not repeated here.

#![forbid(unsafe_code)]

mod checksum;
mod fields;
mod parts;
mod plan;
mod random;
mod words;

pub use checksum::checksum;
pub use fields::{change, fields};
pub use parts::{
    committed_end, entries, locations, number_of_4, number_of_8, put, put_4, put_8, record, repair,
    whole, Repair, REPAIRS,
};
pub use plan::{empty, legal, plain_record, Entry, Plan, Record};
pub use random::{Random, EXTREMES, PAGE_SIZES};
pub use words::{text, time, wrong_text, wrong_time};

/// Most bytes of an original, of a revision and of a history buffer.
pub const LIMIT: u64 = 16_777_216;

/// The revision number that asks for the newest.
pub const NEWEST: u64 = u64::MAX;

/// The time of the first commit in the paper's example.
pub const TIME: &[u8; 16] = b"20240305T070000Z";

/// That of the second.
pub const LATER: &[u8; 16] = b"20240305T091500Z";
