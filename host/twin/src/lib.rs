//! The twin: the revision store written a second time, from its paper alone.
//!
//! Nothing here was taken from the proved store, so that where the two agree
//! they agree because the paper says so. It is plain safe Rust over lent
//! slices, allocates only for the text of a [`list`], and serves as the
//! benchmark's baseline too.
//!
//! Every function is total. A refusal is the number of its row in the paper's
//! table; it leaves every lent byte as it was and hands the session back
//! unchanged. Number 0 is acceptance.
//!
//! The modules follow the paper: `checksum` and `layout` are its chapter on the
//! layout, `rows` its table of refusals, `view` its chapter on reading,
//! `session` the one on a session, `history` creation, whole check and
//! browsing, `telling` what a history and its records say, and `listing` the
//! list.

#![forbid(unsafe_code)]

mod checksum;
mod history;
mod layout;
mod listing;
mod rows;
mod session;
mod telling;
mod view;

pub use checksum::checksum;
pub use history::{browse, browse_step, check, create, Browsed, Checked, Step};
pub use listing::{list, list_program};
pub use session::{commit, open, release, session_read, write, Answer, Session};
pub use telling::{record_of, setting_of, Part, Record, Setting};
pub use view::{look_up, read, Found};
