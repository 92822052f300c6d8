//! The commands, each in a module of its own with its form and its help.

mod check;
mod commit;
mod create;
mod diff;
mod list;
mod log;
mod read;
mod release;

use std::io::Write;

use crate::arguments::{Arguments, Form};
use crate::failure::Failure;

/// A command of the tool.
pub struct Command {
    pub name: &'static str,
    /// One line for the overview.
    pub summary: &'static str,
    /// How it is called.
    pub usage: &'static str,
    /// All there is to know.
    pub help: &'static str,
    /// What it takes.
    pub form: Form,
    /// Does it.
    pub run: fn(&Arguments, &mut dyn Write) -> Result<(), Failure>,
}

/// In the order of the overview.
pub const COMMANDS: &[Command] = &[
    create::COMMAND,
    commit::COMMAND,
    list::COMMAND,
    log::COMMAND,
    read::COMMAND,
    diff::COMMAND,
    check::COMMAND,
    release::COMMAND,
];

/// `1 page`, `2 pages`.
fn counted(count: usize, thing: &str) -> String {
    match count {
        1 => format!("1 {thing}"),
        _ => format!("{count} {thing}s"),
    }
}
