//! `onion release`: clears a lock that was left behind.

use std::io::Write;

use onion::History;

use super::Command;
use crate::arguments::{Arguments, Form};
use crate::failure::Failure;
use crate::files::HistoryFile;

pub const COMMAND: Command = Command {
    name: "release",
    summary: "Clear a lock that a program left behind.",
    usage: "release HISTORY",
    help: "\
A program that opens a history for writing sets its lock and clears it when it commits or gives up. One that was stopped
between leaves the lock behind, and all others are refused. This clears it. No revision changes, and what the stopped
program had not committed is gone.

Be sure that the program has ended: this command cannot tell. (The commands of this tool never leave a lock.)",
    form: Form {
        places: &["HISTORY"],
        optional_places: &[],
        options: &[],
    },
    run,
};

fn run(arguments: &Arguments, output: &mut dyn Write) -> Result<(), Failure> {
    let file = HistoryFile::open(arguments.path(0))?;
    let mut history = History::over(file.bytes().to_vec());
    history.clear_lock()?;
    if history.bytes() == file.bytes() {
        writeln!(output, "there was no lock")?;
        return Ok(());
    }
    file.replace(history.bytes())?;
    writeln!(output, "the lock is cleared")?;
    Ok(())
}
