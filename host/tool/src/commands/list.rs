//! `onion list`: a line for each revision.

use std::io::Write;

use onion::History;

use super::Command;
use crate::arguments::{Arguments, Form};
use crate::failure::Failure;
use crate::files;
use crate::progress::Progress;

pub const COMMAND: Command = Command {
    name: "list",
    summary: "List the revisions, a line for each.",
    usage: "list HISTORY",
    help: "\
The first line tells the page size, the original's length, how many revisions there are, whether the history is locked
and whether it allows branches. Then each revision has a line: revision, parent, time, size in bytes, pages that differ
from the original, name.

Nothing is listed where a record is damaged.",
    form: Form {
        places: &["HISTORY"],
        optional_places: &[],
        options: &[],
    },
    run,
};

fn run(arguments: &Arguments, output: &mut dyn Write) -> Result<(), Failure> {
    let history = History::over(files::read_history(arguments.path(0))?);
    let progress = Progress::start("listing the revisions".to_string());
    let lines = history.list()?;
    drop(progress);

    output.write_all(lines.as_bytes())?;
    Ok(())
}
