//! `onion create`: starts a history.

use std::io::Write;

use onion::{History, CREATED_LENGTH, PAGE_SIZE_MOST};

use super::Command;
use crate::arguments::{Arguments, Form};
use crate::failure::Failure;
use crate::files;

pub const COMMAND: Command = Command {
    name: "create",
    summary: "Start a history for an original.",
    usage: "create HISTORY ORIGINAL [--page N] [--branching]",
    help: "\
Makes the file HISTORY, which must not exist yet. ORIGINAL is the file whose revisions it will hold. It is only read,
and must stay as it is from now on: the history stores what differs from it.

  --page N      the page size, a power of two from 16 to 4096; 4096 unless given. Revisions are stored in pages of this
                size. Small pages store small edits in fewer bytes; large pages allow larger edits, since a commit
                changes at most 256 pages, and a revision differs from the original in at most 4,096.
  --branching   allow commits on any revision, and not on the newest only

Example: onion create net.history net.h5 --page 512 --branching",
    form: Form {
        places: &["HISTORY", "ORIGINAL"],
        optional_places: &[],
        options: &[("--page", Some("N")), ("--branching", None)],
    },
    run,
};

fn run(arguments: &Arguments, output: &mut dyn Write) -> Result<(), Failure> {
    let path = arguments.path(0);
    let page_size = arguments.number("--page")?.unwrap_or(PAGE_SIZE_MOST);
    let branching = arguments.has("--branching");

    let original = files::read(arguments.path(1))?;
    let bytes = [0; CREATED_LENGTH];
    let history = History::create(bytes, original.len() as u64, page_size, branching)?;
    files::create(path, history.bytes())?;
    writeln!(output, "created {}", path.display())?;
    Ok(())
}
