//! `onion check`: looks for damage.

use std::io::Write;

use onion::History;

use super::{counted, Command};
use crate::arguments::{Arguments, Form};
use crate::failure::Failure;
use crate::files;
use crate::progress::Progress;

pub const COMMAND: Command = Command {
    name: "check",
    summary: "Check every record and every stored page for damage.",
    usage: "check HISTORY [ORIGINAL]",
    help: "\
Looks through the whole history and tells the first fault, with the revision and the entry of its index. With ORIGINAL
it also tells whether that file has the length that the history was created for. What stands in the original cannot be
checked: the history has no checksum of it.",
    form: Form {
        places: &["HISTORY"],
        optional_places: &["ORIGINAL"],
        options: &[],
    },
    run,
};

fn run(arguments: &Arguments, output: &mut dyn Write) -> Result<(), Failure> {
    let history = History::over(files::read_history(arguments.path(0))?);
    let original = match arguments.optional_path(1) {
        Some(path) => Some(files::read(path)?),
        None => None,
    };

    let progress = Progress::start("checking the history".to_string());
    history.check()?;
    drop(progress);
    if let Some(original) = original {
        // To read no bytes asks only whether the two belong together.
        history.read(&original, 0, 0, &mut [])?;
    }

    let summary = history.summary()?;
    let revisions = counted(summary.revisions as usize, "revision");
    let lock = if summary.locked { ", locked" } else { "" };
    writeln!(output, "no fault in {revisions}{lock}")?;
    Ok(())
}
