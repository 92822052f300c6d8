//! `onion diff`: where two revisions differ.

use std::io::Write;

use onion::History;

use super::{counted, Command};
use crate::arguments::{Arguments, Form};
use crate::failure::Failure;
use crate::files;
use crate::runs::Differences;

pub const COMMAND: Command = Command {
    name: "diff",
    summary: "Show which bytes differ between two revisions.",
    usage: "diff ORIGINAL HISTORY REVISION REVISION",
    help: "\
Shows a line for each run of bytes that differs, with its offset and length, and one for the bytes that only the longer
revision has. The exit status is 0 where the two are equal and 1 where they differ.

Example: onion diff net.h5 net.history 1 newest",
    form: Form {
        places: &["ORIGINAL", "HISTORY", "REVISION", "REVISION"],
        optional_places: &[],
        options: &[],
    },
    run,
};

fn run(arguments: &Arguments, output: &mut dyn Write) -> Result<(), Failure> {
    let revisions = [arguments.revision_at(2)?, arguments.revision_at(3)?];
    let original = files::read(arguments.path(0))?;
    let history = History::over(files::read_history(arguments.path(1))?);
    let one = read_whole(&original, &history, revisions[0])?;
    let other = read_whole(&original, &history, revisions[1])?;

    for range in Differences::between(&one, &other) {
        let bytes = counted(range.len(), "byte");
        writeln!(output, "at {}, {bytes}: changed", range.start)?;
    }
    let shorter = one.len().min(other.len());
    let rest = one.len().max(other.len()) - shorter;
    if rest > 0 {
        let bytes = counted(rest, "byte");
        let which = if one.len() > other.len() {
            "first"
        } else {
            "second"
        };
        writeln!(output, "at {shorter}, {bytes}: only in the {which}")?;
    }
    if one == other {
        Ok(())
    } else {
        Err(Failure::Different)
    }
}

fn read_whole(
    original: &[u8],
    history: &History<Vec<u8>>,
    revision: u64,
) -> Result<Vec<u8>, Failure> {
    let mut bytes = vec![0; history.logical_size(revision)? as usize];
    history.read(original, revision, 0, &mut bytes)?;
    Ok(bytes)
}
