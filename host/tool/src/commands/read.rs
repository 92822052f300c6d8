//! `onion read`: gets a revision back.

use std::io::Write;
use std::path::Path;

use onion::{History, NEWEST, SIZE_MOST};

use super::Command;
use crate::arguments::{Arguments, Form};
use crate::failure::Failure;
use crate::files;

pub const COMMAND: Command = Command {
    name: "read",
    summary: "Get a revision back, or a part of it.",
    usage: "read ORIGINAL HISTORY [--revision N] [--at OFFSET] [--length N] [--output FILE]",
    help: "\
Writes the bytes of a revision to standard output or to a file. Nothing is written unless all of it could be read and
every stored page that it needs is sound.

  --revision N    the revision; the newest unless given
  --at OFFSET     the first byte, counted from 0; 0 unless given
  --length N      how many bytes; up to the end unless given
  --output FILE   the file to write, which is overwritten; standard output unless given

Example: onion read net.h5 net.history --revision 2 --output second.h5",
    form: Form {
        places: &["ORIGINAL", "HISTORY"],
        optional_places: &[],
        options: &[
            ("--revision", Some("N")),
            ("--at", Some("OFFSET")),
            ("--length", Some("N")),
            ("--output", Some("FILE")),
        ],
    },
    run,
};

fn run(arguments: &Arguments, output: &mut dyn Write) -> Result<(), Failure> {
    let sources = [arguments.path(0), arguments.path(1)];
    let revision = arguments.revision("--revision")?.unwrap_or(NEWEST);
    let at = arguments.number("--at")?.unwrap_or(0);
    let length = arguments.number("--length")?;

    let original = files::read(sources[0])?;
    let history = History::over(files::read_history(sources[1])?);
    let length = match length {
        Some(length) => length,
        // For an offset past the end this is 0, and the store refuses the offset.
        None => history.logical_size(revision)?.saturating_sub(at),
    };
    // No revision is longer than the limit, so one byte more is refused as any greater length is.
    let mut bytes = vec![0; length.min(SIZE_MOST as u64 + 1) as usize];
    history.read(&original, revision, at, &mut bytes)?;

    match arguments.option("--output") {
        Some(path) => files::write_output(Path::new(path), &bytes, &sources),
        None => Ok(output.write_all(&bytes)?),
    }
}
