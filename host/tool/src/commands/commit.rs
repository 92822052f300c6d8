//! `onion commit`: stores an edited copy as a new revision.

use std::io::Write;

use onion::{
    History, Note, Refusal, Refused, Session, Summary, ENTRIES_MOST, NEWEST, SIZE_MOST,
    TOUCHED_MOST,
};

use super::{counted, Command};
use crate::arguments::{Arguments, Form};
use crate::failure::Failure;
use crate::files::{self, HistoryFile};
use crate::progress::Progress;
use crate::runs::Changes;
use crate::system;

pub const COMMAND: Command = Command {
    name: "commit",
    summary: "Store an edited copy as a new revision.",
    usage: "commit ORIGINAL HISTORY EDITED [--on REVISION] --name NAME [--comment TEXT] [--time T] [--user ID]",
    help: "\
EDITED is a whole copy of the file with the edits in it, usually made from the output of 'onion read'. It is compared
with a revision, and what differs is stored as a new one. It may be longer than that revision and cannot be shorter. A
commit changes at most 256 pages; a larger edit has to be brought in by several commits.

  --on REVISION    the revision that was edited; the newest unless given
  --name NAME      who commits: at most 63 characters from space to ~
  --comment TEXT   what for: at most 255 characters from space to ~
  --time T         when, in UTC, as YYYYMMDDThhmmssZ; now unless given
  --user ID        the number of the user; of the one who runs this unless given

The history file is changed only when the new revision is complete in memory and reads back equal to EDITED. Whatever
goes wrong before that, or while it is written, the revisions in it stay as they were.

Example: onion commit net.h5 net.history edited.h5 --name ana --comment 'second bar'",
    form: Form {
        places: &["ORIGINAL", "HISTORY", "EDITED"],
        optional_places: &[],
        options: &[
            ("--on", Some("REVISION")),
            ("--name", Some("NAME")),
            ("--comment", Some("TEXT")),
            ("--time", Some("T")),
            ("--user", Some("ID")),
        ],
    },
    run,
};

fn run(arguments: &Arguments, output: &mut dyn Write) -> Result<(), Failure> {
    let on = arguments.revision("--on")?.unwrap_or(NEWEST);
    let name = arguments
        .text("--name")
        .ok_or_else(|| Failure::Usage("--name is missing".to_string()))?;
    let comment = arguments.text("--comment").unwrap_or_default();
    let note = Note {
        time: &time(arguments)?,
        user: user(arguments)?,
        name: &name,
        comment: &comment,
    };

    let original = files::read(arguments.path(0))?;
    let file = HistoryFile::open(arguments.path(1))?;
    let edited = files::read(arguments.path(2))?;
    let summary = History::over(file.bytes()).summary()?;
    let mut history = with_room(file.bytes(), &summary);

    let progress = Progress::start("committing".to_string());
    let session = history.open(&original, on)?;
    let parent = session.parent();
    let (session, changes) = write_edits(session, &original, &mut history, &edited, &summary)?;
    let revision = session.commit(&mut history, &note)?;
    read_back(&history, &original, revision, &edited)?;
    let end = history.summary()?.end as usize;
    file.replace(&history.bytes()[..end])?;
    drop(progress);

    let pages = counted(changes.pages, "page");
    writeln!(
        output,
        "committed revision {revision} on {parent}: {pages} changed"
    )?;
    Ok(())
}

fn time(arguments: &Arguments) -> Result<String, Failure> {
    arguments
        .text("--time")
        .or_else(system::time)
        .ok_or_else(|| {
            Failure::Trouble("the system's clock is wrong; give the time by --time".to_string())
        })
}

fn user(arguments: &Arguments) -> Result<u32, Failure> {
    match arguments.number("--user")? {
        None => Ok(system::user()),
        Some(user) => u32::try_from(user)
            .map_err(|_| Failure::Usage(format!("--user is at most {}", u32::MAX))),
    }
}

/// A copy of the history with all the room behind its committed end that the limit allows. The system gives the room
/// only where it is stored to.
fn with_room(bytes: &[u8], summary: &Summary) -> History<Vec<u8>> {
    let end = summary.end as usize;
    let mut copy = vec![0; SIZE_MOST];
    copy[..end].copy_from_slice(&bytes[..end]);
    History::over(copy)
}

/// Writes what differs between the session and the edited copy.
fn write_edits(
    session: Session,
    original: &[u8],
    history: &mut History<Vec<u8>>,
    edited: &[u8],
    summary: &Summary,
) -> Result<(Session, Changes), Failure> {
    let size = session.size() as usize;
    if edited.len() < size {
        return Err(Failure::Trouble(format!(
            "the edited copy has {} and revision {} has {size}; a revision cannot shrink",
            counted(edited.len(), "byte"),
            session.parent(),
        )));
    }
    let mut before = vec![0; size];
    let mut session = session.read(original, history, 0, &mut before)?;
    let changes = Changes::between(&before, edited, summary.page_size as usize);
    for run in &changes.runs {
        session = session
            .write(original, history, run.start as u64, &edited[run.clone()])
            .map_err(|refused| refused_write(refused, &changes, summary))?;
    }
    Ok((session, changes))
}

/// Says which of the two limits of refusal 14 was met.
fn refused_write(refused: Refused, changes: &Changes, summary: &Summary) -> Failure {
    if refused.refusal != Refusal::TooManyPages {
        return refused.into();
    }
    let pages = counted(changes.pages, "page");
    let more = if changes.pages > TOUCHED_MOST {
        format!(
            "the edit changes {pages} of {} bytes and a commit at most {TOUCHED_MOST}, so bring it in by several",
            summary.page_size
        )
    } else {
        format!(
            "the edit changes {pages}, and the revision would differ from the original in more than {ENTRIES_MOST}"
        )
    };
    Failure::Refused(refused.refusal, Some(more))
}

/// The choice of what to write is this tool's own and not proved, so its outcome is compared before it is stored.
fn read_back(
    history: &History<Vec<u8>>,
    original: &[u8],
    revision: u64,
    edited: &[u8],
) -> Result<(), Failure> {
    let mut bytes = vec![0; edited.len()];
    history.read(original, revision, 0, &mut bytes)?;
    if bytes == edited && history.logical_size(revision)? == edited.len() as u64 {
        return Ok(());
    }
    Err(Failure::Trouble(
        "the new revision does not read back as the edited copy, so nothing is stored".to_string(),
    ))
}
