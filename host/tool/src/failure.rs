//! Why a command ends without success, and what the user is told.

use std::fmt;
use std::io;
use std::path::Path;

use onion::{Fault, Refusal, Refused};

/// The end of a command that did not succeed.
#[derive(Debug)]
pub enum Failure {
    /// The command line is wrong. Exit status 2.
    Usage(String),
    /// The store refused, with what else there is to say. Exit status 1.
    Refused(Refusal, Option<String>),
    /// Something else went wrong. Exit status 1.
    Trouble(String),
    /// Two revisions differ, which is no trouble and has been shown. Exit status 1.
    Different,
    /// Nobody reads the output any more, so there is nothing left to do. Exit status 0.
    ClosedPipe,
}

impl Failure {
    /// Trouble with a file.
    pub fn with_file(path: &Path, doing: &str, error: &io::Error) -> Failure {
        Failure::Trouble(format!("cannot {doing} {}: {error}", path.display()))
    }

    /// The status that the tool ends with.
    pub fn status(&self) -> u8 {
        match self {
            Failure::Usage(_) => 2,
            Failure::Refused(..) | Failure::Trouble(_) | Failure::Different => 1,
            Failure::ClosedPipe => 0,
        }
    }
}

impl fmt::Display for Failure {
    fn fmt(&self, f: &mut fmt::Formatter<'_>) -> fmt::Result {
        match self {
            Failure::Usage(sentence) | Failure::Trouble(sentence) => f.write_str(sentence),
            Failure::Refused(refusal, None) => write!(f, "{refusal}"),
            Failure::Refused(refusal, Some(more)) => write!(f, "{refusal}; {more}"),
            Failure::Different | Failure::ClosedPipe => Ok(()),
        }
    }
}

impl From<Refusal> for Failure {
    fn from(refusal: Refusal) -> Failure {
        Failure::Refused(refusal, advice(refusal).map(String::from))
    }
}

/// The session is dropped: it stands in memory only, where nothing is left behind.
impl From<Refused> for Failure {
    fn from(refused: Refused) -> Failure {
        refused.refusal.into()
    }
}

impl From<Fault> for Failure {
    fn from(fault: Fault) -> Failure {
        let place = match (fault.revision, fault.entry) {
            (Some(revision), Some(entry)) => format!("in revision {revision}, entry {entry}"),
            (Some(revision), None) => format!("in revision {revision}"),
            _ => return fault.refusal.into(),
        };
        Failure::Refused(fault.refusal, Some(place))
    }
}

/// For errors of standard output; those of a file name the file by [`Failure::with_file`].
impl From<io::Error> for Failure {
    fn from(error: io::Error) -> Failure {
        match error.kind() {
            io::ErrorKind::BrokenPipe => Failure::ClosedPipe,
            _ => Failure::Trouble(format!("cannot write to standard output: {error}")),
        }
    }
}

/// What a user can do about a refusal, where that is the same for every command.
fn advice(refusal: Refusal) -> Option<&'static str> {
    Some(match refusal {
        Refusal::HistoryLength | Refusal::Header => "is this file a history?",
        Refusal::OriginalLength => "is this the original that the history was created for?",
        Refusal::Revision => "'onion list' shows the revisions there are",
        Refusal::Locked => {
            "another program has it open for writing; if none has, 'onion release' clears the lock"
        }
        Refusal::NotNewest => "branches need a history that was created with --branching",
        Refusal::NoRoom => "a history has at most 16,777,216 bytes, so this one is full",
        Refusal::Text => {
            "a time is YYYYMMDDThhmmssZ, a name has at most 63 and a comment at most 255 characters \
             from space to ~"
        }
        Refusal::Creation => {
            "a page size is a power of two from 16 to 4096, and an original has at most 16,777,216 bytes"
        }
        Refusal::TooManyRevisions => "this history is full; begin a new one from its last revision",
        _ => return None,
    })
}

#[cfg(test)]
mod tests {
    use super::*;

    #[test]
    fn a_refusal_is_one_line_with_number_sentence_and_advice() {
        for refusal in Refusal::ALL {
            let shown = Failure::from(refusal).to_string();
            assert!(shown.starts_with(&refusal.to_string()));
            assert!(!shown.contains('\n') && !shown.contains("  "), "{shown}");
        }
    }

    #[test]
    fn a_fault_names_its_place() {
        let fault = Fault {
            refusal: Refusal::PageChecksum,
            revision: Some(2),
            entry: Some(1),
        };
        let shown = Failure::from(fault).to_string();
        assert_eq!(
            shown,
            "refused 9: page checksum wrong; in revision 2, entry 1"
        );
    }
}
