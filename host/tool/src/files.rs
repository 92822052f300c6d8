//! Reading files, and changing a history file so that it is never left half changed.
//!
//! A history file holds exactly the committed bytes. A command that changes it holds a lock on the file against other
//! programs (the system's, not the header's), works on a copy in memory, and stores the outcome only when the whole
//! work was accepted: first all that stands behind the header, which no reader looks at yet, and last the header. After
//! each of the two it waits until the disk has them. So a refusal changes nothing on disk, and a program that is killed,
//! or a machine that stops, leaves either the old revisions or the old and the new one.
//!
//! The lock bit in the header is therefore set in memory only. Where it is found on disk, another program has set it.

use std::fs::{self, File, OpenOptions};
use std::io::{self, Read, Write};
use std::os::unix::fs::{FileExt, MetadataExt};
use std::path::{Path, PathBuf};

use onion::{HEADER_LENGTH, SIZE_MOST};

use crate::failure::Failure;
use crate::system;

/// The bytes of a file. Of one that is over the limit only one byte more than the limit is read, which is enough for
/// the store to refuse it.
pub fn read(path: &Path) -> Result<Vec<u8>, Failure> {
    let file = open(path)?;
    read_open(&file, path)
}

/// The bytes of a history file, once no other program is changing it.
pub fn read_history(path: &Path) -> Result<Vec<u8>, Failure> {
    let file = open(path)?;
    match system::try_lock_shared(&file) {
        Ok(true) => {}
        Ok(false) => {
            let _ = writeln!(
                io::stderr(),
                "onion: waiting for another program that is changing {}",
                path.display()
            );
            system::lock_shared(&file).map_err(|error| Failure::with_file(path, "lock", &error))?;
        }
        // A file system without locks: its files can still be read.
        Err(_) => {}
    }
    read_open(&file, path)
}

/// Makes a file with these bytes. One that stands already is never overwritten.
pub fn create(path: &Path, bytes: &[u8]) -> Result<(), Failure> {
    let mut file = OpenOptions::new()
        .write(true)
        .create_new(true)
        .open(path)
        .map_err(|error| Failure::with_file(path, "create", &error))?;
    let stored = file.write_all(bytes).and_then(|()| file.sync_all());
    stored.map_err(|error| {
        // Half a history helps nobody.
        let _ = fs::remove_file(path);
        Failure::with_file(path, "write", &error)
    })?;
    sync_folder(path);
    Ok(())
}

/// Asks the disk to keep a new file's name too. Not every file system can.
fn sync_folder(path: &Path) {
    let folder = match path.parent() {
        Some(folder) if !folder.as_os_str().is_empty() => folder,
        _ => Path::new("."),
    };
    if let Ok(folder) = File::open(folder) {
        let _ = folder.sync_all();
    }
}

/// Writes a file that the user asked for, unless it is one of those that the bytes came from.
pub fn write_output(path: &Path, bytes: &[u8], sources: &[&Path]) -> Result<(), Failure> {
    for source in sources {
        if is_same_file(path, source) {
            let shown = path.display();
            return Err(Failure::Trouble(format!(
                "{shown} is read from and would be overwritten; name another file"
            )));
        }
    }
    fs::write(path, bytes).map_err(|error| Failure::with_file(path, "write", &error))
}

fn is_same_file(one: &Path, other: &Path) -> bool {
    match (fs::metadata(one), fs::metadata(other)) {
        (Ok(one), Ok(other)) => one.dev() == other.dev() && one.ino() == other.ino(),
        _ => false,
    }
}

fn open(path: &Path) -> Result<File, Failure> {
    File::open(path).map_err(|error| Failure::with_file(path, "open", &error))
}

fn read_open(file: &File, path: &Path) -> Result<Vec<u8>, Failure> {
    let mut bytes = Vec::new();
    file.take(SIZE_MOST as u64 + 1)
        .read_to_end(&mut bytes)
        .map_err(|error| Failure::with_file(path, "read", &error))?;
    Ok(bytes)
}

/// A history file that this program alone may change.
pub struct HistoryFile {
    file: File,
    path: PathBuf,
    bytes: Vec<u8>,
}

impl HistoryFile {
    /// Locks a history file and reads it.
    pub fn open(path: &Path) -> Result<HistoryFile, Failure> {
        let file = OpenOptions::new()
            .read(true)
            .write(true)
            .open(path)
            .map_err(|error| Failure::with_file(path, "open", &error))?;
        let locked =
            system::try_lock(&file).map_err(|error| Failure::with_file(path, "lock", &error))?;
        if !locked {
            let shown = path.display();
            return Err(Failure::Trouble(format!(
                "another program is using {shown}; try again when it has finished"
            )));
        }
        let bytes = read_open(&file, path)?;
        Ok(HistoryFile {
            file,
            path: path.to_path_buf(),
            bytes,
        })
    }

    /// The bytes on disk.
    pub fn bytes(&self) -> &[u8] {
        &self.bytes
    }

    /// Changes the file's bytes, which the store has accepted, to others that it has made of them. Where that fails,
    /// the file is put back as it was.
    pub fn replace(self, after: &[u8]) -> Result<(), Failure> {
        let (_, behind_header) = self.bytes.split_at(HEADER_LENGTH);
        let (_, behind_new_header) = after.split_at(HEADER_LENGTH);
        let from = HEADER_LENGTH + first_difference(behind_header, behind_new_header);
        self.store(after, from).map_err(|error| {
            let outcome = match self.put_back(from) {
                Ok(()) => "it is as it was".to_string(),
                Err(worse) => format!("and it could not be put back as it was: {worse}"),
            };
            let shown = self.path.display();
            Failure::Trouble(format!("cannot write {shown}: {error}; {outcome}"))
        })
    }

    /// Stores what differs: the bytes behind the header from `from` on, and then the header.
    fn store(&self, after: &[u8], from: usize) -> io::Result<()> {
        let (header, _) = after.split_at(HEADER_LENGTH);
        if from < after.len() {
            self.file.write_all_at(&after[from..], from as u64)?;
            self.file.sync_all()?;
        }
        if !self.bytes.starts_with(header) {
            self.file.write_all_at(header, 0)?;
            self.file.sync_all()?;
        }
        if after.len() < self.bytes.len() {
            // What is cut off lies past the committed end. Failing to do so would cost room and nothing else.
            let _ = self.file.set_len(after.len() as u64);
        }
        Ok(())
    }

    /// The header first, so that what it points to is never missing.
    fn put_back(&self, from: usize) -> io::Result<()> {
        let (header, _) = self.bytes.split_at(HEADER_LENGTH);
        self.file.write_all_at(header, 0)?;
        if from < self.bytes.len() {
            self.file.write_all_at(&self.bytes[from..], from as u64)?;
        }
        self.file.set_len(self.bytes.len() as u64)?;
        self.file.sync_all()
    }
}

/// Where two runs of bytes first differ, or the length of the shorter.
fn first_difference(one: &[u8], other: &[u8]) -> usize {
    let pairs = one.iter().zip(other);
    pairs.take_while(|(one, other)| one == other).count()
}
