//! The list of a history: its text, and what the list program prints.

use std::io::Write;

use crate::rows::{self, Row};

/// Most bytes that the list program takes.
const MOST: usize = 65_536;

/// Puts the text of a history at the start of the lent buffer and answers the
/// text's length. A buffer without room for all of it is left alone.
pub fn list(hist: &[u8], out: &mut [u8]) -> u64 {
    let text = text(hist);
    if let Some(start) = out.get_mut(..text.len()) {
        start.copy_from_slice(&text);
    }
    text.len() as u64
}

/// What the list program prints of its input.
pub fn list_program(input: &[u8]) -> Vec<u8> {
    if input.len() > MOST {
        refused(Row::HistoryLength)
    } else {
        text(input)
    }
}

/// A line for the history and one for each revision, or the first fault alone.
fn text(hist: &[u8]) -> Vec<u8> {
    try_text(hist).unwrap_or_else(refused)
}

fn refused(row: Row) -> Vec<u8> {
    format!("refused {}\n", row as u64).into_bytes()
}

fn try_text(hist: &[u8]) -> Result<Vec<u8>, Row> {
    let standing = rows::standing(hist)?;
    let header = &standing.header;
    let mut text = format!(
        "pages {} original {} revisions {} lock {} branch {}\n",
        header.page,
        header.original,
        standing.count,
        yes_or_no(header.locked),
        yes_or_no(header.branching),
    )
    .into_bytes();
    for k in 1..=standing.count {
        let record = rows::record(hist, &standing, k)?;
        let head = &record.head;
        // Time and name are printable, as row 7 has found; the name's closing
        // zero is not printed. Writing to a vector does not fail.
        let name = record.name.strip_suffix(&[0]).unwrap_or(record.name);
        let _ = write!(text, "{} {} ", head.revision, head.parent);
        text.extend_from_slice(head.time);
        let _ = write!(text, " {} {} ", head.size, head.entries);
        text.extend_from_slice(name);
        text.push(b'\n');
    }
    Ok(text)
}

fn yes_or_no(flag: bool) -> &'static str {
    if flag {
        "yes"
    } else {
        "no"
    }
}
