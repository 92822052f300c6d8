//! `onion log`: the revisions drawn as a tree.

use std::io::Write;

use onion::{History, Record};

use super::Command;
use crate::arguments::{Arguments, Form};
use crate::failure::Failure;
use crate::files;
use crate::progress::Progress;

pub const COMMAND: Command = Command {
    name: "log",
    summary: "Draw the tree of revisions, with time, name and comment.",
    usage: "log HISTORY",
    help: "\
Draws the revisions from the original down. A revision stands below its parent in the same column; a branch, which is a
second revision on the same parent, stands one column further right. Times are in UTC.

    ● 0  the original, 1024 bytes
    ● 1  2024-03-05 07:00:00  ana  ground net
    ├─● 3  2024-03-06 10:20:00  ben  wider mesh, to try
    ● 2  2024-03-05 09:15:00  ana  second bar",
    form: Form {
        places: &["HISTORY"],
        optional_places: &[],
        options: &[],
    },
    run,
};

fn run(arguments: &Arguments, output: &mut dyn Write) -> Result<(), Failure> {
    let history = History::over(files::read_history(arguments.path(0))?);
    let summary = history.summary()?;
    let progress = Progress::start(format!("reading {} revisions", summary.revisions));
    let mut labels = vec![format!(
        "0  the original, {} bytes",
        summary.original_length
    )];
    let mut parents = vec![0];
    for record in history.revisions() {
        let record = record?;
        labels.push(label(&record));
        parents.push(record.parent as usize);
    }
    drop(progress);

    for (revision, drawn) in draw(&parents) {
        writeln!(output, "{drawn}{}", labels[revision])?;
    }
    Ok(())
}

/// What stands beside a revision's dot.
fn label(record: &Record<'_>) -> String {
    let label = format!(
        "{}  {}  {}  {}",
        record.revision,
        readable(record.time),
        record.name,
        record.comment
    );
    label.trim_end().to_string()
}

/// `20240305T070000Z` as `2024-03-05 07:00:00`.
fn readable(time: &str) -> String {
    let part = |from, to| &time[from..to];
    format!(
        "{}-{}-{} {}:{}:{}",
        part(0, 4),
        part(4, 6),
        part(6, 8),
        part(9, 11),
        part(11, 13),
        part(13, 15)
    )
}

/// The revisions in the order of drawing, each with the lines and the dot ahead of its label.
///
/// `parents` has the parent of each revision, which is below it; that of revision 0 means nothing. The first child of a
/// revision goes on in its column. Its other children are branches, and are drawn between the two.
fn draw(parents: &[usize]) -> Vec<(usize, String)> {
    let mut children = vec![Vec::new(); parents.len()];
    for (revision, &parent) in parents.iter().enumerate().skip(1) {
        children[parent].push(revision);
    }

    let mut drawn = Vec::new();
    // What is still to be drawn, the next one last: a revision, how many columns stand left of it, and whether it
    // begins a branch.
    let mut waiting = vec![(0, 0, false)];
    while let Some((revision, columns, begins_branch)) = waiting.pop() {
        let lines = if begins_branch {
            "│ ".repeat(columns - 1) + "├─"
        } else {
            "│ ".repeat(columns)
        };
        drawn.push((revision, lines + "● "));

        if let Some((&first, branches)) = children[revision].split_first() {
            waiting.push((first, columns, false));
            for &branch in branches.iter().rev() {
                waiting.push((branch, columns + 1, true));
            }
        }
    }
    drawn
}

#[cfg(test)]
mod tests {
    use super::*;

    fn drawing(parents: &[usize]) -> Vec<String> {
        let lines = draw(parents).into_iter();
        lines
            .map(|(revision, drawn)| format!("{drawn}{revision}"))
            .collect()
    }

    #[test]
    fn a_line_stays_in_its_column() {
        assert_eq!(drawing(&[0]), ["● 0"]);
        assert_eq!(drawing(&[0, 0, 1, 2]), ["● 0", "● 1", "● 2", "● 3"]);
    }

    #[test]
    fn branches_stand_further_right() {
        // 1 on 0, 2 and 3 on 1, 4 on 3, 5 on 3, 6 on 0, 7 on 2.
        let drawn = drawing(&[0, 0, 1, 1, 3, 3, 0, 2]);
        let expected = [
            "● 0",
            "├─● 6",
            "● 1",
            "├─● 3",
            "│ ├─● 5",
            "│ ● 4",
            "● 2",
            "● 7",
        ];
        assert_eq!(drawn, expected);
    }

    #[test]
    fn times_are_made_readable() {
        assert_eq!(readable("20240305T070105Z"), "2024-03-05 07:01:05");
    }
}
