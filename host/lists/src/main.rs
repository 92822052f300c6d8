//! Runs the list program on histories that are made byte by byte from the paper's layout, and compares what it writes
//! with what the paper says: the worked example, an empty history, a locked one, a branching one, and each refusal. Its
//! argument is the list program's path. It ends with status 1 on a difference.

use forge::{Entry, Plan, LATER};
use std::io::Write;
use std::process::{Command, ExitCode, Stdio};

/// The plan of the worked example's history.
fn example() -> Plan {
    let mut plan = empty();
    let mut first = forge::plain_record(1, 92, 16, 20);
    first.entries = vec![Entry::new(0, 60), Entry::new(16, 76)];
    plan.append(first);
    let mut second = forge::plain_record(2, 277, 16, 21);
    second.time = LATER.to_vec();
    second.entries = vec![Entry::new(0, 60), Entry::new(16, 261)];
    plan.append(second);
    plan.ground = vec![0; 466];
    for (page, byte) in [(60, b'A'), (76, b'B'), (261, b'C')] {
        plan.ground[page..page + 16].fill(byte);
    }
    plan
}

/// The plan of a history without revisions.
fn empty() -> Plan {
    forge::empty(16, 20)
}

/// The history of a plan that was changed.
fn changed(mut plan: Plan, change: fn(&mut Plan)) -> Vec<u8> {
    change(&mut plan);
    plan.build()
}

fn lines(lock: &str, branch: &str, second_parent: u64) -> String {
    format!(
        "pages 16 original 20 revisions 2 lock {lock} branch {branch}\n\
         1 0 20240305T070000Z 20 2 ana\n\
         2 {second_parent} 20240305T091500Z 21 2 ana\n"
    )
}

fn cases() -> Vec<(&'static str, Vec<u8>, String)> {
    let refused = |number: u32| format!("refused {number}\n");
    vec![
        (
            "the worked example",
            example().build(),
            lines("no", "no", 1),
        ),
        (
            "a locked history",
            changed(example(), Plan::set_lock),
            lines("yes", "no", 1),
        ),
        (
            "a branching history",
            changed(example(), |plan| {
                plan.allow_branching();
                plan.records[1].parent = 0;
            }),
            lines("no", "yes", 0),
        ),
        (
            "an empty history",
            empty().build(),
            "pages 16 original 20 revisions 0 lock no branch no\n".into(),
        ),
        (
            "an empty history with both flags",
            changed(empty(), |plan| {
                plan.set_lock();
                plan.allow_branching();
            }),
            "pages 16 original 20 revisions 0 lock yes branch yes\n".into(),
        ),
        (
            "scratch bytes behind the end",
            [example().build(), vec![255; 100]].concat(),
            lines("no", "no", 1),
        ),
        ("no bytes", vec![], refused(1)),
        (
            "a header cut short",
            empty().build()[..39].to_vec(),
            refused(1),
        ),
        (
            "longer input",
            [example().build(), vec![0; 65_536]].concat(),
            refused(1),
        ),
        (
            "another signature",
            changed(empty(), |plan| plan.header_start[3] = b'X'),
            refused(2),
        ),
        (
            "a third flag",
            changed(empty(), |plan| plan.header_start[5] = 4),
            refused(2),
        ),
        (
            "a page size of 24",
            changed(empty(), |plan| plan.header_page = 24),
            refused(2),
        ),
        (
            "the header's checksum",
            changed(empty(), |plan| plan.header_sum_fault = 1),
            refused(3),
        ),
        (
            "the whole history past the end",
            empty().build()[..59].to_vec(),
            refused(5),
        ),
        (
            "a location's checksum",
            changed(example(), |plan| plan.records[0].location_sum_fault = 1),
            refused(5),
        ),
        (
            "a revision that is its own parent",
            changed(example(), |plan| plan.records[1].parent = 2),
            refused(7),
        ),
        (
            "a thirteenth month",
            changed(example(), |plan| {
                plan.records[1].time = b"20241305T091500Z".to_vec()
            }),
            refused(7),
        ),
        (
            "a record's checksum",
            changed(example(), |plan| plan.records[1].sum_fault = 1),
            refused(8),
        ),
        (
            "a damaged page is not looked at",
            changed(example(), |plan| {
                plan.records[1].entries[1].page_sum_fault = 1
            }),
            lines("no", "no", 1),
        ),
    ]
}

fn listed(program: &str, history: &[u8]) -> std::io::Result<Vec<u8>> {
    let mut child = Command::new(program)
        .stdin(Stdio::piped())
        .stdout(Stdio::piped())
        .spawn()?;
    let mut input = child.stdin.take().expect("standard input was asked for");
    // The program stops reading once the input is too long, so the rest may find nobody to read it.
    let _ = input.write_all(history);
    drop(input);
    Ok(child.wait_with_output()?.stdout)
}

fn main() -> ExitCode {
    let Some(program) = std::env::args().nth(1) else {
        eprintln!("lists: give the list program's path");
        return ExitCode::from(2);
    };
    let mut failed = 0;
    let cases = cases();
    for (name, history, expected) in &cases {
        match listed(&program, history) {
            Ok(text) if text == expected.as_bytes() => {}
            Ok(text) => {
                eprintln!(
                    "{name}: expected {expected:?}, found {:?}",
                    String::from_utf8_lossy(&text)
                );
                failed += 1;
            }
            Err(error) => {
                eprintln!("{name}: {error}");
                failed += 1;
            }
        }
    }
    println!("list program: {} histories, {failed} differ", cases.len());
    ExitCode::from(u8::from(failed > 0))
}
