//! Runs the proved store and the twin on the same inputs and compares every answer, every word of a session and every
//! lent byte.
//!
//! Without arguments the seeds are fixed and the run takes about a minute. `--minutes N` goes on with further seeds
//! for so long, `--seed S` starts with another, `--family NAME` and `--number N` pick inputs of one family, and
//! `--trace` prints each call before it is made. The run ends with status 1 on a difference, on a crash, and where a
//! number that a call can answer was never seen.

mod arguments;
mod calls;
mod damaged;
mod exercise;
mod foreign;
mod lengths;
mod limits;
mod merging;
mod report;
mod sequences;
mod sessions;

use forge::Random;
use report::Test;
use std::env;
use std::io::{BufRead, BufReader, Write};
use std::process::{Command, ExitCode, Stdio};
use std::time::{Duration, Instant};

/// A family of inputs: its name, how many of them a round takes, and how one is run.
struct Family(&'static str, u64, fn(&mut Test, &mut Random, u64));

const FAMILIES: [Family; 16] = [
    Family("limits", 3 * limits::COUNT, limits::run),
    Family("sequences", 15_000, sequences::run),
    Family("large", 8, sequences::run_large),
    Family("damaged", 15_000, damaged::run),
    Family("fields", 480, damaged::run_extremes),
    Family("foreign", 25_000, foreign::run_legal),
    Family("rules", 9_000, foreign::run_rule),
    Family("sessions", 15_000, sessions::run),
    Family("merging", 4_000, merging::run),
    Family("arguments", 600, arguments::run_extremes),
    Family("lengths", 1, lengths::run),
    Family("empty", 1_000, arguments::run_empty),
    Family("anything", 40_000, arguments::run_anything),
    Family("steps", 4_000, arguments::run_steps),
    Family("checksums", 220, arguments::run_checksums),
    Family("large-checksums", 6, arguments::run_large_checksums),
];

#[derive(Default)]
struct Arguments {
    seed: Option<u64>,
    minutes: Option<u64>,
    family: Option<String>,
    number: Option<u64>,
    trace: bool,
    inside: bool,
}

fn arguments() -> Result<Arguments, String> {
    let mut arguments = Arguments::default();
    let mut words = env::args().skip(1);
    while let Some(word) = words.next() {
        let mut value = || words.next().ok_or(format!("{word} needs a value"));
        let number = |text: String| text.parse().map_err(|_| format!("{text} is no number"));
        match word.as_str() {
            "--seed" => arguments.seed = Some(number(value()?)?),
            "--minutes" => arguments.minutes = Some(number(value()?)?),
            "--family" => arguments.family = Some(value()?),
            "--number" => arguments.number = Some(number(value()?)?),
            "--trace" => arguments.trace = true,
            INSIDE => arguments.inside = true,
            _ => return Err(format!("{word} is not known")),
        }
    }
    match &arguments.family {
        Some(name) if FAMILIES.iter().all(|family| family.0 != name) => {
            let names = FAMILIES.map(|family| family.0);
            Err(format!("{name} is no family; they are {names:?}"))
        }
        _ => Ok(arguments),
    }
}

/// Tells the program that it is the one that makes the calls, watched by another.
const INSIDE: &str = "--inside";

/// Starts a line that only says which inputs are run.
const MARK: char = '\u{1}';

fn main() -> ExitCode {
    match arguments() {
        Err(text) => {
            eprintln!("compare: {text}");
            ExitCode::from(2)
        }
        Ok(arguments) if arguments.inside => run(&arguments),
        Ok(_) => watch(),
    }
}

/// Runs the program once more and passes on what it prints. Where it crashes, its last inputs are named.
fn watch() -> ExitCode {
    let mut inner = match env::current_exe().and_then(|program| {
        Command::new(program)
            .args(env::args().skip(1))
            .arg(INSIDE)
            .stdout(Stdio::piped())
            .spawn()
    }) {
        Ok(inner) => inner,
        Err(error) => {
            eprintln!("compare: {error}");
            return ExitCode::from(2);
        }
    };
    let mut inputs = String::new();
    for line in BufReader::new(inner.stdout.take().unwrap()).lines() {
        let line = line.unwrap_or_default();
        match line.strip_prefix(MARK) {
            Some(mark) => inputs = mark.to_string(),
            None => println!("{line}"),
        }
    }
    match inner.wait().ok().and_then(|status| status.code()) {
        Some(0) => ExitCode::SUCCESS,
        Some(1) => ExitCode::FAILURE,
        _ => {
            println!("CRASH in {}", last_call(&inputs).unwrap_or_default());
            println!("  again with: compare {inputs} --trace");
            ExitCode::FAILURE
        }
    }
}

/// The call that inputs crash in: the last one that is traced.
fn last_call(inputs: &str) -> Option<String> {
    let output = Command::new(env::current_exe().ok()?)
        .args(inputs.split(' '))
        .args(["--trace", INSIDE])
        .stderr(Stdio::null())
        .output()
        .ok()?;
    let text = String::from_utf8_lossy(&output.stdout).into_owned();
    text.lines().last().map(str::to_string)
}

fn run(arguments: &Arguments) -> ExitCode {
    let began = Instant::now();
    let end = arguments
        .minutes
        .map(|minutes| began + Duration::from_secs(60 * minutes));
    let mut test = Test::new(arguments.trace, arguments.minutes.is_some());
    let first = arguments.seed.unwrap_or(1);
    let mut seed = first;
    loop {
        round(&mut test, arguments, seed, end);
        seed = seed.wrapping_add(1);
        if end.is_none_or(|end| Instant::now() >= end) {
            break;
        }
    }
    if arguments.family.is_some() {
        println!("no difference");
        return ExitCode::SUCCESS;
    }
    let complete = test.print(foreign::RULES.iter().map(|rule| (rule.row, rule.name)));
    println!(
        "no difference; seeds {first} to {}, {:.0} seconds",
        seed.wrapping_sub(1),
        began.elapsed().as_secs_f64()
    );
    match complete {
        true => ExitCode::SUCCESS,
        false => ExitCode::FAILURE,
    }
}

fn round(test: &mut Test, arguments: &Arguments, seed: u64, end: Option<Instant>) {
    for (place, Family(name, count, run)) in FAMILIES.iter().enumerate() {
        if arguments.family.as_ref().is_some_and(|only| only != name) {
            continue;
        }
        let numbers = match arguments.number {
            Some(number) => number..number + 1,
            None => 0..*count,
        };
        for number in numbers {
            // The first round is always whole, so that nothing is missing in the table.
            let first = seed == arguments.seed.unwrap_or(1);
            if !first && end.is_some_and(|end| Instant::now() >= end) {
                return;
            }
            println!("{MARK}--seed {seed} --family {name} --number {number}");
            let _ = std::io::stdout().flush();
            (test.family, test.number, test.seed) = (name, number, seed);
            let mut random = Random::seeded(&[seed, place as u64, number]);
            run(test, &mut random, number);
        }
    }
}
