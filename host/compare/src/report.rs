//! What was seen, and what is printed of it.

use std::collections::BTreeMap;
use std::io::Write;
use std::process;

#[derive(Clone, Copy)]
pub enum Call {
    Create,
    Open,
    Write,
    Commit,
    Release,
    Read,
    SessionRead,
    LookUp,
    Check,
    SettingOf,
    RecordOf,
    List,
    Browse,
    BrowseStep,
}

impl Call {
    pub fn name(self) -> &'static str {
        CALLS[self as usize].0
    }
}

/// Each call, and the numbers that it can answer by the paper's orders. Those of a browsing step are its kinds, and
/// that of a list stands in its text.
pub const CALLS: [(&str, &[u64]); 14] = [
    ("create", &[0, 1, 17]),
    ("open", &[0, 1, 2, 3, 4, 5, 6, 11, 12, 18, 7, 8]),
    ("write", &[0, 1, 2, 3, 4, 5, 13, 7, 8, 10, 19, 14, 15, 9]),
    ("commit", &[0, 1, 2, 3, 5, 13, 7, 8, 14, 16, 15]),
    ("release", &[0, 1, 2, 3]),
    ("read", &[0, 1, 2, 3, 4, 5, 6, 7, 8, 10, 9]),
    ("session read", &[0, 1, 2, 3, 4, 5, 13, 7, 8, 10, 9]),
    ("look-up", &[0, 1, 2, 3, 4, 5, 6, 7, 8, 10, 20, 9]),
    ("check", &[0, 1, 2, 3, 5, 7, 8, 9]),
    ("setting", &[0, 1, 2, 3, 5]),
    ("record", &[0, 1, 2, 3, 5, 6, 7, 8]),
    ("list", &[0, 1, 2, 3, 5, 7, 8]),
    ("browse", &[0, 1, 2, 3, 5, 6, 7, 8]),
    ("browsing step", &[0, 1, 7]),
];

/// Where a run stands and what it has seen.
pub struct Test {
    pub family: &'static str,
    pub number: u64,
    pub seed: u64,
    /// Prints each call before it is made.
    pub trace: bool,
    /// Time was given, so that inputs that take seconds each are run too.
    pub patient: bool,
    counts: [[u64; 21]; CALLS.len()],
    pub checksums: u64,
    /// How often each rule of the layout was broken alone, by its row and name.
    rules: BTreeMap<(u64, &'static str), u64>,
}

impl Test {
    pub fn new(trace: bool, patient: bool) -> Test {
        Test {
            family: "",
            number: 0,
            seed: 0,
            trace,
            patient,
            counts: [[0; 21]; CALLS.len()],
            checksums: 0,
            rules: BTreeMap::new(),
        }
    }

    pub fn begin(&self, call: &dyn Fn() -> String) {
        if self.trace {
            println!("{}", call());
        }
    }

    pub fn count(&mut self, call: Call, number: u64) {
        let (name, numbers) = CALLS[call as usize];
        if !numbers.contains(&number) {
            let text = format!("both sides answer {number}, which is no number of this call");
            self.differs(name, &text, "");
        }
        self.counts[call as usize][number as usize] += 1;
    }

    pub fn count_rule(&mut self, row: u64, name: &'static str) {
        *self.rules.entry((row, name)).or_default() += 1;
    }

    /// Prints a difference and ends the run.
    pub fn differs(&self, call: &str, text: &str, inputs: &str) -> ! {
        println!("DIFFERENCE in {call}");
        println!("  {text}");
        println!("  {inputs}");
        println!(
            "  again with: compare --seed {} --family {} --number {}",
            self.seed, self.family, self.number
        );
        let _ = std::io::stdout().flush();
        process::exit(1)
    }

    /// The tables of numbers seen and of rules broken, and whether none is missing.
    pub fn print(&self, rules: impl Iterator<Item = (u64, &'static str)>) -> bool {
        println!("| Call | All | Number: how often |");
        println!("|---|---|---|");
        let mut missing = Vec::new();
        for ((name, numbers), counts) in CALLS.iter().zip(&self.counts) {
            let mut line = String::new();
            for number in *numbers {
                let count = counts[*number as usize];
                line += &format!("{number}: {count}, ");
                if count == 0 {
                    missing.push(format!("{name} never answered {number}"));
                }
            }
            let all: u64 = counts.iter().sum();
            println!("| {name} | {all} | {} |", line.trim_end_matches(", "));
        }
        println!("| checksum | {} | |", self.checksums);
        println!();
        println!("| Row | Rule broken alone, checksums right | Times |");
        println!("|---|---|---|");
        for (row, name) in rules {
            let count = self.rules.get(&(row, name)).copied().unwrap_or(0);
            println!("| {row} | {name} | {count} |");
            if count == 0 {
                missing.push(format!("rule of row {row} never broken: {name}"));
            }
        }
        println!();
        for line in &missing {
            println!("MISSING: {line}");
        }
        missing.is_empty()
    }
}
