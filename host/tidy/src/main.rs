//! What the prover does not look at in the crates' files: imports that are not named, crates that crates.txt gives to no purpose, functions
//! of too many parameters, and laws and definitions that nothing names. Run from the repository's root. It prints a line for each finding
//! and ends with status 1 if there is any.

mod crates_txt;
mod definitions;
mod imports;
mod names;
mod parameters;
mod source;
mod tokens;
mod unused;

use source::Finding;
use std::path::Path;
use std::process::ExitCode;
use std::{fs, io};

fn run(root: &Path) -> io::Result<usize> {
    let text = fs::read_to_string(root.join(crates_txt::PATH))?;
    let sources = source::read_all(root)?;
    let mut findings: Vec<Finding> = sources.iter().flat_map(imports::check).collect();
    findings.extend(crates_txt::check(&text, &sources));
    findings.extend(sources.iter().flat_map(parameters::check));
    findings.extend(unused::check(&sources));
    findings.sort();
    for Finding { path, line, what } in &findings {
        println!("{path}:{line}: {what}");
    }
    println!(
        "tidy: {} crates, {} files, {} findings",
        crates_txt::lines(&text).len(),
        sources.len(),
        findings.len()
    );
    Ok(findings.len())
}

fn main() -> ExitCode {
    match run(Path::new(".")) {
        Ok(0) => ExitCode::SUCCESS,
        Ok(_) => ExitCode::FAILURE,
        Err(error) => {
            eprintln!("tidy: {error}");
            ExitCode::from(2)
        }
    }
}
