//! `onion`: keeps the revisions of a binary file in one history beside it.
//!
//! `main` takes the command line apart and runs a command of `commands`. A command writes to the output it is given and
//! ends with a [`Failure`] where it does not succeed; `main` shows that as one line on standard error.

#![deny(unsafe_code)]

mod arguments;
mod commands;
mod failure;
mod files;
mod progress;
mod runs;
mod system;

use std::env;
use std::ffi::OsString;
use std::io::{self, BufWriter, Write};
use std::process::ExitCode;

use commands::{Command, COMMANDS};
use failure::Failure;

fn main() -> ExitCode {
    let words = env::args_os().skip(1).collect();
    let mut output = BufWriter::new(io::stdout().lock());
    let outcome = run(words, &mut output).and_then(|()| Ok(output.flush()?));
    match outcome {
        Ok(()) => ExitCode::SUCCESS,
        Err(failure) => {
            // What was shown of two revisions that differ is still to go out.
            let _ = output.flush();
            let sentence = failure.to_string();
            if !sentence.is_empty() {
                // Nobody may be there to read this either.
                let _ = writeln!(io::stderr(), "onion: {sentence}");
            }
            ExitCode::from(failure.status())
        }
    }
}

fn run(mut words: Vec<OsString>, output: &mut dyn Write) -> Result<(), Failure> {
    if words.is_empty() {
        let sentence = "no command is given; 'onion --help' shows them";
        return Err(Failure::Usage(sentence.to_string()));
    }
    let name = words.remove(0).to_string_lossy().into_owned();
    match name.as_str() {
        "--version" | "-V" => {
            writeln!(output, "onion {}", env!("CARGO_PKG_VERSION"))?;
            Ok(())
        }
        "--help" | "-h" => overview(output),
        "help" => match words.first() {
            Some(word) => help(command(&word.to_string_lossy())?, output),
            None => overview(output),
        },
        name => {
            let command = command(name)?;
            if asks_for_help(&words) {
                return help(command, output);
            }
            run_command(command, words, output)
        }
    }
}

fn run_command(
    command: &Command,
    words: Vec<OsString>,
    output: &mut dyn Write,
) -> Result<(), Failure> {
    let outcome = command
        .form
        .parse(words)
        .and_then(|arguments| (command.run)(&arguments, output));
    match outcome {
        Err(Failure::Usage(sentence)) => {
            let name = command.name;
            Err(Failure::Usage(format!(
                "{name}: {sentence}; see 'onion {name} --help'"
            )))
        }
        outcome => outcome,
    }
}

fn command(name: &str) -> Result<&'static Command, Failure> {
    let found = COMMANDS.iter().find(|command| command.name == name);
    found.ok_or_else(|| {
        Failure::Usage(format!(
            "there is no command '{name}'; 'onion --help' shows them"
        ))
    })
}

/// Ahead of `--`, behind which all words are places.
fn asks_for_help(words: &[OsString]) -> bool {
    let mut ahead = words.iter().take_while(|word| *word != "--");
    ahead.any(|word| word == "--help" || word == "-h")
}

fn overview(output: &mut dyn Write) -> Result<(), Failure> {
    writeln!(
        output,
        "onion keeps the revisions of a binary file in one history beside it.\n\
         The original is never changed.\n\
         \n\
         Usage: onion COMMAND ..\n"
    )?;
    for command in COMMANDS {
        writeln!(output, "  {:8} {}", command.name, command.summary)?;
    }
    writeln!(
        output,
        "\n\
         'onion COMMAND --help' tells more of a command; 'onion --version' tells the version.\n\
         A revision is a number from 'onion list', 0 for the original, or 'newest'.\n\
         Exit status: 0 accepted, 1 refused, different or failed, 2 wrong usage."
    )?;
    Ok(())
}

fn help(command: &Command, output: &mut dyn Write) -> Result<(), Failure> {
    writeln!(output, "{}\n", command.summary)?;
    writeln!(output, "Usage: onion {}\n", command.usage)?;
    writeln!(output, "{}", command.help)?;
    Ok(())
}
