//! Holds our port of the LD2410 link against the original Rust, case by case, in the form of docs/REPLAY.md.

mod case;
mod compare;
mod expected;
mod generate;
mod intended;
mod line;
mod list;
mod model;
mod mutants;
mod options;
mod oracle;
mod programs;
mod published;
mod recovery;
mod script;
mod self_check;
mod station;

use std::io::{self, Read, Write};
use std::process::ExitCode;

use options::{Mode, Options};

/// The self-check's scale where none is given: its wrong variants are noticed early.
const SELF_CHECK_SCALE: u64 = 100;

fn main() -> ExitCode {
    let options = match options::parse(std::env::args().skip(1)) {
        Ok(options) => options,
        Err(message) => return failed(&message),
    };
    match run(&options) {
        Ok(true) => ExitCode::SUCCESS,
        Ok(false) => ExitCode::from(1),
        Err(error) => failed(&error.to_string()),
    }
}

fn failed(message: &str) -> ExitCode {
    eprintln!("compare: {message}");
    ExitCode::from(2)
}

/// Whether all went well.
fn run(options: &Options) -> io::Result<bool> {
    match &options.mode {
        Mode::Compare => compare::run(options),
        Mode::SelfCheck => {
            let scale = options.scale.unwrap_or(SELF_CHECK_SCALE);
            let noticed = self_check::run(&options.ops, options.seed, scale);
            Ok(list::stored(&options.crates)? && noticed)
        }
        Mode::WriteList(directory) => list::write(directory, &options.ops),
        Mode::Recovery(directory) => recovery::run(directory),
        Mode::Answer => answer_standard_input(),
        Mode::Help => {
            println!("{}", options::USAGE);
            Ok(true)
        }
    }
}

fn answer_standard_input() -> io::Result<bool> {
    let mut input = Vec::new();
    io::stdin().read_to_end(&mut input)?;
    io::stdout().write_all(&expected::answers(&input, &programs::ops()))?;
    Ok(true)
}
