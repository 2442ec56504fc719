//! Runs the generated cases through our programs in batches, and compares their answers line by line with the expected.

mod batch;
mod ends;
mod tally;

use std::io;
use std::path::Path;

use crate::generate;
use crate::intended::{Intended, TABLE};
use crate::options::Options;
use crate::programs::{Program, PROGRAMS};
use batch::Batch;
use tally::Tally;

/// Bytes of cases that go through one run of our program.
const BATCH_BYTES: usize = 4 << 20;

/// Compares every op with the program that has it; true where every answer is the expected one, and every expected one
/// the original's but for what is intended.
pub fn run(options: &Options) -> io::Result<bool> {
    let asked: Vec<_> = PROGRAMS.iter().zip(&options.paths).filter(|(program, _)| asked(program, options)).collect();
    for (program, path) in &asked {
        present(program, path)?;
    }
    let mut tallies = Vec::new();
    for (program, path) in asked {
        tallies.push(ends::compare(program, path)?);
        for &op in options.ops.iter().filter(|op| program.ops.contains(op)) {
            tallies.push(compare_op(op, path, options)?);
        }
    }
    for tally in &tallies {
        println!("{}", tally.summary());
    }
    print_intended(&tallies, &options.ops);
    Ok(tallies.iter().all(Tally::clean))
}

/// Whether an op of a program is to be compared.
fn asked(program: &Program, options: &Options) -> bool {
    program.ops.iter().any(|op| options.ops.contains(op))
}

fn present(program: &Program, path: &Path) -> io::Result<()> {
    if path.is_file() {
        return Ok(());
    }
    let Program { name, option, .. } = program;
    let place = path.display();
    let message =
        format!("our program is missing: no file {place} (rt run in crates/{name} builds it; {option} PROGRAM names another)");
    Err(io::Error::other(message))
}

fn compare_op(op: u8, program: &Path, options: &Options) -> io::Result<Tally> {
    let mut tally = Tally::new(op);
    let mut batch = Batch::new(op);
    let mut outcome = Ok(());
    generate::cases(op, options.seed, options.scale.unwrap_or(1), &mut |argument| {
        if outcome.is_ok() {
            batch.add(argument, &mut tally);
            if batch.bytes() >= BATCH_BYTES {
                outcome = batch.run(program, &mut tally);
            }
        }
    });
    outcome?;
    batch.run(program, &mut tally)?;
    tally.end_progress();
    Ok(tally)
}

fn print_intended(tallies: &[Tally], ops: &[u8]) {
    for (place, Intended { op, reason, .. }) in TABLE.iter().enumerate() {
        if ops.contains(op) {
            let cases: u64 = tallies.iter().map(|tally| tally.intended[place].0).sum();
            let lines: u64 = tallies.iter().map(|tally| tally.intended[place].1).sum();
            println!("intended difference, op {op}: {cases} cases, {lines} lines: {reason}");
        }
    }
}
