//! Mistakes with the LD2450 of request 6: in reading a frame, writing one, and parsing a stream.

mod buffers;
mod calls;
mod counters;
mod deliveries;
mod division;
mod frames;
mod framing;
mod numbers;
mod refusals;
mod resets;
mod targets;
mod values;
mod writers;

use super::Mutant;
use crate::model::ld2450::Rules;
use crate::model::rules;

/// The ops: the frame reader, the frame writer, the stream parser.
const READ: u8 = 30;
const WRITE: u8 = 31;
const PARSE: u8 = 32;

/// Numbers of a target in an answer, of the line of a call, and of a closing line.
const TARGET_NUMBERS: usize = 5;
const CALL: usize = 3 + 3 * TARGET_NUMBERS;
const CLOSING: usize = 5;
/// Places in the line of a call.
const TAKEN: usize = 1;
const THERE: usize = 2;
/// Places in a closing line.
const FRAMES: usize = 1;
const RESYNCS: usize = 2;
const DROPPED: usize = 3;
const UNFINISHED: usize = 4;

/// The fields of a target in the order of an answer, and the three targets.
const NAMES: [&str; TARGET_NUMBERS] = ["presence", "x", "y", "speed", "resolution"];
const ORDER: [&str; 3] = ["first", "second", "third"];

pub fn mutants() -> Vec<Mutant> {
    let mut all = Vec::new();
    for op in [READ, PARSE] {
        all.extend(targets::mutants(op));
        all.extend(numbers::mutants(op));
    }
    all.extend(framing::mutants());
    all.extend(refusals::mutants());
    all.extend(values::mutants());
    all.extend(writers::mutants());
    all.extend(buffers::mutants());
    all.extend(division::mutants());
    all.extend(frames::mutants());
    all.extend(counters::mutants());
    all.extend(resets::mutants());
    all.extend(calls::mutants());
    all.extend(deliveries::mutants());
    all
}

/// A variant by other rules of the request.
fn by(op: u8, mistake: &str, ld2450: Rules) -> Mutant {
    Mutant::rules(op, mistake, rules::Rules { ld2450, ..rules::RULES })
}

/// The TARGETS of an answer that has them: read from a frame, or delivered.
fn targets_of(line: &mut [u64]) -> Option<&mut [u64]> {
    match line {
        [30, 0, targets @ ..] => Some(targets),
        [32, _, 1, targets @ ..] if targets.len() == CALL - 3 => Some(targets),
        _ => None,
    }
}

/// Whether a line is of a call that delivers a frame.
fn delivers(line: &[u64]) -> bool {
    line.len() == CALL && line[THERE] == 1
}
