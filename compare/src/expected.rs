//! What our program must print, line for line. A script's answer is the model's of the division, since the original's
//! counters stop where ours go on; one by the table engine is the model's of the tables, and must be the division's
//! too. A state byte is read by the model's rule, since the original knows no calibration; farthest gates are taken by
//! the model's rule, since the original takes 0 and 1.
//! The LD2450's answers and the load's are models', since the original knows neither. All else is the oracle's.

use ld2410::access::ORIGINAL_MAX;

use crate::case::{self, Case, Next};
use crate::line;
use crate::model::rules::{Rules, RULES};
use crate::model::{ld2450, loads, streams, table_engine};
use crate::oracle;
use crate::oracle::gates::Gates;
use crate::oracle::states::States;

/// Whether an op is a script of calls, whose last line has the counters.
fn is_script(op: u8) -> bool {
    matches!(op, 10 | 11 | 13) || is_by_tables(op)
}

/// Whether an op is a script of calls by the table engine.
fn is_by_tables(op: u8) -> bool {
    matches!(op, 16 | 17)
}

/// Whether a model has a part in an op's answers that the original has too: they are to be held against the original's.
/// Of ops 9 and 20 that is the original's encoder.
pub fn is_modelled(op: u8) -> bool {
    matches!(op, 1 | 2 | 5 | 6 | 9 | 20) || is_script(op)
}

/// Appends the answer lines of a case.
pub fn answer(case: Case<'_>, out: &mut Vec<u8>) {
    answer_by(case, &RULES, out);
}

/// Appends the answer lines of a case by these rules; the oracle answers for a parser that cannot be built, and for an
/// argument that is too short.
pub fn answer_by(case: Case<'_>, rules: &Rules, out: &mut Vec<u8>) {
    let modelled = match case.op {
        op if is_by_tables(op) => table_engine::answer(case, rules, out),
        op if is_script(op) => streams::answer(case, rules, out),
        15 => loads::answer(case.argument, &rules.loads, out),
        30..=32 => ld2450::answer(case, &rules.ld2450, out),
        _ => None,
    };
    if modelled.is_none() {
        oracle::answer_by(case, States::By(rules.state), Gates::By(rules.gates), out);
    }
}

/// The division's answer, which that of the table engine must be too; none for any other op, nor for a parser that
/// cannot be built.
pub fn divided(case: Case<'_>) -> Option<Vec<u8>> {
    let mut answer = Vec::new();
    is_by_tables(case.op).then(|| streams::answer(case, &RULES, &mut answer))??;
    Some(answer)
}

/// A script's last line as it is set beside the original's: each of the four counters lowered to where the original's
/// stop. Another line stays as it is.
fn lowered(closing: &[u8]) -> Vec<u8> {
    let lowered = |text: &str| {
        let mut numbers = text.split(' ').map(str::parse).collect::<Result<Vec<u64>, _>>().ok()?;
        for counter in numbers.get_mut(1..5)? {
            *counter = ORIGINAL_MAX.min(*counter);
        }
        Some(numbers.iter().map(u64::to_string).collect::<Vec<_>>().join(" ") + "\n")
    };
    let text = std::str::from_utf8(closing).ok().and_then(|text| text.strip_suffix('\n'));
    text.and_then(lowered).map_or(closing.to_vec(), String::into_bytes)
}

/// An answer of an op as it is set beside the original's: a script's last line is lowered.
pub fn beside_original(op: u8, answer: &[u8]) -> Vec<u8> {
    let lines: Vec<_> = line::lines(answer).collect();
    match lines.split_last() {
        Some((closing, calls)) if is_script(op) => [calls.concat(), lowered(closing)].concat(),
        _ => answer.to_vec(),
    }
}

/// The answers to a whole input, as a program with these ops prints them.
pub fn answers(mut input: &[u8], ops: &[u8]) -> Vec<u8> {
    let mut out = Vec::new();
    loop {
        match case::next(input) {
            Next::Case(case, rest) => {
                if ops.contains(&case.op) {
                    answer(case, &mut out);
                } else {
                    line::none(&mut out, case.op);
                }
                input = rest;
            }
            Next::End => return out,
            Next::Short => {
                out.extend(b"short\n");
                return out;
            }
            Next::Long => {
                out.extend(b"long\n");
                return out;
            }
        }
    }
}
