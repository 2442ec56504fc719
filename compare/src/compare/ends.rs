//! Inputs that end inside a case, a case that is too long, and ops that a program's table does not have.

use std::io;
use std::path::Path;

use super::batch::answers_of;
use super::tally::Tally;
use crate::case::{Case, LONGEST};
use crate::expected;
use crate::programs::Program;

/// Each input is a run of our program of its own.
pub fn compare(program: &Program, path: &Path) -> io::Result<Tally> {
    let mut tally = Tally::of_ends(program.name);
    for input in inputs(program) {
        let expected = expected::answers(&input, program.ops);
        let got = answers_of(path, &input)?;
        tally.cases += 1;
        tally.lines += expected.iter().filter(|&&byte| byte == b'\n').count() as u64;
        if got != expected {
            let shown = Case { op: 0, argument: &input };
            tally.difference(Some(shown), &text(&expected), &text(&got));
        }
    }
    Ok(tally)
}

fn inputs(program: &Program) -> Vec<Vec<u8>> {
    let mut good = Vec::new();
    program.sample.write(&mut good);
    let op = program.sample.op;
    let mut inputs: Vec<_> = (0..=good.len()).map(|length| [&good, &good[..length]].concat()).collect();
    let told = |n: u32, given: usize| [&good[..], &[op], &n.to_le_bytes(), &vec![0; given], &good].concat();
    let most = LONGEST as u32;
    inputs.extend([told(most, LONGEST), told(most, 10), told(most + 1, 10), told(most + 1, LONGEST + 1)]);
    inputs.extend([told(u32::MAX, 0), told(1 << 24, 100)]);
    inputs.push(Vec::new());
    for &op in program.no_ops {
        let mut input = Vec::new();
        Case { op, argument: &[] }.write(&mut input);
        Case { op, argument: &[1, 2, 3] }.write(&mut input);
        inputs.push(input);
    }
    inputs
}

fn text(answers: &[u8]) -> String {
    String::from_utf8_lossy(answers).replace('\n', " | ")
}
