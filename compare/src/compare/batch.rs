//! A batch of cases with their expected answers, one run of our program.

use std::io::{self, Write};
use std::path::Path;
use std::process::{Command, Stdio};
use std::thread;

use super::tally::Tally;
use crate::case::Case;
use crate::expected::{self, is_modelled};
use crate::intended::{self, TABLE};
use crate::line::{lines, text_of};
use crate::station::{events, STATION};

/// Where a case's argument starts in a batch's input, and where it and its answers end.
struct Ends {
    start: usize,
    end: usize,
    answers: usize,
}

pub struct Batch {
    op: u8,
    input: Vec<u8>,
    /// What our program must print.
    expected: Vec<u8>,
    ends: Vec<Ends>,
}

impl Batch {
    pub fn new(op: u8) -> Self {
        Self { op, input: Vec::new(), expected: Vec::new(), ends: Vec::new() }
    }

    pub fn bytes(&self) -> usize {
        self.input.len()
    }

    /// Adds a case. An expected answer that a model has a part in is held against the original's at once; ours, which
    /// must be the expected one, thereby too. One of the table engine is held against the division's as well.
    pub fn add(&mut self, argument: &[u8], tally: &mut Tally) {
        let case = Case { op: self.op, argument };
        let before = self.expected.len();
        case.write(&mut self.input);
        expected::answer(case, &mut self.expected);
        if is_modelled(self.op) {
            tally.hold(case, intended::hold(&TABLE, case, &self.expected[before..]));
        }
        if let Some(divided) = expected::divided(case) {
            tally.divide(case, &divided, &self.expected[before..]);
        }
        if self.op == STATION {
            tally.events += events(argument).count() as u64;
        }
        let end = self.input.len();
        self.ends.push(Ends { start: end - argument.len(), end, answers: self.expected.len() });
    }

    /// Runs the batch, counts what differs, and empties it.
    pub fn run(&mut self, program: &Path, tally: &mut Tally) -> io::Result<()> {
        if self.ends.is_empty() {
            return Ok(());
        }
        let got = answers_of(program, &self.input)?;
        tally.cases += self.ends.len() as u64;
        tally.lines += lines(&self.expected).count() as u64;
        if got != self.expected {
            self.differences(&got, tally);
        }
        *self = Self::new(self.op);
        tally.progress();
        Ok(())
    }

    fn differences(&self, got: &[u8], tally: &mut Tally) {
        let mut got = lines(got);
        let mut answered = 0;
        for ends in &self.ends {
            let case = Case { op: self.op, argument: &self.input[ends.start..ends.end] };
            for expected in lines(&self.expected[answered..ends.answers]) {
                let ours = got.next();
                if ours != Some(expected) {
                    tally.difference(Some(case), text_of(Some(expected)), text_of(ours));
                }
            }
            answered = ends.answers;
        }
        for surplus in got {
            tally.difference(None, text_of(None), text_of(Some(surplus)));
        }
    }
}

/// What a program writes to standard output for this standard input.
pub fn answers_of(program: &Path, input: &[u8]) -> io::Result<Vec<u8>> {
    let named = |error: io::Error| io::Error::new(error.kind(), format!("our program {}: {error}", program.display()));
    let mut child = Command::new(program).stdin(Stdio::piped()).stdout(Stdio::piped()).spawn().map_err(named)?;
    let mut stdin = child.stdin.take().expect("standard input is a pipe");
    let output = thread::scope(|scope| {
        // A program that stops early leaves input unread; its missing answers are the difference then.
        scope.spawn(move || stdin.write_all(input));
        child.wait_with_output()
    });
    output.map(|output| output.stdout).map_err(named)
}
