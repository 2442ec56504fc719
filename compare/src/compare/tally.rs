//! What the comparison of one op counts and says.

use std::fmt::Write as _;
use std::io::{self, IsTerminal, Write as _};

use crate::case::Case;
use crate::intended::{Meant, Violation, TABLE};
use crate::line::{lines, text_of};

/// Argument bytes that a named difference shows at most.
const SHOWN_BYTES: usize = 400;

pub struct Tally {
    /// What is compared: an op, or the ends of a program's input.
    what: String,
    pub cases: u64,
    pub lines: u64,
    /// Events of station scripts.
    pub events: u64,
    /// Lines of ours that are not the expected ones.
    pub differences: u64,
    /// Expected answers held against the original's, and how many of them are not as the table of intended differences
    /// says.
    held: u64,
    violations: u64,
    /// Expected answers of the table engine held against the division's, and how many of them are other ones.
    divided: u64,
    others: u64,
    /// Cases and lines that differ as the table says, by entry.
    pub intended: Vec<(u64, u64)>,
}

impl Tally {
    pub fn new(op: u8) -> Self {
        Self::named(format!("op {op}"))
    }

    pub fn of_ends(program: &str) -> Self {
        Self::named(format!("ends of input of {program}"))
    }

    fn named(what: String) -> Self {
        Self {
            what,
            cases: 0,
            lines: 0,
            events: 0,
            differences: 0,
            held: 0,
            violations: 0,
            divided: 0,
            others: 0,
            intended: vec![(0, 0); TABLE.len()],
        }
    }

    pub fn clean(&self) -> bool {
        self.differences == 0 && self.violations == 0 && self.others == 0
    }

    /// Counts a line that differs; the first is named with its bytes.
    pub fn difference(&mut self, case: Option<Case<'_>>, expected: &str, got: &str) {
        if self.differences == 0 {
            self.end_progress();
            println!("first difference of {}", self.what);
            name(case, [("expected", expected), ("got", got)]);
        }
        self.differences += 1;
    }

    /// Counts an expected answer that was held against the original's; the first one against the table is named.
    pub fn hold(&mut self, case: Case<'_>, outcome: Result<Option<Meant>, Violation>) {
        self.held += 1;
        match outcome {
            Ok(None) => {}
            Ok(Some(meant)) => {
                let (cases, lines) = &mut self.intended[meant.entry];
                *cases += 1;
                *lines += meant.lines.len() as u64;
            }
            Err(Violation { original, expected }) => {
                if self.violations == 0 {
                    self.end_progress();
                    println!("not as the table of intended differences says, {}", self.what);
                    name(Some(case), [("original", &original), ("expected", &expected)]);
                }
                self.violations += 1;
            }
        }
    }

    /// Counts an expected answer of the table engine that was held against the division's; the first other is named.
    pub fn divide(&mut self, case: Case<'_>, divided: &[u8], expected: &[u8]) {
        self.divided += 1;
        if divided == expected {
            return;
        }
        if self.others == 0 {
            self.end_progress();
            println!("the tables' answer is not the division's, {}", self.what);
            let other = lines(divided).zip(lines(expected)).find(|(divided, expected)| divided != expected);
            let (divided, expected) = other.map_or((None, None), |(divided, expected)| (Some(divided), Some(expected)));
            name(Some(case), [("division", text_of(divided)), ("tables", text_of(expected))]);
        }
        self.others += 1;
    }

    pub fn summary(&self) -> String {
        let Self { what, cases, lines, differences, .. } = self;
        let mut text = format!("{what}: {cases} cases, {lines} lines, {differences} differences");
        if self.held > 0 {
            let (held, violations) = (self.held, self.violations);
            let _ = write!(text, "; {held} expected answers held against the original's, {violations} not as intended");
        }
        if self.divided > 0 {
            let _ = write!(text, "; {} held against the division's, {} otherwise", self.divided, self.others);
        }
        if self.events > 0 {
            let _ = write!(text, "; {} events", self.events);
        }
        text
    }

    /// A line that is written over, on a terminal alone.
    pub fn progress(&self) {
        if io::stderr().is_terminal() {
            eprint!("\r{}: {} cases ", self.what, self.cases);
            let _ = io::stderr().flush();
        }
    }

    pub fn end_progress(&self) {
        if io::stderr().is_terminal() {
            eprint!("\r{:40}\r", "");
        }
    }
}

/// Names a case and two lines that should have agreed.
fn name(case: Option<Case<'_>>, lines: [(&str, &str); 2]) {
    match case {
        Some(case) => println!("  case:     op {}, {}", case.op, shown(case.argument)),
        None => println!("  case:     none, after the last answer"),
    }
    for (whose, line) in lines {
        println!("  {:9} {}", format!("{whose}:"), line.trim_end());
    }
}

/// The argument in hexadecimal; of a long one the first bytes.
fn shown(argument: &[u8]) -> String {
    let mut text = format!("{} bytes:", argument.len());
    for byte in argument.iter().take(SHOWN_BYTES) {
        let _ = write!(text, " {byte:02X}");
    }
    if argument.len() > SHOWN_BYTES {
        text.push_str(" ..");
    }
    text
}
