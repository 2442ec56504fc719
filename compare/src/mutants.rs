//! Wrong variants of the expected answers, each a mistake that an implementation could make, and of the table of
//! intended differences. The comparison must notice every one of them.

mod gates;
mod ld2450;
mod loads;
mod parsers;
mod readers;
mod sessions;
mod states;
mod streams;
mod table_engine;
mod tables;
mod writers;

use crate::case::Case;
use crate::expected;
use crate::intended::{self, Intended};
use crate::model::rules::Rules;
use sessions::{edit_events, Seen};

/// Numbers of a closing line; a call's line has more.
const CLOSING: usize = 6;

pub struct Mutant {
    pub op: u8,
    pub mistake: String,
    wrong: Wrong,
}

type EditNumbers = dyn Fn(&[u8], &mut Vec<u64>);
type EditLines = dyn Fn(&[u8], &mut Vec<Vec<u64>>);
type EditArgument = dyn Fn(&mut Vec<u8>);
type EditEvent = dyn Fn(&Seen<'_>, &mut Vec<u64>);

enum Wrong {
    /// The right answer with the numbers of a line changed, seen beside the argument. Number 0 is the op.
    Numbers(Box<EditNumbers>),
    /// The right answer with its lines changed.
    Lines(Box<EditLines>),
    /// The right answer to another argument.
    Argument(Box<EditArgument>),
    /// The answer by other rules.
    Rules(Rules),
    /// The right answer, held against the original's by another table of intended differences.
    Table(Vec<Intended>),
    /// The right answer to a station script with the numbers of an event's line changed, seen beside the event.
    Events(Box<EditEvent>),
}

impl Mutant {
    fn new(op: u8, mistake: impl Into<String>, wrong: Wrong) -> Self {
        Self { op, mistake: mistake.into(), wrong }
    }

    fn numbers(op: u8, mistake: impl Into<String>, edit: impl Fn(&[u8], &mut Vec<u64>) + 'static) -> Self {
        Self::new(op, mistake, Wrong::Numbers(Box::new(edit)))
    }

    fn lines(op: u8, mistake: impl Into<String>, edit: impl Fn(&[u8], &mut Vec<Vec<u64>>) + 'static) -> Self {
        Self::new(op, mistake, Wrong::Lines(Box::new(edit)))
    }

    fn argument(op: u8, mistake: impl Into<String>, edit: impl Fn(&mut Vec<u8>) + 'static) -> Self {
        Self::new(op, mistake, Wrong::Argument(Box::new(edit)))
    }

    fn rules(op: u8, mistake: impl Into<String>, rules: Rules) -> Self {
        Self::new(op, mistake, Wrong::Rules(rules))
    }

    fn table(op: u8, mistake: impl Into<String>, table: Vec<Intended>) -> Self {
        Self::new(op, mistake, Wrong::Table(table))
    }

    fn events(op: u8, mistake: impl Into<String>, edit: impl Fn(&Seen<'_>, &mut Vec<u64>) + 'static) -> Self {
        Self::new(op, mistake, Wrong::Events(Box::new(edit)))
    }

    /// Whether this variant answers a case otherwise than expected; or, a table, is against the right answer.
    pub fn differs(&self, case: Case<'_>, Answer { text: expected, lines }: &Answer) -> bool {
        match &self.wrong {
            Wrong::Numbers(edit) => changed_by(lines, |lines| {
                let answers = lines.iter_mut().filter(|line| !line.is_empty());
                answers.for_each(|line| edit(case.argument, line));
            }),
            Wrong::Lines(edit) => changed_by(lines, |lines| edit(case.argument, lines)),
            Wrong::Argument(edit) => {
                let (mut argument, mut answer) = (case.argument.to_vec(), Vec::new());
                edit(&mut argument);
                expected::answer(Case { op: case.op, argument: &argument }, &mut answer);
                answer != *expected
            }
            Wrong::Rules(rules) => {
                let mut answer = Vec::new();
                expected::answer_by(case, rules, &mut answer);
                answer != *expected
            }
            Wrong::Table(table) => intended::hold(table, case, expected).is_err(),
            Wrong::Events(edit) => changed_by(lines, |lines| edit_events(case.argument, lines, edit)),
        }
    }
}

/// The right answer to a case, as it is printed, and the numbers of each of its lines.
pub struct Answer {
    text: Vec<u8>,
    lines: Vec<Vec<u64>>,
}

impl Answer {
    pub fn to(case: Case<'_>) -> Self {
        let mut text = Vec::new();
        expected::answer(case, &mut text);
        let lines = numbers_of(&text);
        Self { text, lines }
    }
}

/// Whether an edit changes a number of an answer.
fn changed_by(right: &[Vec<u64>], edit: impl FnOnce(&mut Vec<Vec<u64>>)) -> bool {
    let mut lines = right.to_vec();
    edit(&mut lines);
    lines != right
}

/// The wrong variants of an op.
pub fn of(op: u8) -> Vec<Mutant> {
    let mut all = readers::mutants();
    all.extend(states::mutants());
    all.extend(writers::mutants());
    all.extend(gates::mutants());
    all.extend(streams::mutants());
    all.extend(parsers::mutants());
    all.extend(tables::mutants());
    all.extend(sessions::mutants());
    all.extend(ld2450::mutants());
    all.extend(loads::mutants());
    all.extend(table_engine::mutants());
    all.retain(|mutant| mutant.op == op);
    all
}

/// The numbers of each line, negative ones in two's complement; a line without an answer has none.
fn numbers_of(answer: &[u8]) -> Vec<Vec<u64>> {
    let text = std::str::from_utf8(answer).expect("an answer is text");
    let number = |text: &str| text.parse().or_else(|_| text.parse().map(i64::cast_unsigned));
    let numbers = |line: &str| line.split(' ').map(number).collect::<Result<_, _>>();
    text.lines().map(|line| numbers(line).unwrap_or_default()).collect()
}

/// The numbers of the right answer to an argument, line by line.
fn right(op: u8, argument: &[u8]) -> Vec<Vec<u64>> {
    Answer::to(Case { op, argument }).lines
}

/// Makes a line a refusal with every other number 0.
fn refuse(line: &mut [u64], refusal: u64) {
    line[1] = refusal;
    line[2..].fill(0);
}

/// Whether an answer was not refused.
fn accepted(line: &[u64]) -> bool {
    refused(line, 0)
}

/// Whether an answer has this refusal, 0 for none.
fn refused(line: &[u64], refusal: u64) -> bool {
    line[1] == refusal
}
