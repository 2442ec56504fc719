//! The table of intended differences: which lines our program answers otherwise than the original, in which numbers,
//! and why. By it an expected answer is held against the original's: lines that are meant differ, all others do not.

mod gates;

use std::ops::{Range, RangeInclusive};

use ld2410::{Frame, Report};

use crate::case::Case;
use crate::expected::beside_original;
use crate::line::{lines, text_of};
use crate::oracle;
use crate::oracle::readers::{STATE_IN_DATA, STATE_IN_FRAME};
use crate::oracle::streams::delivering;

type StateBytes = RangeInclusive<u8>;

/// The inputs that are meant.
#[derive(Clone)]
pub enum Inputs {
    /// Those with such a state byte; the lines of the answer to an argument that have one, by their places.
    States(StateBytes, fn(&[u8], &StateBytes) -> Vec<usize>),
    /// A `SetMaxGates` with such farthest gates, the moving one and the stationary one.
    Gates(fn(u8, u8) -> bool),
}

#[derive(Clone)]
pub struct Intended {
    pub op: u8,
    pub inputs: Inputs,
    /// The numbers of such a line that may differ, by their places, the op's being 0: the state or the refusal, and
    /// what follows from it.
    pub numbers: [Range<usize>; 2],
    /// How many numbers at the end of such a line have no such place, and whether they may differ.
    pub end: (usize, bool),
    pub reason: &'static str,
}

pub const TABLE: [Intended; 11] = [
    calibration(1, alone, [1..2, 2..5]),
    calibration(2, in_data, of_report(2)),
    calibration(5, in_frame, of_report(3)),
    calibration(10, |script, states| delivering(10, script, states), of_report(3)),
    calibration(11, |script, states| delivering(11, script, states), of_report(3)),
    calibration(13, |argument, states| delivering(13, argument, states), of_report(3)),
    calibration(16, |script, states| delivering(16, script, states), of_report(3)),
    calibration(17, |argument, states| delivering(17, argument, states), of_report(3)),
    // After the buffer stand the word and the length of the frame, or where the session is.
    farthest_gates(6, 2..FRAME_END, (2, false)),
    farthest_gates(9, 2..8, (0, false)),
    farthest_gates(20, 2..FRAME_END, (2, true)),
];

const fn calibration(op: u8, lines: fn(&[u8], &StateBytes) -> Vec<usize>, numbers: [Range<usize>; 2]) -> Intended {
    let reason = "state bytes 04 to 06 are states of their own, without any target (request 3)";
    Intended { op, inputs: Inputs::States(0x04..=0x06, lines), numbers, end: (0, false), reason }
}

/// Where the frame ends in the line of a buffer: the op, the refusal and the count stand before its 30 bytes.
const FRAME_END: usize = 3 + 30;

const fn farthest_gates(op: u8, besides: Range<usize>, end: (usize, bool)) -> Intended {
    let reason = "farthest gates 0 and 1 are refused (request 7)";
    Intended { op, inputs: Inputs::Gates(near), numbers: [1..2, besides], end, reason }
}

/// The highest gate that the original takes.
const HIGHEST: u8 = 8;

/// A farthest gate is 0 or 1, and none is above 8: with such a one the original gives 2 as well.
fn near(moving: u8, stationary: u8) -> bool {
    (moving < 2 || stationary < 2) && moving <= HIGHEST && stationary <= HIGHEST
}

/// The state, and the seven numbers of `moving`, `stationary` and `present`, of a REPORT that starts at this place.
const fn of_report(start: usize) -> [Range<usize>; 2] {
    [start..start + 1, start + 36..start + 43]
}

fn alone(argument: &[u8], states: &StateBytes) -> Vec<usize> {
    first_line(argument.first().is_some_and(|byte| states.contains(byte)))
}

/// Data that the reader accepts.
fn in_data(data: &[u8], states: &StateBytes) -> Vec<usize> {
    first_line(Report::parse(data).is_ok() && states.contains(&data[STATE_IN_DATA]))
}

/// A frame that the reader accepts.
fn in_frame(bytes: &[u8], states: &StateBytes) -> Vec<usize> {
    first_line(matches!(Frame::parse(bytes), Ok(Frame::Report(_))) && states.contains(&bytes[STATE_IN_FRAME]))
}

/// The one line of an answer, if it is meant.
fn first_line(meant: bool) -> Vec<usize> {
    if meant {
        vec![0]
    } else {
        Vec::new()
    }
}

impl Intended {
    /// The lines of the answer to an argument that are meant, by their places.
    fn lines(&self, argument: &[u8]) -> Vec<usize> {
        match &self.inputs {
            Inputs::States(states, lines) => lines(argument, states),
            Inputs::Gates(meant) => gates::lines(self.op, argument, *meant),
        }
    }

    /// Whether a line differs from the original's as is meant: in a number that may, and in no other.
    fn allows(&self, expected: &[u8], original: &[u8]) -> bool {
        let (ours, originals) = (numbers(expected), numbers(original));
        let (last, may) = self.end;
        let may_differ = |place: usize| match place + last < ours.len() {
            true => self.numbers.iter().any(|numbers| numbers.contains(&place)),
            false => may,
        };
        let as_meant = |place: usize| may_differ(place) || ours[place] == originals[place];
        expected != original && ours.len() == originals.len() && (0..ours.len()).all(as_meant)
    }
}

/// The numbers of a line, as they are printed.
fn numbers(line: &[u8]) -> Vec<&[u8]> {
    line.split(|&byte| byte == b' ').collect()
}

/// The lines of an answer that fall under an entry: its place in the table, and theirs in the answer.
pub struct Meant {
    pub entry: usize,
    pub lines: Vec<usize>,
}

/// What of a case falls under a table, if anything does.
fn meant(table: &[Intended], case: Case<'_>) -> Option<Meant> {
    let of_op = table.iter().enumerate().filter(|(_, entry)| entry.op == case.op);
    let mut meant = of_op.map(|(place, entry)| Meant { entry: place, lines: entry.lines(case.argument) });
    meant.find(|meant| !meant.lines.is_empty())
}

/// A line that is not as the table says, and the original's.
pub struct Violation {
    pub original: String,
    pub expected: String,
}

/// Holds an expected answer, its counters lowered, against the original's: each line that is meant differs as its entry
/// allows, and each other is equal. Gives what was meant, or the first line of which this does not hold.
pub fn hold(table: &[Intended], case: Case<'_>, expected: &[u8]) -> Result<Option<Meant>, Violation> {
    let mut original = Vec::new();
    oracle::answer(case, &mut original);
    let expected = beside_original(case.op, expected);
    let meant = meant(table, case);
    let holds = |place: usize, ours: &[u8], original: &[u8]| match &meant {
        Some(meant) if meant.lines.contains(&place) => table[meant.entry].allows(ours, original),
        _ => ours == original,
    };
    let (mut ours, mut originals) = (lines(&expected), lines(&original));
    for place in 0.. {
        match (ours.next(), originals.next()) {
            (None, None) => break,
            (Some(ours), Some(original)) if holds(place, ours, original) => {}
            (ours, original) => {
                return Err(Violation { original: text_of(original).into(), expected: text_of(ours).into() });
            }
        }
    }
    Ok(meant)
}
