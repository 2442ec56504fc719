//! Mistakes in the table of intended differences: each op's entry away, too wide, too narrow, or about other numbers.

use super::Mutant;
use crate::intended::{Inputs, Intended, TABLE};
use crate::station::STATION;

pub fn mutants() -> Vec<Mutant> {
    let mut all = Vec::new();
    for entry in TABLE {
        let changes: &[_] = match entry.inputs {
            Inputs::States(..) => &CALIBRATION,
            Inputs::Gates(_) => &FARTHEST_GATES,
        };
        for (mistake, change) in changes.iter().chain(&NUMBERS) {
            all.push(Mutant::table(entry.op, *mistake, with(entry.op, *change)));
        }
    }
    // No frame is read as a command with a gate above 8, so op 9 has nothing of these.
    for op in [6, STATION] {
        all.extend(ABOVE_8.map(|(mistake, change)| Mutant::table(op, mistake, with(op, change))));
    }
    let keeps_the_session = |mut entry: Intended| {
        entry.end.1 = false;
        Some(entry)
    };
    all.push(Mutant::table(STATION, "the entry lets the session not differ", with(STATION, keeps_the_session)));
    all
}

/// The table with another entry for an op.
fn with(op: u8, change: Change) -> Vec<Intended> {
    let changed = |entry: Intended| if entry.op == op { change(entry) } else { Some(entry) };
    TABLE.into_iter().filter_map(changed).collect()
}

type Change = fn(Intended) -> Option<Intended>;

const NUMBERS: [(&str, Change); 3] = [
    ("the table has no entry", |_| None),
    ("the entry lets the state or the refusal alone differ", |mut entry| {
        entry.numbers[1] = 0..0;
        Some(entry)
    }),
    ("the entry lets all but the state or the refusal differ", |mut entry| {
        entry.numbers[0] = 0..0;
        Some(entry)
    }),
];

const CALIBRATION: [(&str, Change); 4] = [
    ("the entry has 07 too", |entry| states(entry, 0x04, 0x07)),
    ("the entry has 03 too", |entry| states(entry, 0x03, 0x06)),
    ("the entry has all but 04", |entry| states(entry, 0x05, 0x06)),
    ("the entry has all but 06", |entry| states(entry, 0x04, 0x05)),
];

/// The entry with other state bytes.
fn states(entry: Intended, first: u8, last: u8) -> Option<Intended> {
    let Inputs::States(_, lines) = entry.inputs else {
        return None;
    };
    Some(Intended { inputs: Inputs::States(first..=last, lines), ..entry })
}

const FARTHEST_GATES: [(&str, Change); 6] = [
    ("the entry has gate 2 too", |entry| gates(entry, |m, s| m.min(s) < 3 && m.max(s) <= 8)),
    ("the entry has all gates up to 8", |entry| gates(entry, |m, s| m.max(s) <= 8)),
    ("the entry has all but gate 0", |entry| gates(entry, |m, s| m.min(s) == 1 && m.max(s) <= 8)),
    ("the entry has all but gate 1", |entry| gates(entry, |m, s| m.min(s) == 0 && m.max(s) <= 8)),
    ("the entry has moving gates alone", |entry| gates(entry, |m, s| m < 2 && s <= 8)),
    ("the entry has stationary gates alone", |entry| gates(entry, |m, s| s < 2 && m <= 8)),
];

const ABOVE_8: [(&str, Change); 2] = [
    ("the entry has 0 and 1 beside gates above 8 too", |entry| gates(entry, |m, s| m.min(s) < 2)),
    ("the entry has gates above 8 too", |entry| gates(entry, |m, s| m.min(s) < 2 || m.max(s) > 8)),
];

/// The entry with other farthest gates.
fn gates(entry: Intended, meant: fn(u8, u8) -> bool) -> Option<Intended> {
    Some(Intended { inputs: Inputs::Gates(meant), ..entry })
}
