//! Mistakes with the states of calibration, 04 to 06 of request 3: read alone, in a report, and written.

use std::ops::Range;

use super::writers::{refuse_value, VALUE};
use super::{refuse, Mutant, CLOSING};
use crate::model::rules::{Rules, RULES};
use crate::model::state::{by_lowest_bits, from_byte, without_target, State};

/// Numbers of a REPORT, and places in it.
const REPORT: usize = 50;
const STATE: usize = 0;
const DETECTION: usize = 5;
const EXTRA: usize = 27;
const MOVING: usize = 36;
const STATIONARY: usize = 39;
const ENGINEERING: [Range<usize>; 2] = [6..36, 43..50];

pub fn mutants() -> Vec<Mutant> {
    let mut all = Vec::new();
    for op in [1, 2, 5, 10, 11, 13] {
        all.extend(READ.map(|(mistake, state)| Mutant::rules(op, mistake, Rules { state, ..RULES })));
    }
    for op in [2, 5, 10, 11, 13] {
        all.extend(REPORTED.map(|(mistake, edit)| Mutant::numbers(op, mistake, edit)));
    }
    for op in [2, 5] {
        all.extend(REFUSED.map(|(mistake, edit)| Mutant::numbers(op, mistake, edit)));
    }
    for op in [10, 11, 13] {
        all.extend(DELIVERED.map(|(mistake, edit)| Mutant::lines(op, mistake, edit)));
    }
    all.extend(written());
    all.extend(calibration_values());
    all
}

const READ: [(&str, fn(u8) -> State); 22] = [
    ("04 to 06 are read by the two lowest bits", by_lowest_bits),
    ("04 is read as no target", |byte| if byte == 4 { by_lowest_bits(byte) } else { from_byte(byte) }),
    ("05 is read as a moving target", |byte| if byte == 5 { by_lowest_bits(byte) } else { from_byte(byte) }),
    ("06 is read as a stationary target", |byte| if byte == 6 { by_lowest_bits(byte) } else { from_byte(byte) }),
    ("03 has a state of its own", |byte| if byte == 3 { without_target(3) } else { from_byte(byte) }),
    ("07 has a state of its own", |byte| if byte == 7 { without_target(7) } else { from_byte(byte) }),
    ("07 is read as a failed calibration", |byte| if byte == 7 { without_target(6) } else { from_byte(byte) }),
    ("07 and above have no target", |byte| if byte >= 7 { without_target(0) } else { from_byte(byte) }),
    ("0C is read as calibration, by the three lowest bits", |byte| from_byte(byte % 8)),
    ("14 is read as calibration, by the four lowest bits", |byte| from_byte(byte % 16)),
    ("85 is read as calibration, without the top bit", |byte| from_byte(byte & 0x7F)),
    ("the three are no target", |byte| own(byte, |_| without_target(0))),
    ("the three are one state", |byte| own(byte, |_| without_target(4))),
    ("the three have the numbers of their lowest bits", |byte| own(byte, |byte| without_target(byte & 3))),
    ("the three have the numbers 3 to 5", |byte| own(byte, |byte| without_target(byte - 1))),
    ("running and failed are swapped", |byte| own(byte, |byte| without_target(10 - byte))),
    ("a calibration that is done has a moving target", |byte| match byte {
        5 => State { moving: true, present: true, ..without_target(5) },
        _ => from_byte(byte),
    }),
    ("a failed calibration has a stationary target", |byte| match byte {
        6 => State { stationary: true, present: true, ..without_target(6) },
        _ => from_byte(byte),
    }),
    ("the three have the targets of their lowest bits", |byte| {
        own(byte, |byte| State { number: byte, ..by_lowest_bits(byte) })
    }),
    ("the three have both targets", |byte| own(byte, |byte| State { number: byte, ..by_lowest_bits(3) })),
    ("the three are present", |byte| own(byte, |byte| State { present: true, ..without_target(byte) })),
    ("a running calibration is present", |byte| match byte {
        4 => State { present: true, ..without_target(4) },
        _ => from_byte(byte),
    }),
];

/// Another reading of the three.
fn own(byte: u8, read: fn(u8) -> State) -> State {
    match byte {
        4..=6 => read(byte),
        _ => from_byte(byte),
    }
}

type Edit = fn(&[u8], &mut Vec<u64>);

const REPORTED: [(&str, Edit); 6] = [
    ("the engineering block of a calibration is not read", |_, line| {
        if let Some(report) = calibration(line) {
            ENGINEERING.into_iter().for_each(|numbers| report[numbers].fill(0));
        }
    }),
    ("the reserved bytes of a calibration are not kept", |_, line| {
        if let Some(report) = calibration(line) {
            report[EXTRA..MOVING - 1].fill(0);
        }
    }),
    ("the distances and energies of a calibration are 0", |_, line| {
        if let Some(report) = calibration(line) {
            report[STATE + 1..DETECTION].fill(0);
        }
    }),
    ("the detection distance of a calibration is 0", |_, line| {
        if let Some(report) = calibration(line) {
            report[DETECTION] = 0;
        }
    }),
    ("a moving target that is not there has a distance", |_, line| {
        if let Some(report) = calibration(line) {
            report[MOVING + 1] = report[1];
        }
    }),
    ("a stationary target that is not there has an energy", |_, line| {
        if let Some(report) = calibration(line) {
            report[STATIONARY + 2] = report[4];
        }
    }),
];

/// The REPORT of a line of op 2 or 5 or of a call, if its state is one of the three.
fn calibration(line: &mut [u64]) -> Option<&mut [u64]> {
    let start = if line.first() == Some(&2) { 2 } else { 3 };
    let report = line.get_mut(start..start + REPORT)?;
    (4..=6).contains(&report[STATE]).then_some(report)
}

const REFUSED: [(&str, Edit); 2] = [
    ("a calibration gets 1", |_, line| {
        if calibration(line).is_some() {
            refuse(line, 1);
        }
    }),
    ("a failed calibration gets 2", |_, line| {
        if calibration(line).is_some_and(|report| report[STATE] == 6) {
            refuse(line, 2);
        }
    }),
];

type EditLines = fn(&[u8], &mut Vec<Vec<u64>>);

const DELIVERED: [(&str, EditLines); 2] = [
    ("a calibration is not delivered", |_, lines| {
        for line in lines {
            if calibration(line).is_some() {
                line[2..].fill(0);
            }
        }
    }),
    ("a calibration is counted as malformed", |_, lines| {
        let reports = lines.iter_mut().filter_map(|line| calibration(line)).count() as u64;
        if let Some(closing) = lines.last_mut().filter(|line| line.len() == CLOSING) {
            closing[1] = closing[1].wrapping_sub(reports);
            closing[4] = closing[4].wrapping_add(reports);
        }
    }),
];

/// The state of a report value.
fn state(argument: &mut [u8]) -> Option<&mut u8> {
    argument.get_mut(VALUE)
}

/// States that are written as another, or are none.
fn written() -> Vec<Mutant> {
    vec![
        Mutant::argument(7, "05 is written as 01", |argument| {
            if let Some(state @ 5) = state(argument) {
                *state = 1;
            }
        }),
        Mutant::argument(7, "the two lowest bits of 04 to 06 are written", |argument| {
            if let Some(state @ 4..=6) = state(argument) {
                *state &= 3;
            }
        }),
        Mutant::argument(7, "states 4 to 6 are none", |argument| {
            if let Some(state @ 4..=6) = state(argument) {
                *state = 255;
            }
        }),
        Mutant::argument(7, "state 6 is none", |argument| {
            if let Some(state @ 6) = state(argument) {
                *state = 255;
            }
        }),
        Mutant::argument(7, "state 7 is taken as 3", |argument| {
            if let Some(state @ 7) = state(argument) {
                *state = 3;
            }
        }),
        Mutant::argument(7, "a state above 7 is taken by its two lowest bits", |argument| {
            if let Some(state @ 8..) = state(argument) {
                *state &= 3;
            }
        }),
    ]
}

/// Values of a calibration that are refused, or not written whole.
fn calibration_values() -> Vec<Mutant> {
    vec![
        Mutant::numbers(7, "04 is refused with 6", |argument, line| {
            if argument[VALUE] == 4 {
                refuse_value(argument, line);
            }
        }),
        Mutant::numbers(7, "a calibration with a distance is refused", |argument, line| {
            if matches!(argument[VALUE..], [4..=6, low, high, ..] if [low, high] != [0, 0]) {
                refuse_value(argument, line);
            }
        }),
        Mutant::numbers(7, "a calibration with an engineering block is refused", |argument, line| {
            if matches!(argument[VALUE..], [4..=6, _, _, _, _, _, _, _, _, flag, ..] if flag != 0) {
                refuse_value(argument, line);
            }
        }),
        Mutant::argument(7, "the engineering block of a calibration is not written", |argument| {
            if let Some([4..=6, ..]) = argument.get(VALUE..VALUE + 39) {
                argument[VALUE + 9..].fill(0);
            }
        }),
    ]
}
