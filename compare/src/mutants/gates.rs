//! Mistakes with farthest gates 0 and 1 of request 7: encoded, read, and sent.

use super::writers::BUFFER;
use super::{refused, Mutant};
use crate::model::commands::read;
use crate::model::gates::may_be_farthest;
use crate::model::rules::{Rules, RULES};
use crate::oracle::commands::Encoding;
use crate::oracle::gates::Gates;
use crate::station::STATION;

pub fn mutants() -> Vec<Mutant> {
    let mut all = Vec::new();
    for op in [6, 9, STATION] {
        all.extend(TAKEN.map(|(mistake, gates)| Mutant::rules(op, mistake, Rules { gates, ..RULES })));
    }
    all.extend(ENCODED.map(|(mistake, edit)| Mutant::numbers(6, mistake, edit)));
    all.extend(READ.map(|(mistake, edit)| Mutant::numbers(9, mistake, edit)));
    all
}

const TAKEN: [(&str, fn(u8, u8) -> bool); 18] = [
    ("gates 0 and 1 are taken", |_, _| true),
    ("gate 0 is taken", |moving, stationary| may_be_farthest(or_2(moving, 0), or_2(stationary, 0))),
    ("gate 1 is taken", |moving, stationary| may_be_farthest(or_2(moving, 1), or_2(stationary, 1))),
    ("gate 1 is taken for moving alone", |moving, stationary| may_be_farthest(or_2(moving, 1), stationary)),
    ("gate 1 is taken for stationary alone", |moving, stationary| may_be_farthest(moving, or_2(stationary, 1))),
    ("gate 0 is taken for moving alone", |moving, stationary| may_be_farthest(or_2(moving, 0), stationary)),
    ("gate 0 is taken for stationary alone", |moving, stationary| may_be_farthest(moving, or_2(stationary, 0))),
    ("gates 0 and 1 are refused together alone", |moving, stationary| moving >= 2 || stationary >= 2),
    ("gate 2 is refused", |moving, stationary| moving > 2 && stationary > 2),
    ("gate 2 is refused for moving", |moving, stationary| may_be_farthest(moving, stationary) && moving > 2),
    ("gate 2 is refused for stationary", |moving, stationary| may_be_farthest(moving, stationary) && stationary > 2),
    ("gate 3 is refused", all_but::<3>),
    ("gate 4 is refused", all_but::<4>),
    ("gate 5 is refused", all_but::<5>),
    ("gate 6 is refused", all_but::<6>),
    ("gate 7 is refused", all_but::<7>),
    ("gate 8 is refused", all_but::<8>),
    ("every farthest gate is refused", |_, _| false),
];

/// Whether the gates may be the farthest, and neither is this one.
fn all_but<const GATE: u8>(moving: u8, stationary: u8) -> bool {
    may_be_farthest(moving, stationary) && moving != GATE && stationary != GATE
}

/// 2 in the place of a gate.
fn or_2(gate: u8, taken: u8) -> u8 {
    if gate == taken {
        2
    } else {
        gate
    }
}

type Edit = fn(&[u8], &mut Vec<u64>);

/// Whether an argument of op 6 has a command that the original takes, or would in a longer buffer, and that is refused.
fn is_near(argument: &[u8], line: &[u64]) -> bool {
    let passes = |encoding: Encoding| encoding.command.encode(&mut [0; 30]).is_ok();
    refused(line, 2) && Encoding::of(argument).is_some_and(passes)
}

const ENCODED: [(&str, Edit); 6] = [
    ("the length is tested before gates 0 and 1", |argument, line| {
        if is_near(argument, line) && line.len() < BUFFER + 30 + 2 {
            (line[1], line[2]) = (4, 30);
        }
    }),
    ("gates 0 and 1 get 1", |argument, line| {
        if is_near(argument, line) {
            line[1] = 1;
        }
    }),
    ("gates 0 and 1 get 6", |argument, line| {
        if is_near(argument, line) {
            line[1] = 6;
        }
    }),
    ("a count is told beside gates 0 and 1", |argument, line| {
        if is_near(argument, line) {
            line[2] = 30;
        }
    }),
    ("gates 0 and 1 are written, though refused", |argument, line| {
        if is_near(argument, line) && line.len() > BUFFER + 2 {
            line[BUFFER] = 0xFD;
        }
    }),
    ("gates 0 and 1 have no length", |argument, line| {
        if is_near(argument, line) {
            let last = line.len() - 1;
            line[last] = 0;
        }
    }),
];

/// Whether the bytes would be a command's, were gates 0 and 1 taken.
fn is_near_frame(bytes: &[u8], line: &[u64]) -> bool {
    refused(line, 5) && read(bytes, Gates::Original).is_ok()
}

const READ: [(&str, Edit); 4] = [
    ("the bytes of gates 0 and 1 get 1", |bytes, line| {
        if is_near_frame(bytes, line) {
            line[1] = 1;
        }
    }),
    ("the bytes of gates 0 and 1 get 2", |bytes, line| {
        if is_near_frame(bytes, line) {
            line[1] = 2;
        }
    }),
    ("the command of gates 0 and 1 stands beside 5", |bytes, line| {
        if is_near_frame(bytes, line) {
            line[2] = 2;
        }
    }),
    ("the bytes of gates 0 and 1 are read as gates 2", |bytes, line| {
        if is_near_frame(bytes, line) {
            line[1..6].copy_from_slice(&[0, 2, bytes[10].max(2).into(), bytes[16].max(2).into(), bytes[22].into()]);
        }
    }),
];
