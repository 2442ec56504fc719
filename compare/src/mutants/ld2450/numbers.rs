//! Mistakes in one number of the targets that are read: of one field, in one target.

use super::{targets_of, NAMES, ORDER, TARGET_NUMBERS};
use crate::model::ld2450::frames::signed;
use crate::mutants::Mutant;

/// Places of a target's numbers in an answer.
const PRESENT: usize = 0;
const SPEED: usize = 3;
const RESOLUTION: usize = 4;

pub fn mutants(op: u8) -> Vec<Mutant> {
    let mut all = resolutions(op);
    for (target, which) in ORDER.into_iter().enumerate() {
        let mistake = format!("the {which} target is there, though absent");
        all.push(of_number(op, mistake, (target, PRESENT), |_| 1));
        for (field, name) in NAMES.into_iter().enumerate() {
            let mistake = format!("the {which} target's {name} is 0");
            all.push(of_number(op, mistake, (target, field), |_| 0));
        }
        for (field, name) in NAMES.into_iter().enumerate().take(SPEED + 1).skip(1) {
            let mistake = format!("the {which} target's {name} has its sign turned");
            all.push(of_number(op, mistake, (target, field), u64::wrapping_neg));
            let mistake = format!("the {which} target's {name} has no sign");
            all.push(of_number(op, mistake, (target, field), |number| number.cast_signed().unsigned_abs()));
        }
    }
    all
}

type Change = fn(u64) -> u64;

/// A variant with one number of one target another.
fn of_number(op: u8, mistake: String, (target, field): (usize, usize), change: Change) -> Mutant {
    Mutant::numbers(op, mistake, move |_, line| {
        if let Some(targets) = targets_of(line) {
            let number = &mut targets[target * TARGET_NUMBERS + field];
            *number = change(*number);
        }
    })
}

const RESOLUTIONS: [(&str, Change); 4] = [
    ("the resolution is signed", |number| i64::from(signed(number as u16)).cast_unsigned()),
    ("the resolution is two's complement", |number| i64::from(number as i16).cast_unsigned()),
    ("the resolution's top bit is cut", |number| number & 0x7FFF),
    ("the resolution is in centimetres", |number| number / 10),
];

/// Mistakes in each target's resolution.
fn resolutions(op: u8) -> Vec<Mutant> {
    let of_each = |(mistake, change): (&str, Change)| {
        Mutant::numbers(op, mistake, move |_, line| {
            for target in targets_of(line).into_iter().flat_map(|targets| targets.chunks_mut(TARGET_NUMBERS)) {
                target[RESOLUTION] = change(target[RESOLUTION]);
            }
        })
    };
    RESOLUTIONS.into_iter().map(of_each).collect()
}
