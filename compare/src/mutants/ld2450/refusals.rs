//! Mistakes in what the reader tells: the refusal, and what stands beside it.

use super::{NAMES, ORDER, READ, TARGET_NUMBERS};
use crate::model::ld2450::frames::{DATA_END, HEADER, TAIL};
use crate::mutants::{accepted, refuse, refused, right, Mutant};
use crate::published;

pub fn mutants() -> Vec<Mutant> {
    let mut all = Vec::new();
    for number in [0, 2, 3, 4, 5, 6] {
        all.push(Mutant::numbers(READ, format!("{number} is given for 1"), move |_, line| {
            if refused(line, 1) {
                line[1] = number;
            }
        }));
    }
    for (target, which) in ORDER.into_iter().enumerate() {
        for (field, name) in NAMES.into_iter().enumerate() {
            all.push(beside(format!("the {which} target's {name} stands beside a refusal"), target, field));
        }
    }
    all.push(Mutant::numbers(READ, "1 is given beside a frame's targets", |_, line| {
        if accepted(line) {
            line[1] = 1;
        }
    }));
    all.push(Mutant::numbers(READ, "a frame has no targets", |_, line| {
        if accepted(line) {
            refuse(line, 0);
        }
    }));
    all.push(Mutant::argument(READ, "the printed frame's targets are given to everything", |bytes| {
        *bytes = published::bytes(published::LD2450);
    }));
    all
}

/// A variant that gives a number of the targets that would be there, had the bytes a header and a tail.
fn beside(mistake: String, target: usize, field: usize) -> Mutant {
    let place = 2 + target * TARGET_NUMBERS + field;
    Mutant::numbers(READ, mistake, move |bytes, line| {
        if let Some(data) = bytes.get(HEADER.len()..DATA_END).filter(|_| refused(line, 1)) {
            line[place] = right(READ, &[&HEADER, data, &TAIL].concat())[0][place];
        }
    })
}
