//! Mistakes in the second table: each entry with other states.

use super::{by, Mutant};
use crate::model::table_engine::{due, Nexts, Rules, OTHER, RULES};

pub fn mutants(op: u8) -> Vec<Mutant> {
    let mut all = Vec::new();
    for state in 0..16 {
        for class in 0..=OTHER {
            all.extend(wrong(state, class).into_iter().map(|wrong| replaced(op, (state, class), wrong)));
        }
    }
    all.extend(WHOLE_TABLE.map(|(mistake, next)| {
        let nexts = std::array::from_fn(|state| std::array::from_fn(|class| next(state, class)));
        by(op, mistake, Rules { nexts, ..RULES })
    }));
    all
}

/// States that an entry is mistaken for. For a byte that is due: no part, the state itself, the one after it, and where
/// the other family's byte leads; for any other: no part, the first byte of each header, and where the due byte leads.
/// State 4 is none of them: nothing of a header is matched there as in state 0, and their rows are equal.
fn wrong(state: u8, class: u8) -> Vec<u8> {
    let mut wrong = match class == state {
        true => vec![0, state, state + 1, due(state ^ 4)],
        false => vec![0, due(0), due(4), due(state)],
    };
    let right = right(state.into(), class.into());
    wrong.retain(|&next| next != right && next != 4);
    wrong.sort_unstable();
    wrong.dedup();
    wrong
}

fn replaced(op: u8, (state, class): (u8, u8), wrong: u8) -> Mutant {
    let mut nexts: Nexts = RULES.nexts;
    nexts[usize::from(state)][usize::from(class)] = wrong;
    by(op, format!("class {class} in state {state} leads to {wrong}"), Rules { nexts, ..RULES })
}

fn right(state: usize, class: usize) -> u8 {
    RULES.nexts[state][class]
}

type Next = fn(usize, usize) -> u8;

const WHOLE_TABLE: [(&str, Next); 4] = [
    ("the second table is read by class and state", |state, class| match class {
        0..16 => right(class, state),
        _ => right(state, class),
    }),
    ("the second table is read in rows of 16", |state, class| {
        let place = 16 * state + class;
        right(place / 17, place % 17)
    }),
    ("a header of one family goes on with the other's", |state, class| match state {
        0..8 if class == state ^ 4 => due(state as u8),
        _ => right(state, class),
    }),
    ("a tail goes on with the other family's", |state, class| match state {
        8..16 if class == state ^ 4 => due(state as u8),
        _ => right(state, class),
    }),
];
