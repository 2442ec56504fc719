//! Mistakes in the first table: each byte with another class.

use super::{by, Mutant};
use crate::model::table_engine::{Classes, Rules, OTHER, PARTS, RULES};

/// Bytes of no part that are tried with every class: next to a part's, the lowest, the highest, and one of a report.
const NEAR: [u8; 8] = [0x00, 0x05, 0x55, 0xF0, 0xF9, 0xFE, 0xFF, 0x7F];

pub fn mutants(op: u8) -> Vec<Mutant> {
    let mut all = Vec::new();
    for class in 0..OTHER {
        all.push(reclassed(op, (byte(class), OTHER)));
        let others = (1..4).map(|parts| (class + 4 * parts) % OTHER);
        all.extend(others.map(|other| reclassed(op, (byte(class), other))));
        all.push(exchanged(op, class, class / 4 * 4 + (class + 1) % 4));
    }
    for other in (0..=255).filter(|&byte| RULES.classes[usize::from(byte)] == OTHER) {
        let classes = (0..OTHER).filter(|class| NEAR.contains(&other) || other % OTHER == *class);
        all.extend(classes.map(|class| reclassed(op, (other, class))));
    }
    all.extend(WHOLE_TABLE.map(|(mistake, class)| {
        let classes = std::array::from_fn(|byte| class(byte as u8));
        with(op, mistake, classes)
    }));
    all
}

/// The byte of a class.
fn byte(class: u8) -> u8 {
    PARTS[usize::from(class / 4)][usize::from(class % 4)]
}

fn with(op: u8, mistake: impl Into<String>, classes: Classes) -> Mutant {
    by(op, mistake, Rules { classes, ..RULES })
}

fn reclassed(op: u8, (byte, class): (u8, u8)) -> Mutant {
    let mut classes = RULES.classes;
    classes[usize::from(byte)] = class;
    with(op, format!("byte {byte:02X} has class {class}"), classes)
}

fn exchanged(op: u8, one: u8, other: u8) -> Mutant {
    let (one, other) = (byte(one), byte(other));
    let mut classes = RULES.classes;
    classes.swap(one.into(), other.into());
    with(op, format!("bytes {one:02X} and {other:02X} have each other's class"), classes)
}

const WHOLE_TABLE: [(&str, fn(u8) -> u8); 5] = [
    ("bytes from 80 on are read outside the first table", |byte| if byte < 0x80 { right(byte) } else { OTHER }),
    ("bytes from 80 on are read 80 places before", |byte| right(byte & 0x7F)),
    ("the first table is read a place after the byte", |byte| right(byte.wrapping_add(1))),
    ("both families have one class for each place", |byte| match right(byte) {
        OTHER => OTHER,
        class => class & !4,
    }),
    ("headers and tails have one class for each place", |byte| match right(byte) {
        OTHER => OTHER,
        class => class % 8,
    }),
];

fn right(byte: u8) -> u8 {
    RULES.classes[usize::from(byte)]
}
