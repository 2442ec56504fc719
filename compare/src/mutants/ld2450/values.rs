//! Mistakes in which values the writer takes: 6 for too few of them, or for too many.

use super::{by, NAMES, ORDER, WRITE};
use crate::generate::ld2450::values::VALUE;
use crate::model::ld2450::frames::{all_zero, bits, Target};
use crate::model::ld2450::{Rules, RULES};
use crate::mutants::writers::refuse_value;
use crate::mutants::{accepted, Mutant};

/// Bytes of an argument before the value, and of the whole.
const BEFORE: usize = 3;
const ARGUMENT: usize = BEFORE + 3 * VALUE;

pub fn mutants() -> Vec<Mutant> {
    let mut all = Vec::new();
    all.extend(BITS.map(|(mistake, bits)| by(WRITE, mistake, Rules { bits, ..RULES })));
    all.extend(ALL_ZERO.map(|(mistake, all_zero)| by(WRITE, mistake, Rules { all_zero, ..RULES })));
    for target in 0..3 {
        all.extend(taken(target));
        all.extend(refused(target));
        all.extend(flags(target));
    }
    all.extend(arguments());
    all
}

type Bits = fn(i16) -> Option<u16>;

const BITS: [(&str, Bits); 6] = [
    ("-32,768 is written as 00 00", |number| if number == i16::MIN { Some(0x0000) } else { bits(number) }),
    ("-32,768 is written as 00 80", |number| if number == i16::MIN { Some(0x8000) } else { bits(number) }),
    ("-32,768 is written as -32,767", |number| bits(number.max(-32_767))),
    ("6 is given to every negative number", |number| bits(number).filter(|_| number >= 0)),
    ("6 is given to numbers past 16,383", |number| bits(number).filter(|_| number.unsigned_abs() < 0x4000)),
    ("6 is given to 0", |number| bits(number).filter(|_| number != 0)),
];

type AllZero = fn(&Target) -> bool;

const ALL_ZERO: [(&str, AllZero); 7] = [
    ("an absent target is not looked at", |_| true),
    ("6 is given to every absent target", |_| false),
    ("an absent target may have an x", |target| all_zero(&Target { x: 0, ..*target })),
    ("an absent target may have a y", |target| all_zero(&Target { y: 0, ..*target })),
    ("an absent target may have a speed", |target| all_zero(&Target { speed: 0, ..*target })),
    ("an absent target may have a resolution", |target| all_zero(&Target { resolution: 0, ..*target })),
    ("-32,768 is 0 in an absent target", |target| all_zero(&Target { x: target.x & i16::MAX, ..*target })),
];

/// The value of a target in an argument: its presence, and its fields.
fn value_of(argument: &mut [u8], target: usize) -> Option<(&mut u8, &mut [u8])> {
    argument.get_mut(..ARGUMENT)?[BEFORE + target * VALUE..][..VALUE].split_first_mut()
}

/// Numbers of one target that get 6, and are taken.
fn taken(target: usize) -> Vec<Mutant> {
    let which = ORDER[target];
    let mut all = Vec::new();
    for (field, name) in NAMES.into_iter().skip(1).enumerate() {
        let mistake = format!("the {which} target's {name} may be there, though it is absent");
        all.push(Mutant::argument(WRITE, mistake, move |argument| {
            if let Some((0, fields)) = value_of(argument, target) {
                fields[2 * field..][..2].fill(0);
            }
        }));
    }
    for (field, name) in NAMES.into_iter().skip(1).take(3).enumerate() {
        let mistake = format!("the {which} target's {name} may be -32,768");
        all.push(Mutant::argument(WRITE, mistake, move |argument| {
            if let Some((1.., fields)) = value_of(argument, target) {
                let field = &mut fields[2 * field..][..2];
                field[1] ^= if *field == [0x00, 0x80] { 0x80 } else { 0 };
            }
        }));
    }
    all
}

/// Ends of a field's range.
const ENDS: [(&str, u16); 4] = [("-32,767", 0x8001), ("32,767", 0x7FFF), ("-1", 0xFFFF), ("0", 0x0000)];

/// Numbers of one target that are taken, and get 6.
fn refused(target: usize) -> Vec<Mutant> {
    let mut all = Vec::new();
    for (field, name) in NAMES.into_iter().skip(1).take(3).enumerate() {
        all.extend(ENDS.map(|(text, bits)| refusing(target, (field, name), (text, bits))));
    }
    let resolutions = [("0", 0x0000), ("32,768", 0x8000), ("65,535", 0xFFFF)];
    all.extend(resolutions.map(|(text, bits)| refusing(target, (3, "resolution"), (text, bits))));
    all
}

/// A variant that gives 6 where a field of a target that is there has this number.
fn refusing(target: usize, (field, name): (usize, &str), (text, bits): (&str, u16)) -> Mutant {
    let mistake = format!("6 is given to the {} target's {name} of {text}", ORDER[target]);
    Mutant::numbers(WRITE, mistake, move |argument, line| {
        let mut value = argument.to_vec();
        let fields = value_of(&mut value, target).filter(|(present, _)| **present != 0);
        let found = fields.is_some_and(|(_, fields)| fields[2 * field..][..2] == bits.to_le_bytes());
        if accepted(line) && found {
            refuse_value(argument, line);
        }
    })
}

/// Mistakes in whether one target is there.
fn flags(target: usize) -> [Mutant; 4] {
    let which = ORDER[target];
    let flag = |mistake: String, change: fn((&mut u8, &mut [u8]))| {
        Mutant::argument(WRITE, mistake, move |argument| {
            if let Some(value) = value_of(argument, target) {
                change(value);
            }
        })
    };
    [
        flag(format!("the {which} target is there if its flag is 1 alone"), |(present, _)| {
            *present = u8::from(*present == 1)
        }),
        flag(format!("the {which} target is there if its flag is odd"), |(present, _)| *present %= 2),
        flag(format!("the {which} target is there if a field is not 0"), |(present, fields)| {
            *present = u8::from(fields.iter().any(|&byte| byte != 0));
        }),
        flag(format!("the {which} target is always there"), |(present, _)| *present = 1),
    ]
}

/// Mistakes with the bytes of an argument.
fn arguments() -> [Mutant; 2] {
    [
        Mutant::argument(WRITE, "an argument that is cut short has zeros after it", |argument| {
            argument.resize(argument.len().max(ARGUMENT), 0);
        }),
        Mutant::argument(WRITE, "an argument that goes on has no answer", |argument| {
            if argument.len() > ARGUMENT {
                argument.clear();
            }
        }),
    ]
}
