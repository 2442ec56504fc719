//! Mistakes in the bytes of a frame that is written.

use super::{by, NAMES, ORDER, WRITE};
use crate::model::ld2450::frames::{bits, DATA_END, FRAME, HEADER, TARGET};
use crate::model::ld2450::{Rules, RULES};
use crate::mutants::writers::BUFFER;
use crate::mutants::{accepted, Mutant};
use crate::published;

/// The resolution's place among a target's four fields.
const RESOLUTION: usize = 3;

pub fn mutants() -> Vec<Mutant> {
    let mut all = Vec::new();
    all.extend(BITS.map(|(mistake, bits)| by(WRITE, mistake, Rules { bits, ..RULES })));
    all.extend(TARGETS.map(|(mistake, change)| of_targets(mistake, change)));
    all.extend((0..FRAME).map(unwritten));
    all.extend((0..HEADER.len()).chain(DATA_END..FRAME).map(|place| {
        of_frame(format!("byte {} of the frame is another", place + 1), move |_, frame| frame[place] ^= 1)
    }));
    all.extend(fields());
    all.extend((0..3).flat_map(fields_of));
    all.push(of_frame("the printed frame is written for every value", |_, frame| {
        let printed = published::bytes(published::LD2450);
        frame.iter_mut().zip(printed).for_each(|(slot, byte)| *slot = byte.into());
    }));
    all
}

type Bits = fn(i16) -> Option<u16>;

const BITS: [(&str, Bits); 6] = [
    ("0 is written as 00 00", |number| bits(number).map(|bits| if number == 0 { 0 } else { bits })),
    ("the sign is turned", |number| bits(number).map(|bits| bits ^ 0x8000)),
    ("a number is written in two's complement", |number| bits(number).map(|_| number as u16)),
    ("the top bit is never set", |number| bits(number).map(|bits| bits & 0x7FFF)),
    ("the top bit is always set", |number| bits(number).map(|bits| bits | 0x8000)),
    ("a negative number is one's complement", |number| {
        bits(number).map(|bits| if number < 0 { !(number as u16) } else { bits })
    }),
];

/// A variant with the bytes of a written frame changed, seen beside what the buffer was filled with.
fn of_frame(mistake: impl Into<String>, change: impl Fn(u64, &mut [u64]) + 'static) -> Mutant {
    Mutant::numbers(WRITE, mistake, move |argument, line| {
        if accepted(line) {
            change(argument[2].into(), &mut line[BUFFER..BUFFER + FRAME]);
        }
    })
}

fn unwritten(place: usize) -> Mutant {
    of_frame(format!("byte {} of the frame is not written", place + 1), move |fill, frame| frame[place] = fill)
}

type Targets = [[u64; TARGET]; 3];

/// A variant with the targets of a written frame changed.
fn of_targets(mistake: impl Into<String>, change: impl Fn(&mut Targets) + 'static) -> Mutant {
    of_frame(mistake, move |_, frame| {
        let data = &mut frame[HEADER.len()..DATA_END];
        let mut targets = std::array::from_fn(|place| std::array::from_fn(|byte| data[place * TARGET + byte]));
        change(&mut targets);
        data.copy_from_slice(targets.as_flattened());
    })
}

fn absent(target: &[u64; TARGET]) -> bool {
    *target == [0; TARGET]
}

type Change = fn(&mut Targets);

const TARGETS: [(&str, Change); 9] = [
    ("the targets are written in turned order", |targets| targets.reverse()),
    ("targets move up where one is absent", |targets| targets.sort_by_key(absent)),
    ("there is none after an absent target", |targets| {
        targets.iter_mut().skip_while(|target| !absent(target)).for_each(|target| target.fill(0));
    }),
    ("an absent target is written as zeros of one that is there", |targets| {
        let zero = [0x00, 0x80, 0x00, 0x80, 0x00, 0x80, 0x00, 0x00];
        targets.iter_mut().filter(|target| absent(target)).for_each(|target| *target = zero);
    }),
    ("an absent target is written as FF", |targets| {
        targets.iter_mut().filter(|target| absent(target)).for_each(|target| target.fill(0xFF));
    }),
    ("a target with all fields 0 is written as absent", |targets| {
        let zero = [0x00, 0x80, 0x00, 0x80, 0x00, 0x80, 0x00, 0x00];
        targets.iter_mut().filter(|target| **target == zero).for_each(|target| target.fill(0));
    }),
    ("a resolution of 0 is written as 00 80", |targets| {
        let zero = |target: &&mut [u64; TARGET]| !absent(target) && target[6..] == [0, 0];
        targets.iter_mut().filter(zero).for_each(|target| target[7] = 0x80);
    }),
    ("a resolution's top bit is cut", |targets| targets.iter_mut().for_each(|target| target[7] &= 0x7F)),
    ("a resolution is written with its top bit set", |targets| {
        targets.iter_mut().filter(|target| !absent(target)).for_each(|target| target[7] |= 0x80);
    }),
];

/// Fields in the other byte order, and in each other's places.
fn fields() -> Vec<Mutant> {
    let mut all = Vec::new();
    for a in 0..=RESOLUTION {
        let name = NAMES[1 + a];
        all.push(of_targets(format!("the {name} is written big-endian"), move |targets| {
            targets.iter_mut().for_each(|target| target.swap(2 * a, 2 * a + 1));
        }));
        for b in 0..a {
            all.push(of_targets(format!("the {name} and the {} are swapped", NAMES[1 + b]), move |targets| {
                targets.iter_mut().for_each(|target| {
                    target.swap(2 * a, 2 * b);
                    target.swap(2 * a + 1, 2 * b + 1);
                });
            }));
        }
    }
    all
}

/// Mistakes in one target's bytes.
fn fields_of(place: usize) -> Vec<Mutant> {
    let which = ORDER[place];
    let mut all = Vec::new();
    for (field, name) in NAMES.into_iter().skip(1).take(RESOLUTION).enumerate() {
        let high = 2 * field + 1;
        all.push(of_targets(format!("the {which} target's {name} of 0 is written as 00 00"), move |targets| {
            let target = &mut targets[place];
            target[high] ^= if target[high - 1..=high] == [0x00, 0x80] { 0x80 } else { 0 };
        }));
        all.push(of_targets(format!("the {which} target's {name} has its sign turned"), move |targets| {
            let target = &mut targets[place];
            target[high] ^= if absent(target) { 0 } else { 0x80 };
        }));
    }
    all.push(of_targets(format!("the {which} target is written as absent"), move |targets| targets[place].fill(0)));
    for other in (0..3).filter(|&other| other != place) {
        let mistake = format!("the {which} target is written as the {} too", ORDER[other]);
        all.push(of_targets(mistake, move |targets| targets[other] = targets[place]));
    }
    all
}
