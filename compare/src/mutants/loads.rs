//! Mistakes with the load of request 8.

use super::{accepted, refuse, refused, Mutant};
use crate::model::loads::{chosen, piece, report, xor_left, xor_right, Generator, Rules};
use crate::model::loads::{AFTER, BEFORE, MOST, PRINTED, RULES};
use crate::model::rules;

const LOAD: u8 = 15;

pub fn mutants() -> Vec<Mutant> {
    let mut all = Vec::new();
    all.extend(NEXT.map(|(mistake, next)| by(mistake, Rules { next, ..RULES })));
    all.extend(BYTE.map(|(mistake, byte)| by(mistake, Rules { byte, ..RULES })));
    all.extend(PIECE.map(|(mistake, piece)| by(mistake, Rules { piece, ..RULES })));
    all.extend(ROOM.map(|(mistake, room)| by(mistake, Rules { room, ..RULES })));
    all.extend(MISFIT.map(|(mistake, misfit)| by(mistake, Rules { misfit, ..RULES })));
    all.push(by("the seed zero has a load", Rules { refused: |_| false, ..RULES }));
    all.push(by("the bytes after a load are cleared", Rules { after: |_| 0, ..RULES }));
    all.extend(NUMBERS.map(|(mistake, edit)| Mutant::numbers(LOAD, mistake, edit)));
    all
}

/// A variant by other rules of request 8.
fn by(mistake: &str, loads: Rules) -> Mutant {
    Mutant::rules(LOAD, mistake, rules::Rules { loads, ..rules::RULES })
}

const NEXT: [(&str, fn(u64) -> u64); 4] = [
    ("the first shift is by 12", |number| xor_left(xor_right(xor_left(number, 12), 17), 5)),
    ("the right shift keeps the sign", |number| {
        let number = xor_left(number, 13);
        let shifted = (number as i32 >> 17) as u32;
        xor_left(number ^ u64::from(shifted), 5)
    }),
    ("a generator holds 64 bits", |number| {
        let number = number ^ (number << 13);
        let number = xor_right(number, 17);
        number ^ (number << 5)
    }),
    ("each of the three results is a draw", each_result),
];

/// One of the three steps; which one is due stands above the 32 bits.
fn each_result(number: u64) -> u64 {
    let (step, number) = (number >> 32, number % (1 << 32));
    let result = match step {
        0 => xor_left(number, 13),
        1 => xor_right(number, 17),
        _ => xor_left(number, 5),
    };
    ((step + 1) % 3) << 32 | result
}

const BYTE: [(&str, fn(u64) -> u8); 2] = [
    ("a byte is the high byte of a draw", |draw| (draw >> 24) as u8),
    ("a byte is a draw modulo 255", |draw| (draw % 255) as u8),
];

type Piece = fn(&mut Generator, &[u8]) -> Vec<u8>;

const PIECE: [(&str, Piece); 7] = [
    ("the seed is the first draw", |generator, load| match load {
        [] => chosen(generator.number % 4, generator),
        _ => piece(generator, load),
    }),
    ("remainders 1 and 2 are exchanged", |generator, _| {
        let by = [0, 2, 1, 3][(generator.draw() % 4) as usize];
        chosen(by, generator)
    }),
    ("a piece is chosen by the number before the draw", |generator, _| {
        let by = generator.number % 4;
        generator.draw();
        chosen(by, generator)
    }),
    ("the choosing draw comes after the bytes", |generator, _| {
        let whole = report(generator);
        match generator.draw() % 4 {
            0 => vec![whole[8]],
            1 => whole,
            2 => whole[..22].to_vec(),
            _ => PRINTED.to_vec(),
        }
    }),
    ("the one byte is the draw that chose it", |generator, _| match generator.draw() % 4 {
        0 => vec![(generator.number % 256) as u8],
        by => chosen(by, generator),
    }),
    ("a cut report has the bytes of the report before it", |generator, load| match generator.draw() % 4 {
        2 => match load.windows(BEFORE.len()).rposition(|bytes| bytes == BEFORE) {
            Some(start) => load[start..start + 22].to_vec(),
            None => chosen(2, generator),
        },
        by => chosen(by, generator),
    }),
    ("a cut report lacks the last basic byte, not the last of the tail", |generator, _| match generator.draw() % 4 {
        2 => {
            let basic: Vec<u8> = (0..8).map(|_| generator.byte()).collect();
            [&BEFORE[..], &basic, &AFTER].concat()
        }
        by => chosen(by, generator),
    }),
];

const ROOM: [(&str, fn(usize) -> usize); 3] = [
    ("a load has no limit but the buffer's end", |length| length),
    ("a load has at most 65,535 bytes", |length| length.min(MOST - 1)),
    ("the last byte of a buffer stays", |length| length.saturating_sub(1).min(MOST)),
];

type Misfit = fn(&mut Generator, &[u8], usize) -> Vec<u8>;

const MISFIT: [(&str, Misfit); 2] = [
    ("the last piece is cut at the buffer's end", |_, piece, left| piece[..left].to_vec()),
    ("the next piece is tried where one does not fit", |generator, _, left| {
        let next = piece(generator, &[]);
        if next.len() > left {
            Vec::new()
        } else {
            next
        }
    }),
];

type Edit = fn(&[u8], &mut Vec<u64>);

const NUMBERS: [(&str, Edit); 3] = [
    ("an empty buffer is answered before the seed is tested", |_, line| {
        if line.len() == 3 {
            line[1] = 0;
        }
    }),
    ("the buffer is cleared before the seed is tested", |_, line| {
        if refused(line, 9) {
            refuse(line, 9);
        }
    }),
    ("the buffer's length is returned as the filled length", |_, line| {
        if accepted(line) {
            line[2] = line.len() as u64 - 3;
        }
    }),
];
