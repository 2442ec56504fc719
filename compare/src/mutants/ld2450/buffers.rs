//! Mistakes in what the writer tells, and in what it leaves of the buffer: the refusal, the count, the bytes around.

use super::WRITE;
use crate::model::ld2450::frames::FRAME;
use crate::mutants::writers::{buffer_length, BUFFER};
use crate::mutants::{accepted, refused, right, Mutant};

pub fn mutants() -> Vec<Mutant> {
    let mut all = Vec::new();
    all.extend(COUNTS.into_iter().flat_map(|(which, count)| [told(which, count), needed(which, count)]));
    for number in [1, 2, 3, 5] {
        all.extend([4, 6].map(|refusal| renumbered(refusal, number)));
    }
    all.extend([renumbered(4, 6), renumbered(6, 4)]);
    let of_lines = |(mistake, edit): (&str, Edit)| Mutant::numbers(WRITE, mistake, edit);
    all.extend(LENGTHS.map(of_lines));
    all.extend(LEFT.map(of_lines));
    all
}

type Edit = fn(&[u8], &mut Vec<u64>);

/// A count, from the buffer's length.
type Count = fn(usize) -> usize;

/// Counts that are not the frame's length; that of the buffer is, where the buffer is as long.
const COUNTS: [(&str, Count); 7] = [
    ("0 bytes", |_| 0),
    ("24 bytes", |_| 24),
    ("28 bytes", |_| 28),
    ("29 bytes", |_| 29),
    ("31 bytes", |_| 31),
    ("the buffer's length", |length| length),
    ("what the buffer has too few or too many", |length| length.abs_diff(FRAME)),
];

fn told(which: &str, count: Count) -> Mutant {
    Mutant::numbers(WRITE, format!("{which} told as written"), move |argument, line| {
        if accepted(line) {
            line[2] = count(buffer_length(argument)) as u64;
        }
    })
}

fn needed(which: &str, count: Count) -> Mutant {
    Mutant::numbers(WRITE, format!("{which} told as needed"), move |argument, line| {
        if refused(line, 4) {
            line[2] = count(buffer_length(argument)) as u64;
        }
    })
}

/// A variant with another number for a refusal, the rest as it is.
fn renumbered(refusal: u64, number: u64) -> Mutant {
    Mutant::numbers(WRITE, format!("{number} is given for {refusal}"), move |_, line| {
        if refused(line, refusal) {
            line[1] = number;
        }
    })
}

/// The frame of an argument's value, that no buffer is too short for.
fn frame(argument: &[u8]) -> Vec<u64> {
    let long_enough = [&(FRAME as u16).to_le_bytes()[..], &argument[2..]].concat();
    right(WRITE, &long_enough)[0][BUFFER..].to_vec()
}

/// Writes what fits of a frame.
fn write(argument: &[u8], line: &mut [u64]) {
    line[BUFFER..].iter_mut().zip(frame(argument)).for_each(|(slot, byte)| *slot = byte);
}

/// Gives 4 to a value that is written; the buffer stays.
fn too_short(argument: &[u8], line: &mut [u64]) {
    if accepted(line) {
        line[1] = 4;
        line[BUFFER..].fill(argument[2].into());
    }
}

const LENGTHS: [(&str, Edit); 9] = [
    ("4 is given before 6", |argument, line| {
        if refused(line, 6) && buffer_length(argument) < FRAME {
            line[1..BUFFER].copy_from_slice(&[4, FRAME as u64]);
        }
    }),
    ("4 is given before 6 for an empty buffer", |argument, line| {
        if refused(line, 6) && buffer_length(argument) == 0 {
            line[1..BUFFER].copy_from_slice(&[4, FRAME as u64]);
        }
    }),
    ("30 bytes are too short", |argument, line| {
        if buffer_length(argument) == FRAME {
            too_short(argument, line);
        }
    }),
    ("more than 30 bytes get 4", |argument, line| {
        if buffer_length(argument) > FRAME {
            too_short(argument, line);
        }
    }),
    ("4 is given to every length", |argument, line| too_short(argument, line)),
    ("29 bytes do, and are told as written", |argument, line| {
        if refused(line, 4) && buffer_length(argument) == FRAME - 1 {
            line[1..BUFFER].copy_from_slice(&[0, FRAME as u64 - 1]);
            write(argument, line);
        }
    }),
    ("29 bytes do, and 30 are told as written", |argument, line| {
        if refused(line, 4) && buffer_length(argument) == FRAME - 1 {
            line[1] = 0;
            write(argument, line);
        }
    }),
    ("every length does, and what fits is written", |argument, line| {
        if refused(line, 4) {
            line[1] = 0;
            write(argument, line);
        }
    }),
    ("an empty buffer is not refused", |argument, line| {
        if refused(line, 4) && buffer_length(argument) == 0 {
            line[1..BUFFER].fill(0);
        }
    }),
];

const LEFT: [(&str, Edit); 12] = [
    ("nothing is written", |argument, line| line[BUFFER..].fill(argument[2].into())),
    ("the byte after the frame is touched", |_, line| change(line, 0, BUFFER + FRAME)),
    ("the buffer's last byte is touched", |argument, line| {
        if buffer_length(argument) > FRAME {
            change(line, 0, BUFFER + buffer_length(argument) - 1);
        }
    }),
    ("the bytes after the frame are zeros", |_, line| {
        if accepted(line) {
            line[BUFFER + FRAME..].fill(0);
        }
    }),
    ("a call refused with 4 touches the first byte", |_, line| change(line, 4, BUFFER)),
    ("a call refused with 4 touches the last byte", |argument, line| {
        change(line, 4, BUFFER + buffer_length(argument).saturating_sub(1));
    }),
    ("a call refused with 4 writes what fits", |argument, line| {
        if refused(line, 4) {
            write(argument, line);
        }
    }),
    ("a call refused with 6 touches the first byte", |_, line| change(line, 6, BUFFER)),
    ("a call refused with 6 touches the last byte", |argument, line| {
        change(line, 6, BUFFER + buffer_length(argument).saturating_sub(1));
    }),
    ("a call refused with 6 writes the header", |argument, line| {
        if refused(line, 6) && buffer_length(argument) >= FRAME {
            line[BUFFER..BUFFER + 4].copy_from_slice(&[0xAA, 0xFF, 0x03, 0x00]);
        }
    }),
    ("a call refused with 6 clears the buffer", |_, line| {
        if refused(line, 6) {
            line[BUFFER..].fill(0);
        }
    }),
    ("a count is told beside 6", |_, line| {
        if refused(line, 6) {
            line[2] = FRAME as u64;
        }
    }),
];

/// Changes a byte of the buffer, if it is there, where the answer has this refusal.
fn change(line: &mut [u64], refusal: u64, place: usize) {
    if refused(line, refusal) && (BUFFER..line.len()).contains(&place) {
        line[place] ^= 1;
    }
}
