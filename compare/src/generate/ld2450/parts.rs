//! Random streams of an LD2450, and random calls on them.

use super::streams::by_slices;
use super::{any_frame, holding, LETTERS};
use crate::generate::calls::{by_bytes, mixed_calls};
use crate::generate::damage::damaged;
use crate::generate::random::Random;
use crate::model::ld2450::frames::{DATA_END, FRAME, HEADER, TAIL};
use crate::script::{script, Call};

/// A few parts of a stream: frames good and damaged, begun and broken ones, runs, noise.
pub fn stream(most_parts: usize, random: &mut Random) -> Vec<u8> {
    let parts = random.between(1, most_parts);
    (0..parts).flat_map(|_| part(random)).collect()
}

fn part(random: &mut Random) -> Vec<u8> {
    match random.below(12) {
        0..=3 => any_frame(random),
        4 => {
            let frame = any_frame(random);
            damaged(&frame, random)
        }
        5 => begun(random),
        6 => {
            let mut frame = any_frame(random);
            frame.truncate(DATA_END);
            frame.extend(random.pick(&[&[0x55][..], &[0x55, 0xAA], &[0xAA], &[0x00], &[0x55, 0x55, 0xCC]]));
            frame
        }
        7 => {
            let string = random.pick(&[&HEADER[..], &TAIL, &HEADER[..2], &[0x55, 0xCC, 0xAA, 0xFF, 0x03, 0x00]]);
            holding(string, random.between(HEADER.len(), DATA_END - 1))
        }
        8 => vec![random.pick(&[0xAA, 0xAA, 0xAA, 0x55, 0xFF]); random.between(1, 40)],
        9 | 10 => letters(random),
        _ => {
            let length = random.below(6);
            random.bytes(length)
        }
    }
}

/// The beginning of a frame.
fn begun(random: &mut Random) -> Vec<u8> {
    let mut frame = any_frame(random);
    let length = if random.once_in(2) { random.below(6) } else { random.below(FRAME) };
    frame.truncate(length);
    frame
}

/// A few bytes of the framing in any order.
fn letters(random: &mut Random) -> Vec<u8> {
    (0..random.between(1, 6)).map(|_| random.pick(&LETTERS)).collect()
}

pub fn any_script(random: &mut Random) -> Vec<u8> {
    let stream = stream(3, random);
    match random.below(8) {
        0 if stream.len() < 45 => by_bytes(&stream),
        0..=2 => by_slices(&stream, || 100),
        3 | 4 => by_slices(&stream, || random.pick(&[0, 1, 2, 4, 9, 26, 28, 29, 30, 31, 60, 200])),
        5 => {
            let (front, back) = stream.split_at(random.below(stream.len() + 1));
            script(&[Call::Slice(front), Call::Reset, Call::Slice(back), Call::Slice(back)])
        }
        _ => {
            let mut script = mixed_calls(&stream, random);
            if random.once_in(8) {
                script.truncate(random.below(script.len() + 1));
            }
            script
        }
    }
}
