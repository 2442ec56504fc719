//! The LD2450's frames and targets, of which the cases of ops 30 to 32 are made.

pub mod breaks;
pub mod frames;
pub mod parts;
pub mod streams;
pub mod values;

use super::random::Random;
use crate::model::ld2450::frames::{DATA, DATA_END, HEADER, TAIL, TARGET};
use crate::published;

/// The bytes of the frame's header and tail.
pub const LETTERS: [u8; 6] = [0xAA, 0xFF, 0x03, 0x00, 0x55, 0xCC];

/// The ends of each field's range, and numbers next to zero and to a byte's end, as two bytes.
pub const ENDS: [u16; 12] =
    [0x0000, 0x0001, 0x00FF, 0x0100, 0x7FFE, 0x7FFF, 0x8000, 0x8001, 0x80FF, 0x8100, 0xFFFE, 0xFFFF];

/// The frame of these data.
pub fn frame(data: [u8; DATA]) -> Vec<u8> {
    [&HEADER[..], &data, &TAIL].concat()
}

/// The printed frame: one target, two absent.
pub fn printed() -> Vec<u8> {
    published::bytes(published::LD2450)
}

/// A frame with no zero byte, and no letter of the framing, in its data.
pub fn plain() -> Vec<u8> {
    frame(std::array::from_fn(|place| 0x10 + place as u8))
}

/// A frame with this string in its data, at a place of the frame; what does not fit is left out.
pub fn holding(string: &[u8], at: usize) -> Vec<u8> {
    let mut frame = plain();
    let data = &mut frame[at..DATA_END];
    data.iter_mut().zip(string).for_each(|(slot, &byte)| *slot = byte);
    frame
}

/// Any targets: absent ones, present ones, fields at their ends, and letters of the framing.
pub fn any_data(random: &mut Random) -> [u8; DATA] {
    let mut data = [0; DATA];
    for target in data.chunks_mut(TARGET) {
        let kind = random.below(8);
        for field in target.chunks_mut(2) {
            let pair = match kind {
                0 | 1 => [0, 0],
                2 => [random.pick(&LETTERS), random.pick(&LETTERS)],
                3 | 4 => random.pick(&ENDS).to_le_bytes(),
                _ => random.array(),
            };
            field.copy_from_slice(&pair);
        }
        if random.once_in(8) {
            let at = random.below(TARGET);
            target[at] = random.byte();
        }
    }
    data
}

pub fn any_frame(random: &mut Random) -> Vec<u8> {
    frame(any_data(random))
}
