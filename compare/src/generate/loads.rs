//! Op 15: seeds of every kind, into buffers of every length.

use super::commands::FILLS;
use super::random::Random;
use super::Cases;
use crate::model::loads::{LONGEST, MOST};

/// A seed whose load is 65,536 bytes long, with one byte as the next piece.
pub const FULL: u32 = 2;

/// An argument of op 15.
pub fn argument(seed: u32, length: usize, fill: u8) -> Vec<u8> {
    [&seed.to_le_bytes()[..], &(length as u32).to_le_bytes(), &[fill]].concat()
}

/// Seeds of one bit, of all but one, and next to the ends of a byte, of two, of three and of four.
pub fn seeds() -> Vec<u32> {
    let bits = (0..32).flat_map(|bit| [1 << bit, !(1 << bit)]);
    let ends = [0u32, 1 << 8, 1 << 16, 1 << 24].into_iter();
    bits.chain(ends.flat_map(|end| [end, end.wrapping_sub(1), end + 1])).collect()
}

/// Lengths around the most that a load may have, and the longest buffers.
fn long_lengths() -> impl Iterator<Item = usize> {
    (MOST - 24..=MOST + 24).chain([LONGEST - 1, LONGEST])
}

pub fn load_cases(cases: &mut Cases<'_>) {
    every_cut(cases);
    for seed in seeds() {
        for length in 0..=100 {
            cases.add(&argument(seed, length, FILLS[length % FILLS.len()]));
        }
    }
    for seed in 0..2_000 {
        for length in [0, 1, 17, 18, 21, 22, 23, 24, 46, 300] {
            cases.add(&argument(seed, length, 0xA5));
        }
    }
    for length in long_lengths() {
        for seed in [0, 1, FULL, 3, u32::MAX] {
            cases.add(&argument(seed, length, 0x5A));
        }
    }
    for length in [LONGEST + 1, LONGEST + 2, 1 << 17, 1 << 24, u32::MAX as usize] {
        cases.add(&argument(1, length, 0));
        cases.add(&argument(0, length, 0));
    }
    cases.draw(200_000, any_load);
    cases.draw(400, |random| argument(any_seed(random), random.between(60_000, LONGEST), random.byte()));
}

/// Arguments cut short at every byte, and with more after them.
fn every_cut(cases: &mut Cases<'_>) {
    for seed in [0, 1, 2, 3, 4] {
        let whole = [&argument(seed, 24, 0xA5)[..], &[0x5A; 9]].concat();
        for length in 0..=whole.len() {
            cases.add(&whole[..length]);
        }
    }
}

fn any_seed(random: &mut Random) -> u32 {
    let seed = random.next() as u32;
    seed >> random.below(32)
}

fn any_load(random: &mut Random) -> Vec<u8> {
    let length = if random.once_in(16) { random.below(2_000) } else { random.below(120) };
    argument(any_seed(random), length, random.byte())
}
