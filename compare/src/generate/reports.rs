//! Op 2: report data, good and bad, around every check R1 to R8.

use super::damage::{damaged, every_damage};
use super::random::Random;
use super::Cases;
use crate::published;

/// Gates that a block announces: every count up to ten, and the largest byte.
pub const MAX_GATES: [u8; 12] = [0, 1, 2, 3, 4, 5, 6, 7, 8, 9, 10, 255];

/// Lengths around each boundary of the link.
pub const BOUNDARY_LENGTHS: [usize; 26] =
    [0, 1, 2, 3, 4, 5, 6, 7, 8, 9, 10, 11, 12, 13, 14, 53, 54, 55, 254, 255, 256, 257, 258, 259, 260, 261];

/// State bytes of every kind: those of calibration, those around them, and those that a rule on some of the bits would
/// take for one of them.
pub const STATES: [u8; 20] = [
    0x00, 0x01, 0x02, 0x03, 0x04, 0x05, 0x06, 0x07, 0x08, 0x0C, 0x0D, 0x0E, 0x0F, 0x14, 0x16, 0x44, 0x85, 0xFC, 0xFE,
    0xFF,
];

/// Nine basic bytes; every other time the state is one of STATES.
pub fn basic(random: &mut Random) -> [u8; 9] {
    let mut basic = random.array();
    if random.once_in(2) {
        basic[0] = random.pick(&STATES);
    }
    basic
}

/// Report data: type, AA, nine basic bytes, what stands after them, 55, 00.
pub fn report_data(data_type: u8, basic: [u8; 9], after: &[u8]) -> Vec<u8> {
    [&[data_type, 0xAA], &basic[..], after, &[0x55, 0x00]].concat()
}

/// An engineering block with `reserved` bytes after its energies, or, below 0, so many energies missing.
pub fn block(max_moving: u8, max_stationary: u8, reserved: isize, random: &mut Random) -> Vec<u8> {
    let energies = usize::from(max_moving) + usize::from(max_stationary) + 2;
    let after = random.bytes(energies.saturating_add_signed(reserved));
    [&[max_moving, max_stationary], &after[..]].concat()
}

/// Data that pass every check.
pub fn good_report(random: &mut Random) -> Vec<u8> {
    if random.once_in(3) {
        return report_data(2, basic(random), &[]);
    }
    let reserved = random.pick(&[0, 0, 1, 2, 2, 3, 7, 8, 9, 12]);
    let (max_moving, max_stationary) = (random.below(9) as u8, random.below(9) as u8);
    let block = block(max_moving, max_stationary, reserved, random);
    report_data(1, basic(random), &block)
}

/// An engineering report of at least 300 and at most `most` data bytes.
pub fn large_report(most: usize, random: &mut Random) -> Vec<u8> {
    let length = random.large_length(most);
    large_report_of(length, random)
}

/// An engineering report of exactly so many data bytes, at least 33.
pub fn large_report_of(length: usize, random: &mut Random) -> Vec<u8> {
    let (max_moving, max_stationary) = (random.below(9) as u8, random.below(9) as u8);
    let fixed = 2 + 9 + 2 + usize::from(max_moving) + usize::from(max_stationary) + 2 + 2;
    let block = block(max_moving, max_stationary, (length - fixed) as isize, random);
    report_data(1, basic(random), &block)
}

pub fn report_cases(cases: &mut Cases<'_>) {
    cases.up_to_two_bytes();
    for data in every_state(&mut cases.random) {
        cases.add(&data);
    }
    every_gate_count(cases);
    every_reserved_count(cases);
    boundary_lengths(cases);
    for frame in published::REPORTS {
        let bytes = published::bytes(frame);
        every_damage(published::data(&bytes), &mut |data| cases.add(data));
    }
    let largest = large_report_of(65_535, &mut cases.random);
    cases.add(&largest);
    cases.draw(2_000, |random| large_report(65_535, random));
    cases.draw(1_000, |random| {
        let report = large_report(65_535, random);
        damaged(&report, random)
    });
    cases.draw_million(report_near_good);
}

/// Every state byte, in a basic report and in engineering ones.
pub fn every_state(random: &mut Random) -> Vec<Vec<u8>> {
    let mut all = Vec::new();
    for state in 0..=255 {
        let mut basic = random.array();
        basic[0] = state;
        all.push(report_data(2, basic, &[]));
        for (max_moving, max_stationary, reserved) in [(0, 0, 0), (3, 5, 9), (8, 8, 2)] {
            all.push(report_data(1, basic, &block(max_moving, max_stationary, reserved, random)));
        }
    }
    all
}

fn every_gate_count(cases: &mut Cases<'_>) {
    for data_type in 0..=4 {
        for max_moving in MAX_GATES {
            for max_stationary in MAX_GATES {
                for reserved in -3..=10 {
                    let block = block(max_moving, max_stationary, reserved, &mut cases.random);
                    let basic = basic(&mut cases.random);
                    cases.add(&report_data(data_type, basic, &block));
                }
            }
        }
    }
}

fn every_reserved_count(cases: &mut Cases<'_>) {
    for reserved in (0..=300).chain(509..=515).chain(765..=770) {
        let block = block(8, 0, reserved, &mut cases.random);
        let basic = basic(&mut cases.random);
        cases.add(&report_data(1, basic, &block));
    }
}

/// Data of a boundary length, right as far as they go, and with each marker wrong, alone and together.
fn boundary_lengths(cases: &mut Cases<'_>) {
    for length in BOUNDARY_LENGTHS {
        for data_type in 0..=4 {
            for wrong in 0..8u8 {
                let data = marked_data(length, data_type, wrong, &mut cases.random);
                cases.add(&data);
            }
        }
    }
}

/// So many bytes with type, AA, gate counts and 55 00 at their places; the bits of `wrong` spoil AA, 55 and 00.
pub fn marked_data(length: usize, data_type: u8, wrong: u8, random: &mut Random) -> Vec<u8> {
    let mut data = random.bytes(length);
    let mut set = |at: Option<usize>, byte: u8| {
        if let Some(slot) = at.and_then(|at| data.get_mut(at)) {
            *slot = byte;
        }
    };
    set(Some(11), 0);
    set(Some(12), 0);
    set(length.checked_sub(2), 0x55 ^ (wrong & 2));
    set(length.checked_sub(1), wrong & 4);
    set(Some(0), data_type);
    set(Some(1), 0xAA ^ (wrong & 1));
    data
}

/// Good data, good data damaged once or twice, a block that nearly fits, or bytes at random.
pub fn report_near_good(random: &mut Random) -> Vec<u8> {
    match random.below(8) {
        0 | 1 => good_report(random),
        2..=4 => {
            let good = good_report(random);
            damaged(&good, random)
        }
        5 => {
            let good = good_report(random);
            let once = damaged(&good, random);
            damaged(&once, random)
        }
        6 => {
            let data_type = random.below(5) as u8;
            let (moving, stationary) = (random.pick(&MAX_GATES[..11]), random.pick(&MAX_GATES[..11]));
            let reserved = random.below(14) as isize - 4;
            let block = block(moving, stationary, reserved, random);
            report_data(data_type, basic(random), &block)
        }
        _ => {
            let length = random.below(60);
            let (data_type, wrong) = (random.below(5) as u8, random.byte() & random.byte());
            marked_data(length, data_type, wrong, random)
        }
    }
}
