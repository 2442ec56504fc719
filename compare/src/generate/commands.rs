//! Ops 6, 9 and 12: commands to encode, frames to read as commands, and rates.

use super::damage::{damaged, every_damage};
use super::frames::frame_near_good;
use super::random::Random;
use super::Cases;
use crate::model::families::COMMAND;
use crate::oracle::commands::command;
use crate::published;

/// What the other arguments are while one goes through 0 to 255: around every limit.
const LIMITS: [u8; 8] = [0, 1, 2, 8, 9, 100, 101, 255];
/// The ends of the range of seconds, low byte first, and those of its bytes.
const SECONDS: [(u8, u8); 6] = [(0, 0), (1, 0), (255, 0), (0, 1), (254, 255), (255, 255)];
/// Fills that show a stray write, whichever byte it writes.
pub const FILLS: [u8; 4] = [0x00, 0xA5, 0xFD, 0xFF];
/// The twelve commands with arguments that pass, each at the ends of its range, and some that do not.
pub const COMMANDS: [[u8; 6]; 38] = [
    [0, 0, 0, 0, 0, 0],
    [1, 0, 0, 0, 0, 0],
    [2, 0, 0, 0, 0, 0],
    [2, 8, 8, 5, 0, 0],
    [2, 8, 2, 255, 255, 0],
    [2, 1, 8, 0, 1, 0],
    [2, 8, 1, 0, 1, 0],
    [2, 0, 8, 5, 0, 0],
    [2, 8, 0, 5, 0, 0],
    [2, 1, 9, 5, 0, 0],
    [2, 2, 8, 5, 0, 0],
    [2, 2, 2, 5, 0, 0],
    [2, 3, 7, 5, 0, 0],
    [2, 4, 6, 5, 0, 0],
    [2, 5, 5, 5, 0, 0],
    [2, 6, 4, 5, 0, 0],
    [2, 7, 3, 5, 0, 0],
    [2, 9, 8, 5, 0, 0],
    [2, 8, 9, 5, 0, 0],
    [3, 0, 0, 0, 0, 0],
    [4, 0, 0, 0, 0, 0],
    [4, 1, 0, 0, 0, 0],
    [5, 0, 0, 0, 0, 0],
    [5, 0, 8, 100, 100, 0],
    [5, 0, 3, 40, 41, 0],
    [5, 1, 0, 40, 40, 0],
    [5, 1, 9, 1, 2, 0],
    [5, 0, 9, 40, 40, 0],
    [5, 0, 8, 101, 100, 0],
    [5, 1, 0, 100, 101, 0],
    [6, 0, 0, 0, 0, 0],
    [7, 1, 0, 0, 0, 0],
    [7, 8, 0, 0, 0, 0],
    [8, 0, 0, 0, 0, 0],
    [9, 0, 0, 0, 0, 0],
    [10, 0, 0, 0, 0, 0],
    [10, 1, 0, 0, 0, 0],
    [11, 0, 0, 0, 0, 0],
];

/// An argument of op 6.
pub fn encode_argument(length: u16, fill: u8, command: [u8; 6]) -> Vec<u8> {
    [&length.to_le_bytes()[..], &[fill], &command].concat()
}

pub fn encode_cases(cases: &mut Cases<'_>) {
    for command in COMMANDS {
        for length in 0..=32 {
            for fill in FILLS {
                cases.add(&encode_argument(length, fill, command));
            }
        }
        for length in [255, 256, 300, 65_535] {
            cases.add(&encode_argument(length, 0xA5, command));
        }
    }
    every_number_and_argument(cases);
    every_three_record_argument(cases);
    let whole = encode_argument(30, 0xA5, COMMANDS[3]);
    for length in 0..whole.len() {
        cases.add(&whole[..length]);
    }
    cases.draw_million(|random| {
        let length = if random.once_in(8) { random.below(40) as u16 } else { random.pick(&[12, 14, 30, 32]) };
        encode_argument(length, random.byte(), any_command(random))
    });
}

/// Every number of a command, with every first argument.
fn every_number_and_argument(cases: &mut Cases<'_>) {
    for number in 0..=255 {
        for first in 0..=255 {
            cases.add(&encode_argument(32, 0x5A, [number, first, 0, 0, 0, 0]));
        }
    }
}

/// Each argument of the three-record commands through 0 to 255, the others around the limits.
fn every_three_record_argument(cases: &mut Cases<'_>) {
    for value in 0..=255 {
        for a in LIMITS {
            for (low, high) in SECONDS {
                add_each(cases, [[2, value, a, low, high, 0], [2, a, value, low, high, 0]]);
            }
            for b in LIMITS {
                add_each(cases, [[2, a, b, value, 0, 0], [2, a, b, 0, value, 0]]);
                add_each(cases, [[5, 0, value, a, b, 0], [5, 0, a, value, b, 0], [5, 0, a, b, value, 0]]);
                add_each(cases, [[5, 1, a, value, b, 0], [5, 1, a, b, value, 0]]);
            }
        }
    }
}

fn add_each<const N: usize>(cases: &mut Cases<'_>, commands: [[u8; 6]; N]) {
    for command in commands {
        let fill = cases.random.byte();
        cases.add(&encode_argument(32, fill, command));
    }
}

pub fn any_command(random: &mut Random) -> [u8; 6] {
    let number = random.pick(&[0, 1, 2, 2, 2, 3, 4, 5, 5, 5, 6, 7, 8, 9, 10, 11, 12]);
    let mut command = [number, 0, 0, 0, 0, 0];
    for slot in &mut command[1..] {
        *slot = if random.once_in(3) { random.byte() } else { random.below(10) as u8 };
    }
    if number == 5 {
        command[1] = random.below(2) as u8;
        command[3] = random.below(104) as u8;
    }
    command
}

/// The frame that a command encodes to, if there is such a command and its arguments pass; farthest gates 0 and 1 do
/// here, as in the original, so that there are bytes of them to read.
fn encoded(numbers: [u8; 6]) -> Option<Vec<u8>> {
    let command = command(numbers)?;
    let mut frame = vec![0; command.encoded_len()];
    command.encode(&mut frame).ok()?;
    Some(frame)
}

pub fn read_cases(cases: &mut Cases<'_>) {
    cases.up_to_two_bytes();
    for frame in published::all().into_iter().chain(COMMANDS.into_iter().filter_map(encoded)) {
        every_damage(&frame, &mut |bytes| cases.add(bytes));
        cases.add(&frame);
    }
    for word in 0..=u16::MAX {
        cases.add(&COMMAND.frame(&word.to_le_bytes()));
        cases.add(&COMMAND.frame(&[&[0xA1, 0x00][..], &word.to_le_bytes()].concat()));
        let surplus = cases.random.array::<2>();
        cases.add(&COMMAND.frame(&[word.to_le_bytes(), surplus].concat()));
    }
    cases.draw(3_000, |random| {
        let length = random.large_length(65_000);
        let word = random.pick(&[[0xFF, 0x00], [0x61, 0x00], [0x61, 0x01], [0x60, 0x00]]);
        COMMAND.frame(&[&word[..], &random.bytes(length)].concat())
    });
    cases.draw_million(frame_near_command);
}

fn frame_near_command(random: &mut Random) -> Vec<u8> {
    let command = any_command(random);
    let Some(frame) = encoded(command) else {
        return frame_near_good(random);
    };
    match random.below(8) {
        0..=2 => frame,
        3..=5 => damaged(&frame, random),
        6 => {
            let once = damaged(&frame, random);
            damaged(&once, random)
        }
        _ => {
            let mut data = published::data(&frame).to_vec();
            let at = random.below(data.len());
            data[at] = random.byte();
            data.extend(random.pick(&[&[][..], &[0], &[0, 0], &[1]]));
            COMMAND.frame(&data)
        }
    }
}

pub fn baud_cases(cases: &mut Cases<'_>) {
    for index in 0..=u16::MAX {
        cases.add(&index.to_le_bytes());
    }
    cases.add(&[]);
    cases.add(&[1]);
}
