//! Listed cases of ops 6 to 9 and 12.

use super::readers::damages;
use crate::generate::commands::{encode_argument, COMMANDS};
use crate::generate::random::Random;
use crate::generate::reports::STATES;
use crate::generate::values::{ack_argument, basic_value, engineering_value, report_argument, values_with_state};
use crate::model::families::{COMMAND, REPORT};
use crate::published;

pub fn commands() -> Vec<Vec<u8>> {
    let mut all = Vec::new();
    for command in COMMANDS {
        for length in [0, 11, 12, 13, 14, 29, 30, 32] {
            all.push(encode_argument(length, 0xA5, command));
        }
    }
    for number in [12, 13, 255] {
        all.push(encode_argument(30, 0, [number, 0, 0, 0, 0, 0]));
    }
    for index in (0..=9).chain([255]) {
        all.push(encode_argument(16, 0xFF, [7, index, 0, 0, 0, 0]));
    }
    for on in [2, 255] {
        all.push(encode_argument(14, 0, [4, on, 0, 0, 0, 0]));
        all.push(encode_argument(14, 0, [10, on, 0, 0, 0, 0]));
        all.push(encode_argument(30, 0, [5, on, 9, 1, 1, 0]));
    }
    let whole = encode_argument(12, 0xA5, COMMANDS[1]);
    all.extend((0..whole.len()).map(|length| whole[..length].to_vec()));
    all
}

pub fn report_values(random: &mut Random) -> Vec<Vec<u8>> {
    let mut all = Vec::new();
    for moving in [0, 1, 9, 10] {
        for stationary in [0, 1, 9, 10] {
            for extra_len in [0, 1, 8, 9] {
                let value = engineering_value(moving, stationary, extra_len, random);
                all.push(report_argument(52, 0xA5, &value));
            }
        }
    }
    let basic = basic_value(random);
    let engineering = engineering_value(5, 4, 2, random);
    for value in [basic, engineering] {
        for at in 0..value.len() {
            for byte in [0, 255] {
                let mut changed = value;
                changed[at] = byte;
                all.push(report_argument(37, 0x5A, &changed));
            }
        }
    }
    for (value, needed) in [(basic, 23), (engineering, 36)] {
        for length in [0, 1, needed - 1, needed, needed + 1, 64] {
            all.push(report_argument(length, 0xFF, &value));
        }
    }
    let whole = report_argument(23, 0, &basic);
    all.extend([0, 1, 2, 3, 41].map(|length| whole[..length].to_vec()));
    let unreadable = engineering_value(0, 1, 0, random);
    all.extend([0, 23, 60].map(|length| report_argument(length, 1, &unreadable)));
    for state in STATES {
        for (value, needed) in values_with_state(state, random) {
            all.extend([needed, needed - 1].map(|length| report_argument(length, 0xA5, &value)));
        }
    }
    all
}

pub fn ack_values(random: &mut Random) -> Vec<Vec<u8>> {
    let mut all = Vec::new();
    for length in [0, 1, 4, 49, 50, 51, 52, 255] {
        let payload = random.bytes(length);
        let needed = 14 + length as u16;
        for buffer in [0, needed - 1, needed, needed + 1] {
            all.push(ack_argument(buffer, 0xA5, 0x00FF, 1, 0, &payload));
        }
    }
    for ok in [0, 1, 2, 255] {
        for status in [0, 1, 0x0100, 0xFFFF] {
            all.push(ack_argument(18, 0x5A, 0x00A0, ok, status, &[1, 2, 3]));
        }
    }
    for word in [0x0000, 0x0061, 0x0100, 0x0161, 0x0200, 0xFEFF, 0xFFFF] {
        all.push(ack_argument(14, 0, word, 1, 0, &[]));
        all.push(ack_argument(0, 0, word, 1, 0, &[]));
    }
    let whole = ack_argument(14, 0, 0x0061, 1, 0, &[]);
    all.extend((0..whole.len()).map(|length| whole[..length].to_vec()));
    all
}

pub fn command_frames() -> Vec<Vec<u8>> {
    let mut all = published::all();
    for frame in [published::COMMANDS[9], published::COMMANDS[7]] {
        all.extend(damages(&published::bytes(frame)));
    }
    for word in [0x0000, 0x0061, 0x0065, 0x00A6, 0x0100, 0x0161, 0xFEFF, 0xFFFF] {
        let word = u16::to_le_bytes(word);
        all.push(COMMAND.frame(&word));
        all.push(COMMAND.frame(&[&word[..], &[0; 18]].concat()));
        all.push(REPORT.frame(&word));
    }
    for data in [&[][..], &[0x61], &[0x61, 0x00, 0x00], &[0xFF, 0x00, 0x02, 0x00], &[0x61; 300]] {
        all.push(COMMAND.frame(data));
    }
    for index in [0, 1, 2, 3, 4, 5, 6, 7, 8, 9, 0x0107] {
        all.push(COMMAND.frame(&[[0xA1, 0x00], u16::to_le_bytes(index)].concat()));
    }
    for on in [0, 1, 2, 0x0100] {
        all.push(COMMAND.frame(&[[0xA4, 0x00], u16::to_le_bytes(on)].concat()));
    }
    for word in [0x60, 0x64] {
        for value in [0, 1, 2, 3, 4, 5, 6, 7, 8, 9, 100, 101, 255, 256, 65_535, 65_536] {
            all.extend(three_record_frames(word, value));
        }
    }
    all
}

/// A value in each of the three records in turn, the others 2; and in all of them.
fn three_record_frames(word: u8, value: u32) -> Vec<Vec<u8>> {
    let frame = |values: [u32; 3]| {
        let mut data = vec![word, 0x00];
        for (number, value) in (0u16..).zip(values) {
            data.extend(number.to_le_bytes());
            data.extend(value.to_le_bytes());
        }
        COMMAND.frame(&data)
    };
    [[value, 2, 2], [2, value, 2], [2, 2, value], [value; 3]].map(frame).to_vec()
}

pub fn rates() -> Vec<Vec<u8>> {
    let indices = (0..=10).chain([255, 256, 257, 264, 65_535]);
    let mut all: Vec<_> = indices.map(|index: u16| index.to_le_bytes().to_vec()).collect();
    all.extend([vec![], vec![1]]);
    all
}
