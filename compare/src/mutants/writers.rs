//! Mistakes in writing and in reading commands.

use super::{accepted, refuse, refused, Mutant};
use crate::model::families::{ACK_BIT, COMMAND, REPORT};

/// Where a buffer starts in an answer, and a command, a report value or a word in an argument.
pub const BUFFER: usize = 3;
pub const VALUE: usize = 3;

pub fn mutants() -> Vec<Mutant> {
    let mut all = encoder();
    all.extend(report_writer());
    all.extend(ack_writer());
    all.extend(command_reader());
    all.extend(baud());
    all
}

pub fn buffer_length(argument: &[u8]) -> usize {
    u16::from_le_bytes([argument[0], argument[1]]).into()
}

/// Makes an answer refusal 6, its buffer as it was.
pub fn refuse_value(argument: &[u8], line: &mut [u64]) {
    refuse(line, 6);
    line[BUFFER..].fill(argument[2].into());
}

fn encoder() -> Vec<Mutant> {
    vec![
        Mutant::numbers(6, "the length is tested before the values", |argument, line| {
            if refused(line, 2) && buffer_length(argument) < 30 {
                (line[1], line[2]) = (4, 30);
            }
        }),
        Mutant::numbers(6, "a byte after the frame is touched", |argument, line| {
            if accepted(line) && buffer_length(argument) as u64 > line[2] {
                let after = BUFFER + line[2] as usize;
                line[after] = 0;
            }
        }),
        Mutant::numbers(6, "a refused call writes a byte", |argument, line| {
            if refused(line, 4) && buffer_length(argument) > 0 {
                line[BUFFER] = 0xFD;
            }
        }),
        Mutant::numbers(6, "all gates are written as 00FF", |argument, line| {
            if accepted(line) && argument[VALUE] == 5 && argument[VALUE + 1] != 0 {
                line[BUFFER + 11] = 0;
            }
        }),
        Mutant::argument(6, "Bluetooth on and off are swapped", |argument| {
            if let [_, _, _, 10, on, ..] = &mut argument[..] {
                *on = u8::from(*on == 0);
            }
        }),
        Mutant::argument(6, "sensitivity 101 is taken", |argument| {
            if let [_, _, _, 5, _, _, moving @ 101, ..] = &mut argument[..] {
                *moving = 100;
            }
        }),
        Mutant::argument(6, "EnableConfig is written for each command", |argument| {
            if argument.len() >= 9 {
                argument[VALUE] = 0;
            }
        }),
        Mutant::numbers(6, "nothing is written", |argument, line| {
            if accepted(line) {
                line[BUFFER..BUFFER + buffer_length(argument)].fill(argument[2].into());
            }
        }),
    ]
}

fn report_writer() -> Vec<Mutant> {
    vec![
        Mutant::argument(7, "an energy past the count is not looked at", |argument| {
            if let Some(value) = argument.get_mut(VALUE..VALUE + 39) {
                let count = usize::from(value[10].min(9));
                if value[9] != 0 {
                    value[12 + count..21].fill(0);
                }
            }
        }),
        Mutant::numbers(7, "the length is tested before the value", |argument, line| {
            if refused(line, 6) && buffer_length(argument) == 0 {
                (line[1], line[2]) = (4, 23);
            }
        }),
        Mutant::argument(7, "extra_len 9 is taken", |argument| {
            if let Some(extra_len @ 9) = argument.get_mut(VALUE + 38) {
                *extra_len = 8;
            }
        }),
        Mutant::argument(7, "per-gate fields with the flag off are not looked at", |argument| {
            if let Some(value) = argument.get_mut(VALUE..VALUE + 39) {
                if value[9] == 0 {
                    value[10..].fill(0);
                }
            }
        }),
        Mutant::numbers(7, "the gate count is written for the highest gate", |argument, line| {
            if accepted(line) && argument[VALUE + 9] != 0 {
                line[BUFFER + 17] += 1;
            }
        }),
        Mutant::argument(7, "no gates are taken as one", |argument| {
            if let Some(gates @ 0) = argument.get_mut(VALUE + 10) {
                *gates = 1;
            }
        }),
    ]
}

fn ack_writer() -> Vec<Mutant> {
    vec![
        Mutant::argument(8, "ok may disagree with the status", |argument| {
            if let [_, _, _, _, _, ok, low, high, ..] = &mut argument[..] {
                *ok = u8::from([*low, *high] == [0, 0]);
            }
        }),
        Mutant::numbers(8, "a payload of 50 bytes is refused", |argument, line| {
            if argument.len() == 8 + 50 {
                refuse(line, 6);
            }
        }),
        Mutant::argument(8, "a payload of 51 bytes is taken", |argument| {
            if argument.len() == 8 + 51 {
                argument.pop();
            }
        }),
        Mutant::numbers(8, "the ACK bit is not written", |_, line| {
            if accepted(line) {
                line[BUFFER + 7] &= !1;
            }
        }),
        Mutant::argument(8, "the ACK bit in the word is not looked at", |argument| {
            if let Some(high) = argument.get_mut(4) {
                *high &= !1;
            }
        }),
    ]
}

fn command_reader() -> Vec<Mutant> {
    vec![
        Mutant::argument(9, "bytes after the frame are ignored", |bytes| {
            if let [_, _, _, _, low, high, ..] = bytes[..] {
                bytes.truncate(10 + usize::from(u16::from_le_bytes([low, high])));
            }
        }),
        Mutant::numbers(9, "a set ACK bit gets 5", |bytes, line| {
            let word = COMMAND.data(bytes).and_then(|data| data.first_chunk());
            if word.is_some_and(|&word| u16::from_le_bytes(word) & ACK_BIT != 0) {
                line[1] = 5;
            }
        }),
        Mutant::numbers(9, "a report header gets 5", |bytes, line| {
            if REPORT.data(bytes).is_some() {
                line[1] = 5;
            }
        }),
        Mutant::numbers(9, "data under two bytes get 5", |bytes, line| {
            if COMMAND.data(bytes).is_some_and(|data| data.len() < 2) {
                line[1] = 5;
            }
        }),
        Mutant::numbers(9, "all gates are read as gate 255", |_, line| {
            if accepted(line) && line[2..4] == [5, 1] {
                line[3..5].copy_from_slice(&[0, 255]);
            }
        }),
        Mutant::argument(9, "the high bytes of a record are not looked at", |bytes| {
            if let Some(high) = bytes.get_mut(19) {
                *high = 0;
            }
        }),
    ]
}

fn baud() -> Vec<Mutant> {
    vec![
        Mutant::argument(12, "the index's high byte is not looked at", |argument| {
            if let Some(high) = argument.get_mut(1) {
                *high = 0;
            }
        }),
        Mutant::numbers(12, "index 8 has no rate", |argument, line| {
            if argument.starts_with(&[8, 0]) {
                line[1..].fill(0);
            }
        }),
    ]
}
