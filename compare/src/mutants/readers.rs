//! Mistakes in reading: target states, reports, acknowledgements, their replies, whole frames.

use super::{accepted, refuse, refused, right, Mutant};
use crate::model::families::{COMMAND, REPORT};
use crate::published;

/// Places in the answer of op 2: the flag, the gate counts, the reserved bytes and their count, `light`.
const FLAG: usize = 8;
const MOVING_GATES: usize = 9;
const LAST_MOVING_ENERGY: usize = 19;
const LAST_EXTRA: usize = 36;
const EXTRA_LEN: usize = 37;
const LIGHT: usize = 48;
/// Places of the refusals of `expect` and the four replies in the answer of op 4; op 14 has them one place earlier.
const REPLIES: [usize; 5] = [2, 5, 8, 12, 19];
const PARAMETERS: usize = 19;

pub fn mutants() -> Vec<Mutant> {
    let mut all = target_states_and_reports();
    all.extend(acks_and_frames());
    all.extend(replies());
    all
}

fn target_states_and_reports() -> Vec<Mutant> {
    vec![
        Mutant::numbers(1, "the state's high bits are kept", |argument, line| {
            line[1] = argument[0].into();
        }),
        Mutant::numbers(1, "a stationary target is not present", |_, line| line[4] = line[2]),
        Mutant::numbers(2, "the state's high bits are kept", |data, line| {
            if accepted(line) {
                line[2] = data[2].into();
            }
        }),
        Mutant::numbers(2, "extra_len wraps at 256", |data, line| {
            if line[FLAG] == 1 {
                let gates = line[MOVING_GATES] + line[MOVING_GATES + 1];
                line[EXTRA_LEN] = (data.len() as u64 - 15 - gates) % 256;
            }
        }),
        Mutant::numbers(2, "an unknown type is refused before the trailer is looked at", |data, line| {
            if refused(line, 1) && unknown_type(data) && !data.ends_with(&[0x55, 0x00]) {
                line[1] = 2;
            }
        }),
        Mutant::numbers(2, "an unknown type is refused before the nine basic bytes", |data, line| {
            if refused(line, 1) && unknown_type(data) && data.ends_with(&[0x55, 0x00]) {
                line[1] = 2;
            }
        }),
        Mutant::numbers(2, "nine gates are refused", |_, line| {
            if line[MOVING_GATES] == 9 {
                refuse(line, 1);
            }
        }),
        Mutant::argument(2, "ten gates are taken", |data| {
            if data.get(11) == Some(&9) {
                data[11] = 8;
            }
        }),
        Mutant::numbers(2, "a stale energy stands past the count", |_, line| {
            if line[FLAG] == 1 && line[MOVING_GATES] < 9 {
                line[LAST_MOVING_ENERGY] = 7;
            }
        }),
        Mutant::numbers(2, "seven reserved bytes are kept", |_, line| line[LAST_EXTRA] = 0),
        Mutant::numbers(2, "light is there without reserved bytes", |_, line| {
            line[LIGHT] = line[FLAG];
        }),
        Mutant::argument(2, "a basic report may go on after the nine bytes", |data| {
            if data.first() == Some(&2) && data.len() > 13 {
                data.drain(11..data.len() - 2);
            }
        }),
        Mutant::numbers(2, "1 is given to everything", |_, line| refuse(line, 1)),
        Mutant::argument(2, "B's report is given to everything", |data| {
            *data = published::data(&published::bytes(published::B)).to_vec();
        }),
    ]
}

/// Whether data begin like a report of a type that there is not.
fn unknown_type(data: &[u8]) -> bool {
    data.len() >= 4 && data[1] == 0xAA && data[0] != 1 && data[0] != 2
}

fn acks_and_frames() -> Vec<Mutant> {
    vec![
        Mutant::numbers(3, "the ACK bit is not cleared", |_, line| {
            if accepted(line) {
                line[2] |= 0x0100;
            }
        }),
        Mutant::numbers(3, "an empty payload starts at 0", |_, line| {
            if line[6] == 0 {
                line[5] = 0;
            }
        }),
        Mutant::numbers(3, "every status but 1 is ok", |_, line| {
            if accepted(line) {
                line[3] = u64::from(line[4] != 1);
            }
        }),
        Mutant::argument(3, "three bytes do for word and status", |data| {
            if data.len() == 3 {
                data.push(0);
            }
        }),
        Mutant::numbers(5, "the stream's limit holds for a whole frame", |bytes, line| {
            if !(12..=64).contains(&bytes.len()) {
                refuse(line, 1);
            }
        }),
        Mutant::numbers(5, "a payload's start is counted in the data", |_, line| {
            if line[2] == 2 {
                line[56] = 4;
            }
        }),
        Mutant::argument(5, "bytes after the tail are ignored", |bytes| {
            if let [_, _, _, _, low, high, ..] = bytes[..] {
                bytes.truncate(10 + usize::from(u16::from_le_bytes([low, high])));
            }
        }),
        Mutant::argument(5, "a report may end with the command tail", |bytes| {
            if bytes.starts_with(&REPORT.header) && bytes.ends_with(&COMMAND.tail) {
                bytes.truncate(bytes.len() - 4);
                bytes.extend(REPORT.tail);
            }
        }),
        Mutant::numbers(5, "an unknown report type gets 1", |_, line| {
            if refused(line, 2) {
                line[1] = 1;
            }
        }),
    ]
}

fn replies() -> Vec<Mutant> {
    vec![
        Mutant::numbers(4, "ok is tested before the word", |argument, line| {
            if accepted(line) && argument[4..6] != [0, 0] {
                REPLIES.iter().for_each(|&place| line[place] = 3);
            }
        }),
        Mutant::numbers(4, "a short payload is read as zeros", |argument, line| {
            if accepted(line) {
                let padded = right(4, &[argument, &[0; 30]].concat());
                line[5..].copy_from_slice(&padded[0][5..]);
            }
        }),
        Mutant::numbers(4, "surplus payload is refused", |argument, line| {
            if accepted(line) && line[12] == 0 && argument.len() > 2 + 4 + 6 {
                line[12] = 1;
            }
        }),
        Mutant::numbers(4, "the farthest gates are checked", |_, line| {
            if accepted(line) && line[PARAMETERS] == 0 && line[PARAMETERS + 2] > 8 {
                line[PARAMETERS] = 1;
            }
        }),
        Mutant::argument(4, "ten gates of parameters are taken", |argument| {
            if argument.get(7) == Some(&9) {
                argument[7] = 8;
            }
        }),
        Mutant::numbers(4, "refused parameters have no gates", |_, line| {
            if accepted(line) && line[PARAMETERS] != 0 {
                *line.last_mut().expect("gates stand last") = 0;
            }
        }),
        Mutant::numbers(4, "spans are counted from the awaited word", |_, line| {
            if accepted(line) && line[2] == 0 {
                line[3] += 2;
            }
        }),
        Mutant::numbers(14, "a span past the bytes is read as far as they go", |argument, line| {
            if let Some((start, length, bytes)) = span(argument) {
                let left = bytes.saturating_sub(start);
                read_through(argument, (start, length.min(left)), line);
            }
        }),
        Mutant::numbers(14, "the end of a span wraps", |argument, line| {
            if let Some((start, length, bytes)) = span(argument) {
                if start.wrapping_add(length) <= bytes {
                    read_through(argument, (0, bytes), line);
                }
            }
        }),
        Mutant::numbers(14, "expect empties a span outside the bytes", |argument, line| {
            if let Some((start, length, bytes)) = span(argument) {
                if length > bytes || start > bytes - length {
                    line[2..4].fill(0);
                }
            }
        }),
        Mutant::argument(14, "ok is taken from the status", |argument| {
            if let [_, _, ok, low, high, ..] = &mut argument[..] {
                *ok = u8::from([*low, *high] == [0, 0]);
            }
        }),
    ]
}

/// Start, length and number of bytes in an argument of op 14.
fn span(argument: &[u8]) -> Option<(u64, u64, u64)> {
    let number = |at: usize| Some(u64::from_le_bytes(*argument.get(at..)?.first_chunk()?));
    let bytes = argument.len().checked_sub(23)?;
    Some((number(5)?, number(13)?, bytes as u64))
}

/// The four replies as they are with another span.
fn read_through(argument: &[u8], (start, length): (u64, u64), line: &mut [u64]) {
    let mut argument = argument.to_vec();
    argument[5..13].copy_from_slice(&start.to_le_bytes());
    argument[13..21].copy_from_slice(&length.to_le_bytes());
    line[4..].copy_from_slice(&right(14, &argument)[0][4..]);
}
