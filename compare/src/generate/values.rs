//! Ops 7 and 8: report values and acknowledgement values to write, readable ones and others.

use super::acks::WORDS;
use super::commands::FILLS;
use super::random::Random;
use super::Cases;

/// Bytes of a report value, and where the fields stand in it that a writer checks.
const REPORT_VALUE: usize = 39;
const STATE: usize = 0;
const FLAG: usize = 9;
const MOVING_GATES: usize = 10;
const STATIONARY_GATES: usize = 11;
const MOVING: usize = 12;
const STATIONARY: usize = 21;
const EXTRA: usize = 30;
const EXTRA_LEN: usize = 38;

pub type ReportValue = [u8; REPORT_VALUE];

/// A report value with a state that there is, the flag off and every per-gate field 0.
pub fn basic_value(random: &mut Random) -> ReportValue {
    let mut value = [0; REPORT_VALUE];
    value[..FLAG].copy_from_slice(&random.array::<FLAG>());
    value[STATE] %= 7;
    value
}

/// A report value with the flag on and these counts; entries within a count are not 0, those past it are.
pub fn engineering_value(moving: u8, stationary: u8, extra_len: u8, random: &mut Random) -> ReportValue {
    let mut value = basic_value(random);
    value[FLAG] = 1;
    for (count_at, count, start, entries) in [
        (MOVING_GATES, moving, MOVING, 9),
        (STATIONARY_GATES, stationary, STATIONARY, 9),
        (EXTRA_LEN, extra_len, EXTRA, 8),
    ] {
        value[count_at] = count;
        let used = &mut value[start..start + entries.min(count.into())];
        used.iter_mut().for_each(|slot| *slot = random.byte() | 1);
    }
    value
}

/// The length of the frame of a readable value.
fn frame_length(value: &ReportValue) -> u16 {
    let counts = [MOVING_GATES, STATIONARY_GATES, EXTRA_LEN].map(|at| u16::from(value[at]));
    let block = if value[FLAG] == 0 { 0 } else { 2 + counts.iter().sum::<u16>() };
    10 + 2 + 9 + block + 2
}

/// An argument of op 7.
pub fn report_argument(length: u16, fill: u8, value: &ReportValue) -> Vec<u8> {
    [&length.to_le_bytes()[..], &[fill], value].concat()
}

pub fn report_value_cases(cases: &mut Cases<'_>) {
    every_state(cases);
    every_count(cases);
    every_field_changed(cases);
    every_buffer_length(cases);
    let whole = report_argument(60, 0xA5, &basic_value(&mut cases.random));
    for length in 0..whole.len() {
        cases.add(&whole[..length]);
    }
    cases.draw_million(|random| {
        let mut value = readable_value(random);
        let length = buffer_length(frame_length(&value), random);
        if random.once_in(2) {
            let at = random.below(REPORT_VALUE);
            value[at] = random.byte();
        }
        report_argument(length, random.byte(), &value)
    });
}

fn readable_value(random: &mut Random) -> ReportValue {
    if random.once_in(4) {
        return basic_value(random);
    }
    let (moving, stationary, extra_len) = (random.between(1, 9), random.between(1, 9), random.below(9));
    engineering_value(moving as u8, stationary as u8, extra_len as u8, random)
}

/// Exactly enough, a byte less or more, or any small length.
fn buffer_length(needed: u16, random: &mut Random) -> u16 {
    match random.below(8) {
        0 => needed - 1,
        1 => random.below(70) as u16,
        2 => needed + 1,
        3 => needed + 9,
        _ => needed,
    }
}

/// A value with this state, basic and with an engineering block, beside the length of its frame.
pub fn values_with_state(state: u8, random: &mut Random) -> [(ReportValue, u16); 3] {
    let values = [basic_value(random), engineering_value(1, 1, 0, random), engineering_value(9, 9, 8, random)];
    values.map(|mut value| {
        value[STATE] = state;
        (value, frame_length(&value))
    })
}

/// Every byte for a state, into buffers that are too short and long enough.
fn every_state(cases: &mut Cases<'_>) {
    for state in 0..=255 {
        for (value, needed) in values_with_state(state, &mut cases.random) {
            for length in [0, needed - 1, needed, needed + 1] {
                cases.add(&report_argument(length, 0xA5, &value));
            }
        }
    }
}

/// Every pair of gate counts and every count of reserved bytes, in range and around it.
fn every_count(cases: &mut Cases<'_>) {
    for moving in (0..=11).chain([128, 255]) {
        for stationary in (0..=11).chain([128, 255]) {
            for extra_len in (0..=10).chain([128, 255]) {
                let value = engineering_value(moving, stationary, extra_len, &mut cases.random);
                cases.add(&report_argument(60, 0xA5, &value));
            }
        }
    }
}

/// Readable values with one field changed: entries past a count, fields with the flag off, states and flags.
fn every_field_changed(cases: &mut Cases<'_>) {
    let counts = [(1, 1, 0), (1, 9, 8), (9, 1, 7), (5, 4, 2), (8, 8, 1), (9, 9, 8)];
    let mut values = vec![basic_value(&mut cases.random)];
    for (moving, stationary, extra_len) in counts {
        values.push(engineering_value(moving, stationary, extra_len, &mut cases.random));
    }
    for value in values {
        for at in 0..REPORT_VALUE {
            for byte in [0, 1, 2, 3, 4, 5, 6, 7, 8, 9, 10, 255] {
                let mut changed = value;
                changed[at] = byte;
                cases.add(&report_argument(60, 0xA5, &changed));
                cases.add(&report_argument(0, 0, &changed));
            }
        }
    }
}

fn every_buffer_length(cases: &mut Cases<'_>) {
    let random = &mut cases.random;
    let values = [basic_value(random), engineering_value(1, 1, 0, random), engineering_value(9, 9, 8, random)];
    for value in values {
        for length in (0..=64).chain([255, 256, 65_535]) {
            for fill in FILLS {
                cases.add(&report_argument(length, fill, &value));
            }
        }
    }
}

/// An argument of op 8.
pub fn ack_argument(length: u16, fill: u8, word: u16, ok: u8, status: u16, payload: &[u8]) -> Vec<u8> {
    let mut argument = length.to_le_bytes().to_vec();
    argument.push(fill);
    argument.extend(word.to_le_bytes());
    argument.push(ok);
    argument.extend(status.to_le_bytes());
    argument.extend(payload);
    argument
}

pub fn ack_value_cases(cases: &mut Cases<'_>) {
    for word in 0..=u16::MAX {
        cases.add(&ack_argument(16, 0xA5, word, 1, 0, &[]));
    }
    for status in 0..=u16::MAX {
        for ok in [0, 1] {
            cases.add(&ack_argument(14, 0x5A, 0x0061, ok, status, &[]));
        }
    }
    every_payload_length(cases);
    let whole = ack_argument(20, 0xA5, 0x00FF, 1, 0, &[]);
    for length in 0..=whole.len() {
        cases.add(&whole[..length]);
    }
    cases.draw_million(any_ack_value);
}

/// Payloads of 0 to 60 bytes and large ones, into buffers of every length around what is needed.
fn every_payload_length(cases: &mut Cases<'_>) {
    for length in (0..=60).chain([255, 256, 300]) {
        let payload = cases.random.bytes(length);
        let needed = 14 + length as u16;
        for buffer in [0, 1, 14, needed - 1, needed, needed + 1, 64, 400] {
            for fill in FILLS {
                cases.add(&ack_argument(buffer, fill, 0x00A0, 1, 0, &payload));
                cases.add(&ack_argument(buffer, fill, 0x00A0, 0, 1, &payload));
            }
        }
    }
    for length in [1_000, 65_000] {
        let payload = cases.random.bytes(length);
        cases.add(&ack_argument(65_535, 0, 0x00A0, 1, 0, &payload));
    }
}

fn any_ack_value(random: &mut Random) -> Vec<u8> {
    let length = if random.once_in(4) { random.between(48, 53) } else { random.below(51) };
    let word = if random.once_in(4) { random.u16() } else { random.pick(&WORDS) };
    let status = random.pick(&[0, 0, 0, 1, 2, 0x0100, 0xFFFF]);
    let ok = if random.once_in(6) { random.byte() } else { u8::from(status == 0) };
    let buffer = buffer_length(14 + length as u16, random);
    ack_argument(buffer, random.byte(), word, ok, status, &random.bytes(length))
}
