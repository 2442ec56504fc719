//! Ops 10, 11 and 16: scripts on a fresh parser: streams good and damaged, cut into calls in every manner.

use super::acks::ack_data;
use super::calls::{by_bytes, by_slices, mixed_calls};
use super::damage::{damaged, every_damage, plain_damage};
use super::frames::{framed, good_frame};
use super::random::Random;
use super::reports::{every_state, good_report};
use super::Cases;
use crate::model::families::{COMMAND, REPORT};
use crate::published;
use crate::script::{script, Call};

/// Bytes of which every short string is tried.
const LETTERS: [u8; 8] = [0xF4, 0xF3, 0xF2, 0xF1, 0xFD, 0xFC, 0x00, 0x02];

pub fn script_cases(cases: &mut Cases<'_>) {
    cases.add(&[]);
    for data in every_state(&mut cases.random) {
        let frame = REPORT.frame(&data);
        cases.add(&script(&[Call::Slice(&frame)]));
        cases.add(&by_bytes(&frame));
    }
    for stream in base_streams() {
        every_damage(&stream, &mut |damaged| cases.add(&by_slices(damaged, || 70)));
        plain_damage(&stream, &mut |damaged| cases.add(&by_bytes(damaged)));
        every_slice_length(&stream, &mut |script| cases.add(script));
        reset_at_every_place(&stream, &mut |script| cases.add(script));
    }
    cases.add(&script(&[Call::Slice(&long_slice(&published::bytes(published::B)))]));
    every_short_string(cases);
    every_length_pair(cases);
    cases.draw(200, |random| {
        let stream = stream(4, random);
        by_bytes(&stream)
    });
    cases.draw(300, |random| {
        let length = random.large_length(60_000);
        let stream = [random.bytes(length), good_frame(random)].concat();
        by_slices(&stream, || 65_535)
    });
    cases.draw_million(any_script);
}

/// Frames of both families in turn; frames whose data hold headers, tails and a whole frame; reports of calibration.
pub fn base_streams() -> [Vec<u8>; 3] {
    let b = published::bytes(published::B);
    let engineering = published::bytes(published::REPORTS[2]);
    let ack = published::bytes(published::ACKS[0]);
    let command = published::bytes(published::COMMANDS[0]);
    let holding = |payload: &[u8]| COMMAND.frame(&ack_data(0x01A0, 0, payload));
    [
        [&engineering[..], &ack, &command, &b].concat(),
        [holding(&b), holding(&[REPORT.header, COMMAND.header].concat()), holding(&COMMAND.tail), b].concat(),
        [0x04, 0x05, 0x06].map(|state| published::with_state(state).concat()).concat(),
    ]
}

/// A slice of more than 4,096 bytes: stray bytes, a frame, and a byte after it.
pub fn long_slice(frame: &[u8]) -> Vec<u8> {
    [&[0x55; 5000], frame, &[0x55]].concat()
}

fn every_short_string(cases: &mut Cases<'_>) {
    let mut strings = vec![Vec::new()];
    for _ in 0..5 {
        let longer = |string: &Vec<u8>| LETTERS.map(|letter| [&string[..], &[letter]].concat());
        strings = strings.iter().flat_map(longer).collect();
        for string in &strings {
            let (front, back) = string.split_at(string.len() / 2);
            cases.add(&by_bytes(string));
            cases.add(&script(&[Call::Slice(string)]));
            cases.add(&script(&[Call::Slice(front), Call::Slice(&[]), Call::Slice(back)]));
        }
    }
}

/// Every pair of length bytes after each header, with a byte that starts a header and a stray one after them.
fn every_length_pair(cases: &mut Cases<'_>) {
    for family in [REPORT, COMMAND] {
        for pair in 0..=u16::MAX {
            let [low, high] = pair.to_le_bytes();
            let bytes = [&family.header[..], &[low, high, 0xF4, 0x02]].concat();
            if pair % 2 == 0 {
                cases.add(&script(&[Call::Slice(&bytes)]));
            } else {
                cases.add(&script(&[Call::Slice(&bytes[..5]), Call::Feed(high), Call::Slice(&bytes[6..])]));
            }
        }
    }
}

/// The stream in slices of every length, and with an empty slice before each.
fn every_slice_length(stream: &[u8], emit: &mut dyn FnMut(&[u8])) {
    for length in 1..=stream.len() {
        let mut empty_between = [0, length].into_iter().cycle();
        emit(&by_slices(stream, || length));
        emit(&by_slices(stream, || empty_between.next().unwrap_or(length)));
    }
}

/// The stream with a reset after every one of its bytes in turn, and with two.
fn reset_at_every_place(stream: &[u8], emit: &mut dyn FnMut(&[u8])) {
    for place in 0..=stream.len() {
        let (front, back) = stream.split_at(place);
        let reset = script(&[Call::Reset]);
        let (front, back) = (by_slices(front, || 70), by_slices(back, || 70));
        emit(&[&front[..], &reset, &back].concat());
        emit(&[&front[..], &reset, &reset, &back, &reset].concat());
    }
}

/// A few parts of a stream: frames good, malformed and damaged, begun and broken ones, noise.
pub fn stream(most_parts: usize, random: &mut Random) -> Vec<u8> {
    let parts = random.between(1, most_parts);
    (0..parts).flat_map(|_| part(random)).collect()
}

fn part(random: &mut Random) -> Vec<u8> {
    match random.below(10) {
        0..=2 => good_frame(random),
        3 => framed(random),
        4 => {
            let frame = good_frame(random);
            damaged(&frame, random)
        }
        5 => frame_near_limit(random),
        6 => {
            let frame = good_frame(random);
            let length = random.below(frame.len());
            frame[..length].to_vec()
        }
        7 => {
            let held = REPORT.frame(&good_report(random));
            COMMAND.frame(&ack_data(0x01FF, 0, &held))
        }
        8 => {
            let header = random.pick(&[REPORT.header, COMMAND.header]);
            let length = random.below(5);
            [&header[..random.below(4) + 1], &random.bytes(length)].concat()
        }
        _ => {
            let length = random.below(6);
            random.bytes(length)
        }
    }
}

/// An acknowledgement whose data are around the limits of 2 and 54 bytes.
fn frame_near_limit(random: &mut Random) -> Vec<u8> {
    let length = random.pick(&[0, 1, 2, 3, 4, 5, 52, 53, 54, 55, 56, 64, 255, 256, 258]);
    let mut data = random.bytes(length);
    data.iter_mut().zip([0xFF, 0x01, 0x00, 0x00]).for_each(|(slot, byte)| *slot = byte);
    COMMAND.frame(&data)
}

fn any_script(random: &mut Random) -> Vec<u8> {
    let stream = stream(3, random);
    match random.below(8) {
        0 if stream.len() < 24 => by_bytes(&stream),
        0..=3 => by_slices(&stream, || 70),
        4 | 5 => by_slices(&stream, || random.pick(&[0, 1, 2, 5, 9, 23, 40, 64, 200])),
        _ => {
            let mut script = mixed_calls(&stream, random);
            if random.once_in(8) {
                script.truncate(random.below(script.len() + 1));
            }
            script
        }
    }
}
