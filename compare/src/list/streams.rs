//! Listed cases of ops 10, 11 and 16.

use super::matching;
use crate::generate::acks::ack_data;
use crate::generate::calls::{by_bytes, by_slices, mixed_calls};
use crate::generate::damage::plain_damage;
use crate::generate::random::Random;
use crate::generate::reports::STATES;
use crate::generate::streams::{base_streams, long_slice, stream};
use crate::model::families::COMMAND;
use crate::published;
use crate::script::{script, Call};

/// The stream rows of document 01's "Bytes to try", and their neighbours.
fn rows() -> Vec<Vec<u8>> {
    let b = published::bytes(published::B);
    let mut broken = b.clone();
    broken[22] = 0;
    let mut rows = vec![vec![], b.clone(), broken, [&[0x00], &b[..], &[0xF4]].concat()];
    for text in [
        "F4 F4",
        "F4 F3 F2 F1 01 00",
        "F4 F3 F2 F1 37 F4",
        "F4 F3 F2 F1 36 00",
        "F4 F3 F2 F1 37 00",
        "F4 F3 F2 F1 02 01",
        "F4 F3 F2 F1 F4 F3 F2 F1",
        "FD FC FB FA 02 00 FF 00 04 03 02 01",
        "F4 F3 F2 F4 F3 FD FC FB FA FD",
        "FD FC FB FA 36 00 FD",
        "FD FC FB FA 37 00 FD",
    ] {
        rows.push(published::bytes(text));
    }
    rows
}

/// Acknowledgements around the limits of 2 and 54 data bytes, each after a stray byte.
fn limits() -> Vec<Vec<u8>> {
    let data = ack_data(0x01FF, 0, &[0x5A; 60]);
    let lengths = [0, 1, 2, 3, 4, 5, 53, 54, 55, 56];
    lengths.map(|length| [&[0x99], &COMMAND.frame(&data[..length])[..]].concat()).to_vec()
}

/// A frame that holds B, with its last byte wrong.
fn broken_frame_that_holds_b() -> Vec<u8> {
    let mut frame = COMMAND.frame(&ack_data(0x01A0, 0, &published::bytes(published::B)));
    frame.pop();
    frame.push(0x00);
    frame
}

/// Reports of every kind of state by a slice, and those of a calibration that is done byte by byte.
fn states() -> Vec<Vec<u8>> {
    let frames = STATES.into_iter().flat_map(published::with_state);
    let mut all: Vec<_> = frames.map(|frame| script(&[Call::Slice(&frame)])).collect();
    all.extend(published::with_state(0x05).map(|frame| by_bytes(&frame)));
    all
}

pub fn scripts(random: &mut Random) -> Vec<Vec<u8>> {
    let mut all = Vec::new();
    for row in rows() {
        all.push(by_bytes(&row));
        all.push(script(&[Call::Slice(&row)]));
    }
    all.push(script(&[Call::Slice(&[0xF4, 0xF3]), Call::Reset]));
    all.push(script(&[Call::Slice(&long_slice(&published::bytes(published::B)))]));
    all.extend(states());
    all.extend(limits().iter().map(|stream| by_slices(stream, || 80)));
    all.extend(published::all().iter().map(|frame| script(&[Call::Slice(frame)])));
    for stream in base_streams() {
        for length in [3, 23, 64, 200] {
            all.push(by_slices(&stream, || length));
        }
    }
    let two_acks = [published::bytes(published::ACKS[0]), published::bytes(published::ACKS[1])].concat();
    plain_damage(&two_acks, &mut |damaged| all.push(by_slices(damaged, || 80)));
    all.extend(resets(&two_acks));
    for _ in 0..20 {
        let stream = stream(3, random);
        all.push(mixed_calls(&stream, random));
    }
    all
}

/// A reset at every place of a stream; scripts that are cut short.
fn resets(stream: &[u8]) -> Vec<Vec<u8>> {
    let mut all = Vec::new();
    for place in 0..=stream.len() {
        let (front, back) = stream.split_at(place);
        all.push(script(&[Call::Slice(front), Call::Reset, Call::Slice(back)]));
    }
    let cut_short = script(&[Call::Reset, Call::Slice(stream), Call::Feed(0xF4)]);
    all.extend([0, 1, 2, 3, 4, 20].map(|missing| cut_short[..cut_short.len() - missing].to_vec()));
    all
}

pub fn lent_scripts() -> Vec<Vec<u8>> {
    let mut all: Vec<_> = rows().iter().map(|row| script(&[Call::Slice(row)])).collect();
    all.push(by_bytes(&published::bytes(published::B)));
    all.push(script(&[Call::Slice(&long_slice(&published::bytes(published::B)))]));
    all.extend(states());
    all.push(script(&[Call::Slice(&[0x00, 0xF4, 0xF3]), Call::Reset, Call::Feed(0xF4), Call::Slice(&[])]));
    all.push(script(&[Call::Slice(&broken_frame_that_holds_b())]));
    all.extend(limits().iter().map(|stream| by_slices(stream, || 80)));
    for stream in base_streams() {
        for length in [2, 23, 200] {
            all.push(by_slices(&stream, || length));
        }
    }
    all
}

/// Scripts by the table engine: those above, with resets; and every byte in every matching state.
pub fn table_scripts() -> Vec<Vec<u8>> {
    let mut all = lent_scripts();
    all.extend(resets(&published::bytes(published::ACKS[0])));
    all.extend(matching::scripts());
    all
}
