//! Op 32: scripts on a fresh LD2450 parser: streams good and broken, cut into calls in every manner.

use super::breaks::every_break;
use super::parts::{any_script, stream};
use super::{any_frame, frame, holding, plain, printed};
use crate::generate::calls::by_bytes;
use crate::generate::damage::{every_damage, plain_damage};
use crate::generate::Cases;
use crate::model::ld2450::frames::{DATA, FRAME, HEADER, TAIL};
use crate::model::ld2450::streams::Stream;
use crate::model::ld2450::RULES;
use crate::script::{script, Call};

pub fn script_cases(cases: &mut Cases<'_>) {
    cases.add(&[]);
    for stream in base_streams() {
        every_damage(&stream, &mut |damaged| cases.add(&by_slices(damaged, || 70)));
        plain_damage(&stream, &mut |damaged| cases.add(&by_bytes(damaged)));
        every_slice_length(&stream, &mut |script| cases.add(script));
        every_cut_into_slices(&stream, &mut |script| cases.add(script));
        resets_everywhere(&stream, &mut |script| cases.add(script));
    }
    every_break(cases);
    every_end(cases);
    every_pair(cases);
    large_counts(cases);
    cases.draw(2_000, |random| by_bytes(&stream(4, random)));
    cases.draw(300, |random| {
        let length = random.large_length(60_000);
        let stream = [random.bytes(length), any_frame(random), random.bytes(9)].concat();
        by_slices(&stream, || 65_535)
    });
    cases.draw_million(any_script);
}

/// Two frames, back to back; frames with the framing in their data; strays, begun frames and runs between frames.
pub fn base_streams() -> [Vec<u8>; 3] {
    let [header, tail] = [holding(&HEADER, 20), holding(&TAIL, 26)];
    let begun = [&[0x00, 0xAA, 0xAA, 0xFF, 0x03][..], &printed(), &[0xAA, 0xFF, 0x55, 0xCC], &plain()[..5]].concat();
    [[printed(), plain()].concat(), [header, tail, frame([0xAA; DATA])].concat(), [begun, plain(), printed()].concat()]
}

/// Slices of the given lengths; what a call leaves of its slice is handed in again, as a caller does.
pub fn by_slices(stream: &[u8], mut length: impl FnMut() -> usize) -> Vec<u8> {
    let mut parser = Stream::new(&RULES);
    let mut script = Vec::new();
    let mut rest = stream;
    while !rest.is_empty() {
        let call = Call::Slice(&rest[..length().min(rest.len())]);
        call.write(&mut script);
        rest = &rest[parser.call(call).0..];
    }
    script
}

/// The stream in slices of every length, with an empty slice before each, and with what a call leaves lost.
fn every_slice_length(stream: &[u8], emit: &mut dyn FnMut(&[u8])) {
    for length in 1..=stream.len() {
        let mut empty_between = [0, length].into_iter().cycle();
        emit(&by_slices(stream, || length));
        emit(&by_slices(stream, || empty_between.next().unwrap_or(length)));
        emit(&script(&stream.chunks(length).map(Call::Slice).collect::<Vec<_>>()));
    }
}

/// The stream cut at every two places: three slices, and a slice, single bytes, a slice.
fn every_cut_into_slices(stream: &[u8], emit: &mut dyn FnMut(&[u8])) {
    for first in 0..=stream.len() {
        for second in first..=stream.len() {
            let (front, middle, back) = (&stream[..first], &stream[first..second], &stream[second..]);
            emit(&script(&[Call::Slice(front), Call::Slice(middle), Call::Slice(back)]));
            if middle.len() <= 3 {
                emit(&[script(&[Call::Slice(front)]), by_bytes(middle), script(&[Call::Slice(back)])].concat());
            }
        }
    }
}

/// The stream with a reset at every place, alone and doubled, at every two places, and after each of its bytes.
fn resets_everywhere(stream: &[u8], emit: &mut dyn FnMut(&[u8])) {
    let reset = script(&[Call::Reset]);
    for first in 0..=stream.len() {
        let front = by_slices(&stream[..first], || 70);
        let back = by_slices(&stream[first..], || 70);
        emit(&[&front[..], &reset, &back].concat());
        emit(&[&front[..], &reset, &reset, &back, &reset].concat());
        for second in first + 1..=stream.len() {
            let calls = [Call::Slice(&stream[first..second]), Call::Reset, Call::Slice(&stream[second..])];
            emit(&[&front[..], &reset, &script(&calls)].concat());
        }
    }
    emit(&stream.iter().flat_map(|&byte| script(&[Call::Feed(byte), Call::Reset])).collect::<Vec<_>>());
    emit(&stream.iter().flat_map(|&byte| script(&[Call::Reset, Call::Feed(byte)])).collect::<Vec<_>>());
}

/// Numbers that no call has, and scripts that are cut short at every byte.
fn every_end(cases: &mut Cases<'_>) {
    let calls =
        [Call::Slice(&printed()[..9]), Call::Feed(0x00), Call::Slice(&printed()), Call::Reset, Call::Feed(0xAA)];
    let whole = script(&calls);
    for length in 0..=whole.len() {
        cases.add(&whole[..length]);
    }
    for number in 3..=255 {
        cases.add(&[number, 0, 0xAA]);
        cases.add(&[&script(&[Call::Slice(&printed())])[..], &[number, 2, 2]].concat());
    }
}

/// Every pair of bytes in each field of a frame that is delivered.
fn every_pair(cases: &mut Cases<'_>) {
    for pair in 0..=u16::MAX {
        let bytes = pair.to_le_bytes();
        cases.add(&script(&[Call::Slice(&frame(std::array::from_fn(|place| bytes[place % 2])))]));
    }
}

/// More frames than a byte counts, and more broken starts and stray bytes than two bytes do.
fn large_counts(cases: &mut Cases<'_>) {
    cases.add(&by_slices(&[printed(), plain()].concat().repeat(150), || FRAME));
    for byte in [0xAA, 0x00] {
        let (front, back) = (vec![byte; 65_535], vec![byte; 4_000]);
        cases.add(&script(&[Call::Slice(&front), Call::Slice(&back), Call::Feed(byte)]));
    }
}
