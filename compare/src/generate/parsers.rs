//! Ops 13 and 17: parsers built by hand, in range and out of it, with counters around where 32 bits and 64 bits end,
//! and scripts on them.

use ld2410::access::{Counters, Fields as ParserFields, ORIGINAL_MAX};

use super::calls::{by_bytes, mixed_calls};
use super::counters::counters_around_their_ends;
use super::frames::{framed, good_frame};
use super::random::Random;
use super::reports::STATES;
use super::streams::{base_streams, stream};
use super::Cases;
use crate::model::families::{COMMAND, REPORT};
use crate::published;
use crate::script::{script, Call};

/// Numbers around every bound on a field, up to the largest.
const MATCHED: [usize; 9] = [0, 1, 2, 3, 4, 5, 255, usize::MAX / 2, usize::MAX];
const LENGTHS: [usize; 16] = [0, 1, 2, 3, 13, 53, 54, 55, 56, 64, 65, 255, 256, 65_535, usize::MAX - 1, usize::MAX];
const COUNTERS: [u64; 12] = [
    0,
    0,
    1,
    1000,
    ORIGINAL_MAX - 23,
    ORIGINAL_MAX - 1,
    ORIGINAL_MAX,
    ORIGINAL_MAX + 1,
    ORIGINAL_MAX << 20,
    u64::MAX - 23,
    u64::MAX - 1,
    u64::MAX,
];

/// An argument of op 13 or 17.
pub fn argument(parser: &ParserFields, script: &[u8]) -> Vec<u8> {
    let mut argument = vec![parser.state, parser.kind];
    for number in [parser.matched, parser.len, parser.pos] {
        argument.extend((number as u64).to_le_bytes());
    }
    let Counters { frames, resyncs, dropped, malformed } = parser.counters;
    for counter in [frames, resyncs, dropped, malformed] {
        argument.extend(counter.to_le_bytes());
    }
    argument.extend(parser.buf);
    argument.extend(script);
    argument
}

/// A parser that stands for the first `taken` bytes of a frame of at most 54 data bytes; the fields that its state
/// does not use, and the buffer after the data, are what they were.
pub fn after(frame: &[u8], taken: usize, mut parser: ParserFields) -> ParserFields {
    let data = published::data(frame);
    parser.kind = u8::from(frame[0] == COMMAND.header[0]);
    match taken {
        0..4 => (parser.state, parser.matched) = (0, taken),
        4..6 => {
            (parser.state, parser.matched) = (1, taken - 4);
            parser.len = if taken == 5 { frame[4].into() } else { 0 };
        }
        _ => {
            let in_data = (taken - 6).min(data.len());
            parser.len = data.len();
            parser.pos = in_data;
            parser.buf[..in_data].copy_from_slice(&data[..in_data]);
            parser.state = 2;
            if in_data == data.len() {
                (parser.state, parser.matched) = (3, taken - 6 - in_data);
            }
        }
    }
    parser
}

/// A parser with a state and a kind that exist and every other field around some bound.
fn any_fields(random: &mut Random) -> ParserFields {
    ParserFields {
        state: random.below(4) as u8,
        kind: random.below(2) as u8,
        matched: random.pick(&MATCHED),
        len: random.pick(&LENGTHS),
        pos: random.pick(&LENGTHS),
        counters: counters(random),
        buf: random.array(),
    }
}

fn counters(random: &mut Random) -> Counters {
    Counters {
        frames: random.pick(&COUNTERS),
        resyncs: random.pick(&COUNTERS),
        dropped: random.pick(&COUNTERS),
        malformed: random.pick(&COUNTERS),
    }
}

pub fn built_parser_cases(cases: &mut Cases<'_>) {
    every_field(&mut |argument| cases.add(argument));
    every_place_of_a_frame(cases);
    counters_around_their_ends(cases);
    unknown_states_and_kinds(cases);
    let whole = argument(&any_fields(&mut cases.random), &[2, 0, 0xF4]);
    for length in 0..whole.len() {
        cases.add(&whole[..length]);
    }
    cases.draw_million(any_parser);
}

/// Every state and kind with numbers around every bound; scripts that would finish a frame, break one, or do nothing.
fn every_field(emit: &mut dyn FnMut(&[u8])) {
    let b = published::bytes(published::B);
    let scripts = [
        script(&[]),
        script(&[Call::Slice(&REPORT.tail), Call::Slice(&b)]),
        script(&[Call::Feed(0x00), Call::Feed(0xF4), Call::Reset]),
        script(&[Call::Slice(&[]), Call::Slice(&[published::data(&b), &REPORT.tail].concat())]),
    ];
    for (state, kind) in [0, 1, 2, 3].into_iter().flat_map(|state| [(state, 0), (state, 1)]) {
        for matched in MATCHED {
            for len in LENGTHS {
                for pos in positions(len) {
                    let counters = Counters { frames: u64::MAX, resyncs: 7, dropped: ORIGINAL_MAX - 30, malformed: 0 };
                    let parser = ParserFields { state, kind, matched, len, pos, counters, buf: [0xAA; 64] };
                    scripts.iter().for_each(|script| emit(&argument(&parser, script)));
                }
            }
        }
    }
}

fn unknown_states_and_kinds(cases: &mut Cases<'_>) {
    for (state, kind) in [(4, 0), (5, 1), (255, 0), (0, 2), (1, 3), (2, 255), (4, 2)] {
        let parser = ParserFields { state, kind, ..any_fields(&mut cases.random) };
        cases.add(&argument(&parser, &[2]));
    }
}

fn positions(len: usize) -> [usize; 6] {
    [0, 1, len.wrapping_sub(1), len, len.wrapping_add(1), usize::MAX]
}

/// Published frames, and reports with every kind of state, each begun at every place and finished, cut short or broken;
/// streams of frames after any parser.
fn every_place_of_a_frame(cases: &mut Cases<'_>) {
    let mut frames = published::all();
    frames.retain(|frame| frame[0] == REPORT.header[0] || frame[0] == COMMAND.header[0]);
    frames.extend(STATES.into_iter().flat_map(published::with_state));
    let b = published::bytes(published::B);
    for frame in frames {
        for taken in 0..frame.len() {
            let parser = after(&frame, taken, any_fields(&mut cases.random));
            let rest = &frame[taken..];
            cases.add(&argument(&parser, &script(&[Call::Slice(rest), Call::Slice(&b)])));
            cases.add(&argument(&parser, &by_bytes(&rest[..rest.len().min(2)])));
            cases.add(&argument(&parser, &script(&[Call::Slice(&b), Call::Slice(&b)])));
        }
    }
    for stream in base_streams() {
        let parser = any_fields(&mut cases.random);
        cases.add(&argument(&parser, &script(&[Call::Slice(&stream), Call::Slice(&stream)])));
    }
}

/// A parser after a part of a frame, now and then with one field changed, or any parser; then the rest of the
/// frame and a stream.
fn any_parser(random: &mut Random) -> Vec<u8> {
    let frame = if random.once_in(3) { framed(random) } else { good_frame(random) };
    let parser = any_fields(random);
    let script_after = |rest: &[u8], random: &mut Random| {
        let more = stream(2, random);
        if random.once_in(2) {
            script(&[Call::Slice(rest), Call::Slice(&more)])
        } else {
            mixed_calls(&[rest, &more].concat(), random)
        }
    };
    if !(12..=64).contains(&frame.len()) || random.once_in(8) {
        return argument(&parser, &script_after(&frame, random));
    }
    let taken = random.below(frame.len());
    let mut parser = after(&frame, taken, parser);
    if random.once_in(4) {
        match random.below(4) {
            0 => parser.matched = random.pick(&MATCHED),
            1 => parser.len = random.pick(&LENGTHS),
            2 => parser.pos = random.pick(&positions(parser.len)),
            _ => parser.state = random.below(4) as u8,
        }
    }
    argument(&parser, &script_after(&frame[taken..], random))
}
