//! Listed cases of ops 13 and 17.

use ld2410::access::{Counters, Fields as ParserFields, ORIGINAL_MAX};

use super::matching;
use crate::generate::calls::by_bytes;
use crate::generate::counters::{broken_starts, counting_from};
use crate::generate::matching::malformed;
use crate::generate::parsers::{after, argument};
use crate::generate::random::Random;
use crate::generate::reports::STATES;
use crate::model::families::{COMMAND, REPORT};
use crate::oracle::readers::STATE_IN_FRAME;
use crate::published;
use crate::script::{script, Call};

pub fn built_parsers(random: &mut Random) -> Vec<Vec<u8>> {
    parsers(&broken_starts(), random)
}

/// The same for the table engine, of broken starts the short ones; resets and lengths; every byte in every matching
/// state.
pub fn table_parsers(random: &mut Random) -> Vec<Vec<u8>> {
    let mut short = broken_starts();
    short.retain(|broken| broken.len() < 10);
    let mut all = parsers(&short, random);
    all.extend(resets());
    all.extend(lengths());
    all.extend(matching::built_parsers());
    all
}

/// Frames begun at every place: a reset, and the rest of the frame.
fn resets() -> Vec<Vec<u8>> {
    let mut all = Vec::new();
    for frame in [malformed(0), malformed(1)] {
        for taken in 0..frame.len() {
            let calls = [Call::Reset, Call::Slice(&frame[taken..])];
            all.push(argument(&after(&frame, taken, counting_from(7)), &script(&calls)));
        }
    }
    all
}

/// The second byte of a length, after a first one around both limits: 00, or the first byte of a header.
fn lengths() -> Vec<Vec<u8>> {
    let mut all = Vec::new();
    for (kind, header) in [(0, REPORT.header), (1, COMMAND.header)] {
        for len in [1, 2, 54, 55] {
            let parser = ParserFields { state: 1, kind, matched: 1, len, ..counting_from(7) };
            all.extend([0x00, header[0]].map(|high| argument(&parser, &script(&[Call::Slice(&[high])]))));
        }
    }
    all
}

fn parsers(broken_starts: &[Vec<u8>], random: &mut Random) -> Vec<Vec<u8>> {
    let fresh = ParserFields {
        state: 0,
        kind: 0,
        matched: 0,
        len: 0,
        pos: 0,
        counters: Counters { frames: 1, resyncs: 2, dropped: ORIGINAL_MAX - 30, malformed: 4 },
        buf: random.array(),
    };
    let mut all = out_of_range(&fresh);
    let b = published::bytes(published::B);
    for frame in [&b, &published::bytes(published::ACKS[0])] {
        for taken in 0..frame.len() {
            let parser = after(frame, taken, fresh.clone());
            all.push(argument(&parser, &script(&[Call::Slice(&frame[taken..]), Call::Slice(&b)])));
        }
    }
    for frame in STATES.into_iter().flat_map(published::with_state) {
        let begun = [after(&frame, STATE_IN_FRAME, fresh.clone()), after(&frame, STATE_IN_FRAME + 1, fresh.clone())];
        all.push(argument(&begun[0], &script(&[Call::Slice(&frame[STATE_IN_FRAME..])])));
        all.push(argument(&begun[1], &script(&[Call::Slice(&frame[STATE_IN_FRAME + 1..])])));
    }
    for frame in published::with_state(0x05) {
        all.push(argument(&after(&frame, STATE_IN_FRAME, fresh.clone()), &by_bytes(&frame[STATE_IN_FRAME..])));
    }
    all.extend(counters_around_their_ends(&b, broken_starts));
    for (state, kind) in [(4, 0), (255, 0), (0, 2), (3, 255)] {
        all.push(argument(&ParserFields { state, kind, ..fresh.clone() }, &[]));
    }
    let whole = argument(&fresh, &[]);
    all.extend([0, 1, 2, 10, 121].map(|length| whole[..length].to_vec()));
    all
}

/// All four counters around the largest numbers of 32 and of 64 bits: each counted up by every kind of piece, and by
/// each of these broken starts to the largest number or past it.
fn counters_around_their_ends(b: &[u8], broken_starts: &[Vec<u8>]) -> Vec<Vec<u8>> {
    let mut all = Vec::new();
    let malformed = published::bytes(published::COMMANDS[1]);
    let calls = [Call::Slice(b), Call::Slice(&malformed), Call::Slice(&[0xF4, 0xF4, 0x00]), Call::Feed(0x00)];
    for end in [ORIGINAL_MAX, u64::MAX] {
        for start in end - 2..=end.saturating_add(1) {
            all.push(argument(&counting_from(start), &script(&[calls, calls].concat())));
        }
        for broken in broken_starts {
            let start = end - broken.len() as u64;
            all.push(argument(&counting_from(start), &script(&[Call::Slice(broken)])));
            all.push(argument(&counting_from(start + 1), &script(&[Call::Slice(broken)])));
        }
        let shortest = &broken_starts[0];
        all.extend((end - 3..=end).map(|start| argument(&counting_from(start), &by_bytes(shortest))));
    }
    all
}

/// Every bound on a field from both sides, and the largest numbers: the calls would end a frame, or go on with one.
fn out_of_range(fresh: &ParserFields) -> Vec<Vec<u8>> {
    let mut fields = Vec::new();
    for matched in [0, 1, 2, 3, 4, usize::MAX] {
        fields.extend([(0, matched, 9, 9), (3, matched, 13, 13), (1, matched, 0, 9), (1, matched, 13, 9)]);
    }
    for len in [1, 2, 54, 55, 64, 255, 256, usize::MAX] {
        fields.extend([(1, 1, len, 0), (1, 0, len, 0), (2, 9, len, 0), (2, 9, len, len - 1), (3, 0, len, len)]);
    }
    for pos in [0, 12, 13, 14, 64, usize::MAX] {
        fields.extend([(2, 0, 13, pos), (3, 0, 13, pos), (3, 3, 13, pos)]);
    }
    let going_on = [script(&[]), script(&[Call::Slice(&REPORT.tail), Call::Feed(0xF4)])];
    let mut all = Vec::new();
    for (state, matched, len, pos) in fields {
        let parser = ParserFields { state, matched, len, pos, ..fresh.clone() };
        all.extend(going_on.iter().map(|script| argument(&parser, script)));
    }
    all
}
