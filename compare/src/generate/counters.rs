//! Counters around where 32 bits and 64 bits end, and the pieces of a stream that they count.

use ld2410::access::{Counters, Fields as ParserFields, ORIGINAL_MAX};

use super::calls::by_bytes;
use super::parsers::argument;
use super::Cases;
use crate::model::families::{COMMAND, REPORT};
use crate::published;
use crate::script::{script, Call};

/// A fresh parser whose four counters hold this.
pub fn counting_from(counter: u64) -> ParserFields {
    let counters = Counters::all(counter);
    ParserFields { state: 0, kind: 0, matched: 0, len: 0, pos: 0, counters, buf: [0; 64] }
}

/// Broken starts of every length that one can have, each with the byte that breaks it: after a part of the header;
/// after the first byte of a bad length; after the data, or a part of the tail. A header goes on with any byte, and
/// data with any.
pub fn broken_starts() -> Vec<Vec<u8>> {
    let mut all = Vec::new();
    for family in [REPORT, COMMAND] {
        all.extend((1..4).map(|matched| [&family.header[..matched], &[0x00]].concat()));
        all.push([&family.header[..], &[0x01, 0x00]].concat());
        for (length, matched) in (2..=54).map(|length| (length, 0)).chain([(54, 1), (54, 2), (54, 3)]) {
            let mut broken = family.frame(&vec![0x5A; length]);
            broken.truncate(6 + length + matched);
            broken.push(0x00);
            all.push(broken);
        }
    }
    all
}

/// All four counters at and around the largest numbers of 32 and of 64 bits, and every kind of piece that counts, by
/// bytes and by a slice.
pub fn counters_around_their_ends(cases: &mut Cases<'_>) {
    let mut pieces = broken_starts();
    pieces.extend([
        vec![0x00],
        vec![0x00; 3],
        published::bytes(published::B),
        published::bytes(published::COMMANDS[1]),
    ]);
    let starts = [ORIGINAL_MAX, u64::MAX].into_iter().flat_map(|end| end - 66..=end.saturating_add(3));
    for start in starts {
        let parser = counting_from(start);
        for piece in &pieces {
            cases.add(&argument(&parser, &by_bytes(piece)));
            cases.add(&argument(&parser, &script(&[Call::Slice(piece)])));
        }
    }
}
