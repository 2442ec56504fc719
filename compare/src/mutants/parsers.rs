//! Mistakes in handling a parser built by hand: each bound of document 01, point 5, off by one, and the counters.

use ld2410::access::{Fields as ParserFields, ORIGINAL_MAX};

use super::table_engine::BUILT;
use super::{Mutant, CLOSING};
use crate::model::rules::{Rules, RULES};
use crate::oracle::streams::{built_parser, in_range};

pub fn mutants() -> Vec<Mutant> {
    let bound = |(mistake, in_range)| Mutant::rules(13, mistake, Rules { in_range, ..RULES });
    let mut all: Vec<_> = BOUNDS.into_iter().map(bound).collect();
    all.extend(NARROW.into_iter().map(|(mistake, edit)| Mutant::numbers(13, mistake, edit)));
    for op in [13, BUILT] {
        all.extend(COUNTED.map(|(mistake, add)| Mutant::rules(op, mistake, Rules { add, ..RULES })));
        all.extend(FIELDS.map(|(mistake, edit)| Mutant::argument(op, mistake, edit)));
    }
    all
}

type EditArgument = fn(&mut Vec<u8>);

const FIELDS: [(&str, EditArgument); 2] = [
    ("a parser out of range loses its counters", |argument| {
        if built_parser(argument).is_some_and(|(parser, _)| !in_range(&parser)) {
            argument[26..58].fill(0);
        }
    }),
    ("the buffer of a begun frame is forgotten", |argument| {
        if argument.len() >= 122 {
            argument[58..122].fill(0);
        }
    }),
];

type Add = fn(u64, usize) -> u64;

const COUNTED: [(&str, Add); 5] = [
    ("a counter wraps at 2 to the 64th", |counter, by| counter.wrapping_add(by as u64)),
    ("a counter wraps at 2 to the 32nd", |counter, by| (counter as u32).wrapping_add(by as u32).into()),
    ("a counter stops where the original's does", |counter, by| counter.saturating_add(by as u64).min(ORIGINAL_MAX)),
    ("a counter stays where the original's stops, and goes on from above it", |counter, by| match counter {
        ORIGINAL_MAX => counter,
        _ => counter.saturating_add(by as u64),
    }),
    ("a counter stops one below the largest", |counter, by| counter.saturating_add(by as u64).min(u64::MAX - 1)),
];

type Edit = fn(&[u8], &mut Vec<u64>);

const NARROW: [(&str, Edit); 4] = [
    ("frames has 32 bits", |_, line| narrow(line, 1)),
    ("resyncs has 32 bits", |_, line| narrow(line, 2)),
    ("dropped has 32 bits", |_, line| narrow(line, 3)),
    ("malformed has 32 bits", |_, line| narrow(line, 4)),
];

/// Lowers one counter of a closing line.
fn narrow(line: &mut [u64], counter: usize) {
    if line.len() == CLOSING {
        line[counter] = line[counter].min(ORIGINAL_MAX);
    }
}

type InRange = fn(&ParserFields) -> bool;

const BOUNDS: [(&str, InRange); 20] = [
    ("matched 3 in a header is out of range", |p| in_range(p) && !(p.state == 0 && p.matched == 3)),
    ("matched 4 in a header is in range", |p| in_range(p) || (p.state == 0 && p.matched == 4)),
    ("matched 1 in the length is out of range", |p| in_range(p) && !(p.state == 1 && p.matched == 1)),
    ("matched 2 in the length is in range", |p| in_range(p) || (p.state == 1 && p.matched == 2)),
    ("length 255 in the length is out of range", |p| in_range(p) && !(p.state == 1 && p.len == 255)),
    ("length 256 in the length is in range", |p| in_range(p) || (p.state == 1 && p.matched == 1 && p.len == 256)),
    ("a length with matched 0 is in range", |p| in_range(p) || (p.state == 1 && p.matched == 0 && p.len <= 255)),
    ("length 1 in data is in range", |p| in_range(p) || (p.state == 2 && p.len == 1 && p.pos == 0)),
    ("length 2 in data is out of range", |p| in_range(p) && !(p.state == 2 && p.len == 2)),
    ("length 54 in data is out of range", |p| in_range(p) && !(p.state == 2 && p.len == 54)),
    ("length 55 in data is in range", |p| in_range(p) || (p.state == 2 && p.len == 55 && p.pos < 55)),
    ("the last position in data is out of range", |p| in_range(p) && !(p.state == 2 && p.pos + 1 == p.len)),
    ("a position at the end in data is in range", |p| {
        in_range(p) || (p.state == 2 && (2..=54).contains(&p.len) && p.pos == p.len)
    }),
    ("length 1 in a tail is in range", |p| in_range(p) || (p.state == 3 && p.len == 1 && p.pos == 1 && p.matched <= 3)),
    ("length 2 in a tail is out of range", |p| in_range(p) && !(p.state == 3 && p.len == 2)),
    ("length 54 in a tail is out of range", |p| in_range(p) && !(p.state == 3 && p.len == 54)),
    ("length 55 in a tail is in range", |p| {
        in_range(p) || (p.state == 3 && p.len == 55 && p.pos == 55 && p.matched <= 3)
    }),
    ("a position before the end in a tail is in range", |p| {
        in_range(p) || (p.state == 3 && (2..=54).contains(&p.len) && p.pos + 1 == p.len && p.matched <= 3)
    }),
    ("matched 3 in a tail is out of range", |p| in_range(p) && !(p.state == 3 && p.matched == 3)),
    ("matched 4 in a tail is in range", |p| {
        in_range(p) || (p.state == 3 && (2..=54).contains(&p.len) && p.pos == p.len && p.matched == 4)
    }),
];
