//! Ops 10, 11, 13, 16 and 17: scripts of calls on the original's parser, fresh or built by hand.

use std::ops::RangeInclusive;

use ld2410::access::{self, Counters, Fields as ParserFields};
use ld2410::{Frame, Parser};

use super::readers::STATE_IN_DATA;
use super::states::Targets;
use super::values::{self, address};
use crate::case::Fields;
use crate::line::Line;
use crate::script::{calls, Call};

pub fn script(op: u8, argument: &[u8], out: &mut Vec<u8>) -> Option<()> {
    let (mut parser, script) = start(op, argument)?;
    let base = address(access::buffer(&parser));
    for call in calls(script) {
        let (taken, delivered) = make(call, &mut parser);
        let mut line = Line::new(out, op);
        values::call(&mut line, taken, delivered.as_ref(), Targets::of, base);
        line.end();
    }
    closing_line(op, Counters::of(parser.stats()), access::unfinished(&parser), out);
    Some(())
}

/// The calls of a script, by their places, that deliver a report with one of these state bytes: it stands in the buffer
/// then.
pub fn delivering(op: u8, argument: &[u8], states: &RangeInclusive<u8>) -> Vec<usize> {
    let Some((mut parser, script)) = start(op, argument) else {
        return Vec::new();
    };
    let mut delivers = |call| {
        let (_, delivered) = make(call, &mut parser);
        matches!(delivered, Some(Frame::Report(_))) && states.contains(&access::buffer(&parser)[STATE_IN_DATA])
    };
    calls(script).enumerate().filter(|&(_, call)| delivers(call)).map(|(place, _)| place).collect()
}

/// Makes a call: the bytes taken, and what is delivered.
fn make<'a>(call: Call<'_>, parser: &'a mut Parser) -> (usize, Option<Frame<'a>>) {
    match call {
        Call::Feed(byte) => (1, parser.feed(byte)),
        Call::Slice(bytes) => parser.feed_slice(bytes),
        Call::Reset => {
            parser.reset();
            (0, None)
        }
    }
}

/// The parser that a script starts from, fresh or built by hand, and the script.
fn start(op: u8, argument: &[u8]) -> Option<(Parser, &[u8])> {
    if !matches!(op, 13 | 17) {
        return Some((Parser::new(), argument));
    }
    let (fields, script) = built_parser(argument)?;
    let mut parser = access::parser(&fields)?;
    if !in_range(&fields) {
        parser.reset();
    }
    Some((parser, script))
}

/// The parser that an argument of op 13 or 17 describes, and its script.
pub fn built_parser(argument: &[u8]) -> Option<(ParserFields, &[u8])> {
    let mut fields = Fields(argument);
    let parser = ParserFields {
        state: fields.u8()?,
        kind: fields.u8()?,
        matched: fields.usize()?,
        len: fields.usize()?,
        pos: fields.usize()?,
        counters: Counters {
            frames: fields.u64()?,
            resyncs: fields.u64()?,
            dropped: fields.u64()?,
            malformed: fields.u64()?,
        },
        buf: fields.array()?,
    };
    Some((parser, fields.rest()))
}

/// Whether the fields in use in the parser's state are in the ranges of document 01, point 5.
pub fn in_range(parser: &ParserFields) -> bool {
    let length_in_range = (2..=54).contains(&parser.len);
    match parser.state {
        0 => parser.matched <= 3,
        1 if parser.matched == 0 => parser.len == 0,
        1 => parser.matched == 1 && parser.len <= 255,
        2 => length_in_range && parser.pos < parser.len,
        _ => length_in_range && parser.pos == parser.len && parser.matched <= 3,
    }
}

pub fn closing_line(op: u8, counters: Counters, unfinished: usize, out: &mut Vec<u8>) {
    let mut line = Line::new(out, op);
    line.number(counters.frames);
    line.number(counters.resyncs);
    line.number(counters.dropped);
    line.number(counters.malformed);
    line.count(unfinished);
    line.end();
}
