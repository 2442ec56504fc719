//! The answers to a script by the division of document 01: what each call takes and delivers, the counters as sums
//! over pieces, and the unfinished length.

use ld2410::access::{Counters, Fields as ParserFields};
use ld2410::{Frame, Report};
use std::ops::Range;

use super::division::Piece;
use super::families::{COMMAND, REPORT};
use super::rules::Rules;
use crate::case::Case;
use crate::line::Line;
use crate::oracle::readers::STATE_IN_FRAME;
use crate::oracle::states::States;
use crate::oracle::streams::{built_parser, closing_line};
use crate::oracle::values::{self, address};
use crate::script::{calls, Call};

/// Appends the answer lines of a script of ops 10, 11, 13, 16 and 17; none for a parser that cannot be built.
pub fn answer(case: Case<'_>, rules: &Rules, out: &mut Vec<u8>) -> Option<()> {
    let (pending, counters, script) = if matches!(case.op, 13 | 17) {
        let (parser, script) = built_parser(case.argument)?;
        if parser.state > 3 || parser.kind > 1 {
            return None;
        }
        (pending(&parser, rules), parser.counters, script)
    } else {
        (Vec::new(), Counters::all(0), case.argument)
    };
    let mut stream = Stream { rules, stretches: vec![pending], divided: 0 };
    for call in calls(script) {
        stream.call(case.op, call, out);
    }
    let (counters, unfinished) = stream.totals(counters);
    closing_line(case.op, counters, unfinished, out);
    Some(())
}

/// The open string that a parser stands for: empty for one out of range, which is handled as if reset came first.
fn pending(parser: &ParserFields, rules: &Rules) -> Vec<u8> {
    if !(rules.in_range)(parser) {
        return Vec::new();
    }
    let family = if parser.kind == 0 { REPORT } else { COMMAND };
    let length = (parser.len as u16).to_le_bytes();
    let matched = parser.matched.min(4);
    let data = &parser.buf[..parser.pos.min(parser.buf.len())];
    match parser.state {
        0 => family.header[..matched].to_vec(),
        1 => [&family.header, &length[..matched.min(2)]].concat(),
        2 => [&family.header, &length[..], data].concat(),
        _ => [&family.header, &length[..], data, &family.tail[..matched]].concat(),
    }
}

struct Stream<'a> {
    rules: &'a Rules,
    /// The bytes taken, a stretch for each reset and one more.
    stretches: Vec<Vec<u8>>,
    /// How much of the last stretch is divided: all but an unfinished end. More bytes do not change these pieces,
    /// since each depends on its own bytes and the one after it.
    divided: usize,
}

impl Stream<'_> {
    fn call(&mut self, op: u8, call: Call<'_>, out: &mut Vec<u8>) {
        let (taken, frame) = match call {
            Call::Feed(byte) => self.take(&[byte]),
            Call::Slice(bytes) => self.take(bytes),
            Call::Reset => {
                self.stretches.push(Vec::new());
                self.divided = 0;
                (0, None)
            }
        };
        let stretch = self.stretches.last().expect("a stretch is always there");
        let frame = frame.map_or(&[][..], |place| &stretch[place]);
        call_line(op, taken, frame, self.rules, out);
    }

    /// Takes the slice up to the end of the first whole frame that ends at a byte of it, else all of it: the count,
    /// and the frame's place in the stretch.
    fn take(&mut self, slice: &[u8]) -> (usize, Option<Range<usize>>) {
        let stretch = self.stretches.last_mut().expect("a stretch is always there");
        let before = stretch.len();
        stretch.extend(slice);
        while self.divided < stretch.len() {
            let start = self.divided;
            let (piece, length) = (self.rules.next_piece)(&stretch[start..]);
            if piece == Piece::UnfinishedEnd {
                break;
            }
            self.divided += length;
            if piece == Piece::WholeFrame {
                stretch.truncate(self.divided);
                return (self.divided - before, Some(start..self.divided));
            }
        }
        (slice.len(), None)
    }

    /// The counters, summed over the pieces of every stretch, and the length of the last one's unfinished end.
    fn totals(&self, mut counters: Counters) -> (Counters, usize) {
        let add = self.rules.add;
        let mut unfinished = 0;
        for stretch in &self.stretches {
            unfinished = 0;
            let mut rest = &stretch[..];
            while !rest.is_empty() {
                let (piece, length) = (self.rules.next_piece)(rest);
                match piece {
                    Piece::Stray => counters.dropped = add(counters.dropped, 1),
                    Piece::BrokenStart => {
                        counters.resyncs = add(counters.resyncs, 1);
                        counters.dropped = add(counters.dropped, length);
                    }
                    Piece::WholeFrame if Frame::parse(&rest[..length]).is_ok() => {
                        counters.frames = add(counters.frames, 1);
                    }
                    Piece::WholeFrame => counters.malformed = add(counters.malformed, 1),
                    Piece::UnfinishedEnd => unfinished = length,
                }
                rest = &rest[length..];
            }
        }
        (counters, unfinished)
    }
}

/// Appends the line of a call that takes so many bytes, up to the end of a whole frame where one is there.
pub fn call_line(op: u8, taken: usize, frame: &[u8], rules: &Rules, out: &mut Vec<u8>) {
    let delivered = Frame::parse(frame).ok();
    let targets = |report: &Report| States::By(rules.state).targets(frame[STATE_IN_FRAME], report);
    let mut line = Line::new(out, op);
    values::call(&mut line, taken, delivered.as_ref(), targets, buffer_base(frame));
    line.end();
}

/// Where a payload's start is counted from: the parser's buffer holds the data, which stand after header and length.
fn buffer_base(frame: &[u8]) -> usize {
    frame.get(6..).map_or(0, address)
}
