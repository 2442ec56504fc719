//! The LD2450 of request 6: what ops 30 to 32 answer.

pub mod division;
pub mod frames;
pub mod streams;

use super::division::Piece;
use super::writers::put;
use crate::case::{Case, Fields};
use crate::line::Line;
use crate::script::calls;
use frames::{Target, Targets, DATA};
use streams::{Stream, Totals};

/// Refusal: "all bytes but such a frame".
const LAYOUT: u8 = 1;

/// The rules of the request, each one replaceable, so that the self-check can put a wrong one in its place.
#[derive(Clone, Copy)]
pub struct Rules {
    /// What stands between header and tail; none for bytes that are no frame.
    pub data: fn(&[u8]) -> Option<[u8; DATA]>,
    /// The number that the two bytes of a signed field are.
    pub signed: fn(u16) -> i16,
    /// Whether eight bytes mean no target.
    pub absent: fn([u8; 8]) -> bool,
    /// The two bytes of a signed field with this number in a present target; none for a number that gets 6.
    pub bits: fn(i16) -> Option<u16>,
    /// Whether a target that is absent may be written.
    pub all_zero: fn(&Target) -> bool,
    /// The piece at the front of the rest of a stretch, and its length.
    pub next_piece: fn(&[u8]) -> (Piece, usize),
    /// What a piece of each kind adds to the totals.
    pub stray: Count,
    pub broken_start: Count,
    pub whole_frame: Count,
    pub unfinished_end: Count,
}

/// Adds a piece of this length to the totals.
pub type Count = fn(&mut Totals, usize);

pub const RULES: Rules = Rules {
    data: frames::data,
    signed: frames::signed,
    absent: frames::absent,
    bits: frames::bits,
    all_zero: frames::all_zero,
    next_piece: division::next_piece,
    stray: streams::stray,
    broken_start: streams::broken_start,
    whole_frame: streams::whole_frame,
    unfinished_end: streams::unfinished_end,
};

/// Appends the answer lines of a case of ops 30 to 32; none for an argument that is too short.
pub fn answer(case: Case<'_>, rules: &Rules, out: &mut Vec<u8>) -> Option<()> {
    match case.op {
        30 => read(case.argument, rules, out),
        31 => write(&mut Fields(case.argument), rules, out)?,
        _ => script(case.argument, rules, out),
    }
    Some(())
}

fn read(bytes: &[u8], rules: &Rules, out: &mut Vec<u8>) {
    let targets = frames::read(bytes, rules);
    let mut line = Line::new(out, 30);
    line.number(if targets.is_some() { 0 } else { LAYOUT });
    write_targets(&mut line, targets);
    line.end();
}

fn write(fields: &mut Fields<'_>, rules: &Rules, out: &mut Vec<u8>) -> Option<()> {
    let (length, fill) = (fields.u16()?, fields.u8()?);
    let targets = [target(fields)?, target(fields)?, target(fields)?];
    let mut buffer = vec![fill; length.into()];
    let written = put(frames::frame(&targets, rules), &mut buffer);
    let mut line = Line::new(out, 31);
    line.number(written.refusal);
    line.count(written.count);
    line.bytes(&buffer);
    line.end();
    Some(())
}

fn target(fields: &mut Fields<'_>) -> Option<Target> {
    Some(Target {
        present: fields.flag()?,
        x: fields.i16()?,
        y: fields.i16()?,
        speed: fields.i16()?,
        resolution: fields.u16()?,
    })
}

fn script(script: &[u8], rules: &Rules, out: &mut Vec<u8>) {
    let mut stream = Stream::new(rules);
    for call in calls(script) {
        let (taken, targets) = stream.call(call);
        let mut line = Line::new(out, 32);
        line.count(taken);
        line.number(targets.is_some());
        write_targets(&mut line, targets);
        line.end();
    }
    let totals = stream.totals();
    let mut line = Line::new(out, 32);
    line.count(totals.frames);
    line.count(totals.resyncs);
    line.count(totals.dropped);
    line.count(totals.unfinished);
    line.end();
}

/// TARGETS of docs/REPLAY.md, all 0 where there are none.
fn write_targets(line: &mut Line<'_>, targets: Option<Targets>) {
    for target in targets.unwrap_or_default() {
        line.number(target.present);
        line.signed(target.x);
        line.signed(target.y);
        line.signed(target.speed);
        line.number(target.resolution);
    }
}
