//! Mistakes in dividing a stream, and the useless versions of document 01.

use super::table_engine::FRESH;
use super::{right, Mutant, CLOSING};
use crate::model::division::{next_piece, Piece, LIMIT};
use crate::model::rules::{Rules, RULES};
use crate::script::{calls, script, Call};

pub fn mutants() -> Vec<Mutant> {
    let mut all = Vec::new();
    for op in [10, 11] {
        all.extend(divisions(op));
    }
    for op in [10, 11, FRESH] {
        all.extend(resets(op));
        all.extend(useless_versions(op));
    }
    all
}

fn divisions(op: u8) -> Vec<Mutant> {
    let divided = |mistake, next_piece| Mutant::rules(op, mistake, Rules { next_piece, ..RULES });
    vec![
        divided("the limit is 53", |rest| next_piece(rest, LIMIT - 1)),
        divided("the limit is 55", |rest| next_piece(rest, LIMIT + 1)),
        divided("the second byte of a bad length is dropped with the header", |rest| match next_piece(rest, LIMIT) {
            (Piece::BrokenStart, 5) => (Piece::BrokenStart, 6),
            piece => piece,
        }),
        divided("the whole span is searched again after a broken tail", |rest| match next_piece(rest, LIMIT) {
            (Piece::BrokenStart, length) if length > 6 => (Piece::BrokenStart, 1),
            piece => piece,
        }),
        divided("a broken start is dropped with the byte after it", |rest| match next_piece(rest, LIMIT) {
            (Piece::BrokenStart, length @ 1..4) => (Piece::BrokenStart, length + 1),
            piece => piece,
        }),
    ]
}

fn resets(op: u8) -> Vec<Mutant> {
    vec![
        Mutant::lines(op, "reset clears the counters", |argument, lines| {
            let calls: Vec<_> = calls(argument).collect();
            let resets = calls.iter().rposition(|call| matches!(call, Call::Reset));
            let after = &calls[resets.map_or(0, |last| last + 1)..];
            set_closing(lines, right(10, &script(after)));
        }),
        Mutant::lines(op, "reset counts the unfinished end", |argument, lines| {
            let calls: Vec<_> = calls(argument).collect();
            let resets = (0..calls.len()).filter(|&place| matches!(calls[place], Call::Reset));
            let unfinished = |place: usize| right(10, &script(&calls[..place])).pop().map_or(0, |line| line[5]);
            if let Some(closing) = lines.last_mut() {
                closing[3] += resets.map(unfinished).sum::<u64>();
            }
        }),
    ]
}

fn set_closing(lines: &mut [Vec<u64>], mut from: Vec<Vec<u64>>) {
    if let (Some(closing), Some(other)) = (lines.last_mut(), from.pop()) {
        closing[1..].copy_from_slice(&other[1..]);
    }
}

fn useless_versions(op: u8) -> Vec<Mutant> {
    vec![
        Mutant::lines(op, "every byte is counted as dropped", |_, lines| {
            let taken = lines.iter().filter(|line| line.len() > CLOSING).map(|line| line[1]).sum();
            if let Some(closing) = lines.last_mut() {
                closing[3] = taken;
            }
        }),
        claimed(op, "a slice's first byte is handled and the rest claimed", |bytes| &bytes[..bytes.len().min(1)]),
        claimed(op, "a slice above 4,096 bytes is claimed and not handled", |bytes| {
            if bytes.len() > 4096 {
                &[]
            } else {
                bytes
            }
        }),
        Mutant::lines(op, "a slice is taken whole though a frame ends in it", |argument, lines| {
            for (line, call) in lines.iter_mut().zip(calls(argument)) {
                if let Call::Slice(bytes) = call {
                    line[1] = bytes.len() as u64;
                }
            }
        }),
        Mutant::numbers(op, "no frame is delivered", |_, line| {
            if line.len() > CLOSING {
                line[2..].fill(0);
            }
        }),
        Mutant::numbers(op, "malformed frames are counted as dropped", |_, line| {
            if line.len() == CLOSING {
                line[3] += line[4];
                line[4] = 0;
            }
        }),
        Mutant::numbers(op, "a payload's start is counted in the frame", |_, line| {
            if line.len() > CLOSING && line[2] == 2 {
                line[56] = 10;
            }
        }),
        Mutant::numbers(op, "the payload's bytes are another frame's", |_, line| {
            if let Some(byte) = line.get_mut(58) {
                *byte += 1;
            }
        }),
    ]
}

/// A variant that handles a part of each slice, and tells all of it as taken.
fn claimed(op: u8, mistake: &str, part: fn(&[u8]) -> &[u8]) -> Mutant {
    Mutant::lines(op, mistake, move |argument, lines| {
        let parts: Vec<_> = calls(argument).map(|call| handled(call, part)).collect();
        let mut wrong = right(10, &script(&parts));
        for ((line, call), taken) in wrong.iter_mut().zip(calls(argument)).zip(&parts) {
            if let (Call::Slice(bytes), Call::Slice(part)) = (call, taken) {
                if bytes.len() > part.len() {
                    line[1] = bytes.len() as u64;
                }
            }
        }
        for (line, wrong) in lines.iter_mut().zip(wrong) {
            line.splice(1.., wrong.into_iter().skip(1));
        }
    })
}

fn handled(call: Call<'_>, part: fn(&[u8]) -> &[u8]) -> Call<'_> {
    match call {
        Call::Slice(bytes) => Call::Slice(part(bytes)),
        call => call,
    }
}
