//! Mistakes in which frames a call delivers and counts, and in what it delivers.

use super::{delivers, CALL, FRAMES, PARSE, TAKEN, TARGET_NUMBERS, THERE};
use crate::model::ld2450::frames::FRAME;
use crate::mutants::{right, Mutant};
use crate::published;
use crate::script::{calls, script, Call};

/// Where TARGETS begin in the line of a call.
const TARGETS: usize = 3;

pub fn mutants() -> Vec<Mutant> {
    let mut all = Vec::new();
    for (name, which) in WHICH {
        all.extend([undelivered(name, which), uncounted(name, which)]);
    }
    all.extend(LINES.map(|(mistake, edit)| Mutant::lines(PARSE, mistake, move |_, lines| edit(lines))));
    all
}

/// Whether it is this frame, by the call that delivers it and the call's line.
type Which = fn(Call<'_>, &[u64]) -> bool;

const WHICH: [(&str, Which); 11] = [
    ("a frame", |_, _| true),
    ("a frame that a single byte ends", |call, _| matches!(call, Call::Feed(_))),
    ("a frame that a slice ends", |call, _| matches!(call, Call::Slice(_))),
    ("a frame at a slice's end", |call, line| matches!(call, Call::Slice(bytes) if bytes.len() as u64 == line[TAKEN])),
    ("a frame within a slice", |call, line| matches!(call, Call::Slice(bytes) if bytes.len() as u64 > line[TAKEN])),
    ("a frame begun before the slice", |call, line| matches!(call, Call::Slice(_)) && line[TAKEN] < FRAME as u64),
    ("a frame at a slice's front", |_, line| line[TAKEN] == FRAME as u64),
    ("a frame after other bytes of its slice", |_, line| line[TAKEN] > FRAME as u64),
    ("a frame of three absent targets", |_, line| presences(line).all(|present| present == 0)),
    ("a frame with an absent target", |_, line| presences(line).any(|present| present == 0)),
    ("a frame without an absent target", |_, line| presences(line).all(|present| present == 1)),
];

fn presences(line: &[u64]) -> impl Iterator<Item = u64> + '_ {
    line[TARGETS..].iter().copied().step_by(TARGET_NUMBERS)
}

fn undelivered(name: &str, which: Which) -> Mutant {
    Mutant::lines(PARSE, format!("{name} is not delivered"), move |argument, lines| {
        for (call, line) in calls(argument).zip(lines) {
            if delivers(line) && which(call, line) {
                line[THERE..].fill(0);
            }
        }
    })
}

fn uncounted(name: &str, which: Which) -> Mutant {
    Mutant::lines(PARSE, format!("{name} is not counted"), move |argument, lines| {
        let of_calls = calls(argument).zip(lines.iter());
        let uncounted = of_calls.filter(|(call, line)| delivers(line) && which(*call, line)).count();
        if let Some(closing) = lines.last_mut() {
            closing[FRAMES] -= uncounted as u64;
        }
    })
}

/// The TARGETS of the lines that deliver a frame.
fn deliveries(lines: &mut [Vec<u64>]) -> impl Iterator<Item = &mut [u64]> {
    lines.iter_mut().filter(|line| delivers(line)).map(|line| &mut line[TARGETS..])
}

type Edit = fn(&mut [Vec<u64>]);

const LINES: [(&str, Edit); 8] = [
    ("a frame is delivered by the next call too", |lines| {
        for place in (1..lines.len()).rev() {
            if delivers(&lines[place - 1]) && lines[place].len() == CALL && !delivers(&lines[place]) {
                copy(lines, place - 1, place, THERE);
            }
        }
    }),
    ("a frame is delivered a call late", |lines| {
        let calls = lines.len() - 1;
        for place in (1..calls).rev() {
            copy(lines, place - 1, place, THERE);
        }
        lines[..calls].iter_mut().take(1).for_each(|line| line[THERE..].fill(0));
    }),
    ("a frame's targets stay beside no frame", |lines| {
        for place in 1..lines.len() - 1 {
            if !delivers(&lines[place]) {
                copy(lines, place - 1, place, TARGETS);
            }
        }
    }),
    ("the first frame is delivered again for each", |lines| {
        let first = deliveries(lines).next().map(|targets| targets.to_vec());
        deliveries(lines).for_each(|targets| targets.copy_from_slice(first.as_deref().unwrap_or_default()));
    }),
    ("an absent target is as in the frame before", |lines| {
        let mut before = [0; CALL - TARGETS];
        for targets in deliveries(lines) {
            for (target, old) in targets.chunks_mut(TARGET_NUMBERS).zip(before.chunks(TARGET_NUMBERS)) {
                if target[0] == 0 {
                    target.copy_from_slice(old);
                }
            }
            before.copy_from_slice(targets);
        }
    }),
    ("a frame is delivered without its targets", |lines| deliveries(lines).for_each(|targets| targets.fill(0))),
    ("a frame's targets are told and no frame", |lines| {
        lines.iter_mut().filter(|line| delivers(line)).for_each(|line| line[THERE] = 0);
    }),
    ("the printed frame is delivered for each", |lines| {
        let printed = right(PARSE, &script(&[Call::Slice(&published::bytes(published::LD2450))]));
        deliveries(lines).for_each(|targets| targets.copy_from_slice(&printed[0][TARGETS..]));
    }),
];

/// Copies the numbers from a place on from one line to another.
fn copy(lines: &mut [Vec<u64>], from: usize, to: usize, place: usize) {
    let numbers = lines[from][place..].to_vec();
    lines[to][place..].copy_from_slice(&numbers);
}
