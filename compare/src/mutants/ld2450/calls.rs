//! Mistakes in how calls follow one another, in how a slice is taken, and in how many bytes are told as taken.

use super::{delivers, DROPPED, PARSE, TAKEN, THERE};
use crate::model::ld2450::frames::FRAME;
use crate::mutants::{right, Mutant};
use crate::script::{calls, script, Call};

pub fn mutants() -> Vec<Mutant> {
    let mut all: Vec<_> = TOLD.into_iter().map(|(mistake, edit)| of_calls(mistake, edit)).collect();
    all.extend(AFRESH.map(|(mistake, others)| followed(mistake, others)));
    all.extend(past_a_frame());
    all.extend(scripts());
    all.push(Mutant::lines(PARSE, "every byte is dropped", |_, lines| {
        let taken = lines.iter().rev().skip(1).map(|line| line[TAKEN]).sum();
        if let Some(closing) = lines.last_mut() {
            closing[DROPPED] = taken;
        }
    }));
    all
}

type Edit = fn(Call<'_>, &mut [u64]);

/// A variant with the line of each call changed, seen beside the call.
fn of_calls(mistake: &str, edit: Edit) -> Mutant {
    Mutant::lines(PARSE, mistake, move |argument, lines| {
        calls(argument).zip(lines).for_each(|(call, line)| edit(call, line));
    })
}

const TOLD: [(&str, Edit); 14] = [
    ("one byte more is told where a frame ends in a slice", |call, line| told(call, line, true, |_, taken| taken + 1)),
    ("one byte less is told where a frame ends in a slice", |call, line| told(call, line, true, |_, taken| taken - 1)),
    ("a slice is told as taken whole though a frame ends in it", |call, line| told(call, line, true, |all, _| all)),
    ("30 bytes are told where a frame ends in a slice", |call, line| told(call, line, true, |_, _| FRAME as u64)),
    ("what a slice leaves is told as taken", |call, line| told(call, line, true, |all, taken| all - taken)),
    ("nothing is told where a frame ends in a slice", |call, line| told(call, line, true, |_, _| 0)),
    ("one byte more is told where no frame ends in a slice", |call, line| {
        told(call, line, false, |_, taken| taken + 1)
    }),
    ("one byte less is told where no frame ends in a slice", |call, line| {
        told(call, line, false, |_, taken| taken.saturating_sub(1));
    }),
    ("nothing is told where no frame ends in a slice", |call, line| told(call, line, false, |_, _| 0)),
    ("an empty slice takes a byte", |call, line| {
        told(call, line, false, |all, taken| if all == 0 { 1 } else { taken })
    }),
    ("a single byte is not told", |call, line| line[TAKEN] = if single(call) { 0 } else { line[TAKEN] }),
    ("a single byte is told only where a frame ends", |call, line| {
        line[TAKEN] = if single(call) { line[THERE] } else { line[TAKEN] };
    }),
    ("30 bytes are told where a frame ends with a single byte", |call, line| {
        line[TAKEN] = if single(call) && delivers(line) { FRAME as u64 } else { line[TAKEN] };
    }),
    ("a reset is told as a byte", |call, line| {
        line[TAKEN] = if matches!(call, Call::Reset) { 1 } else { line[TAKEN] };
    }),
];

fn single(call: Call<'_>) -> bool {
    matches!(call, Call::Feed(_))
}

/// Changes what a slice tells as taken, from its length and that, where it delivers a frame or where it does not.
fn told(call: Call<'_>, line: &mut [u64], delivered: bool, change: fn(u64, u64) -> u64) {
    if let Call::Slice(bytes) = call {
        if delivers(line) == delivered {
            line[TAKEN] = change(bytes.len() as u64, line[TAKEN]);
        }
    }
}

type Others = for<'a> fn(Call<'a>) -> Vec<Call<'a>>;

const AFRESH: [(&str, Others); 8] = [
    ("a slice begins afresh", |call| match call {
        Call::Slice(_) => vec![Call::Reset, call],
        _ => vec![call],
    }),
    ("a single byte begins afresh", |call| match call {
        Call::Feed(_) => vec![Call::Reset, call],
        _ => vec![call],
    }),
    ("a slice forgets what it leaves unfinished", |call| match call {
        Call::Slice(_) => vec![call, Call::Reset],
        _ => vec![call],
    }),
    ("an empty slice is a reset", |call| match call {
        Call::Slice([]) => vec![Call::Reset],
        _ => vec![call],
    }),
    ("a slice's first byte is handled and the rest claimed", |call| match call {
        Call::Slice([first, ..]) => vec![Call::Feed(*first)],
        _ => vec![call],
    }),
    ("a slice's last byte is claimed and not handled", |call| match call {
        Call::Slice([bytes @ .., _]) => vec![Call::Slice(bytes)],
        _ => vec![call],
    }),
    ("a slice above 4,096 bytes is claimed and not handled", |call| match call {
        Call::Slice(bytes) if bytes.len() > 4096 => vec![Call::Slice(&[])],
        _ => vec![call],
    }),
    ("a slice of one byte is not handled", |call| match call {
        Call::Slice([_]) => vec![Call::Slice(&[])],
        _ => vec![call],
    }),
];

/// The right lines to other calls in the place of each: those of each call, and the closing line.
fn answers(argument: &[u8], others: impl Fn(Call<'_>) -> Vec<Call<'_>>) -> (Vec<Vec<Vec<u64>>>, Vec<u64>) {
    let groups: Vec<_> = calls(argument).map(others).collect();
    let mut lines = right(PARSE, &script(&groups.concat())).into_iter();
    let of_group = |group: &Vec<_>| lines.by_ref().take(group.len()).collect();
    let answers = groups.iter().map(of_group).collect();
    (answers, lines.next().unwrap_or_default())
}

/// A variant that makes other calls, and tells what the right one would take where no frame is there.
fn followed(mistake: &str, others: Others) -> Mutant {
    Mutant::lines(PARSE, mistake, move |argument, lines| {
        let (answers, closing) = answers(argument, others);
        for ((line, call), group) in lines.iter_mut().zip(calls(argument)).zip(answers) {
            let longest = group.into_iter().max_by_key(|line| line[TAKEN]).unwrap_or_default();
            let taken = if delivers(&longest) { longest[TAKEN] } else { length(call) };
            *line = longest;
            line[TAKEN] = taken;
        }
        if let Some(line) = lines.last_mut() {
            *line = closing;
        }
    })
}

/// The bytes of a call.
fn length(call: Call<'_>) -> u64 {
    match call {
        Call::Feed(_) => 1,
        Call::Slice(bytes) => bytes.len() as u64,
        Call::Reset => 0,
    }
}

/// Slices that are taken whole, the frames in them counted, and one of them delivered.
fn past_a_frame() -> [Mutant; 2] {
    let past = |mistake, delivered: fn(Vec<Vec<u64>>) -> Option<Vec<u64>>| {
        Mutant::lines(PARSE, mistake, move |argument, lines| {
            let (answers, closing) = answers(argument, single_bytes);
            for ((line, call), group) in lines.iter_mut().zip(calls(argument)).zip(answers) {
                let frames = group.into_iter().filter(|line| delivers(line)).collect();
                line[THERE..].fill(0);
                if let Some(frame) = delivered(frames) {
                    *line = frame;
                }
                line[TAKEN] = length(call);
            }
            if let Some(line) = lines.last_mut() {
                *line = closing;
            }
        })
    };
    [
        past("a slice goes on after a frame, and delivers the first", |frames| frames.into_iter().next()),
        past("a slice goes on after a frame, and delivers the last", |mut frames| frames.pop()),
    ]
}

fn single_bytes(call: Call<'_>) -> Vec<Call<'_>> {
    match call {
        Call::Slice(bytes) => bytes.iter().map(|&byte| Call::Feed(byte)).collect(),
        _ => vec![call],
    }
}

/// Mistakes in the calls of a script.
fn scripts() -> [Mutant; 2] {
    [
        Mutant::argument(PARSE, "a number that no call has is passed over", |argument| {
            let end = script(&calls(argument).collect::<Vec<_>>()).len();
            if argument.get(end).is_some_and(|&number| number > 2) {
                argument.remove(end);
            }
        }),
        Mutant::argument(PARSE, "a slice that is cut short is fed", |argument| {
            let end = script(&calls(argument).collect::<Vec<_>>()).len();
            if let [1, _, _, bytes @ ..] = &argument[end..] {
                let length = (bytes.len() as u16).to_le_bytes();
                argument[end + 1..end + 3].copy_from_slice(&length);
            }
        }),
    ]
}
