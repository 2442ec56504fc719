//! Mistakes in a reset: what it forgets and keeps, and what it counts.

use std::ops::Range;

use super::{DROPPED, FRAMES, PARSE, RESYNCS, TAKEN, UNFINISHED};
use crate::model::ld2450::frames::{DATA_END, FRAME, HEADER};
use crate::mutants::{right, Mutant};
use crate::script::{calls, script, Call};

pub fn mutants() -> Vec<Mutant> {
    let mut all: Vec<_> = KEPT.into_iter().map(keeping).collect();
    all.extend(CLEARED.map(|(mistake, places)| clearing(mistake, places)));
    all.extend(COUNTED.map(|(mistake, counted)| counting(mistake, counted)));
    all.push(Mutant::lines(PARSE, "a reset leaves the unfinished length", |argument, lines| {
        let calls: Vec<_> = calls(argument).collect();
        if let (Some(closing), Some((Call::Reset, before))) = (lines.last_mut(), calls.split_last()) {
            closing[UNFINISHED] = unfinished(before);
        }
    }));
    all.push(Mutant::lines(PARSE, "a reset tells what it forgets as taken", |argument, lines| {
        let calls: Vec<_> = calls(argument).collect();
        for place in resets(&calls) {
            lines[place][TAKEN] = unfinished(&calls[..place]);
        }
    }));
    all
}

/// The unfinished length after these calls.
fn unfinished(calls: &[Call<'_>]) -> u64 {
    right(PARSE, &script(calls)).last().map_or(0, |closing| closing[UNFINISHED])
}

fn resets<'a>(calls: &'a [Call<'_>]) -> impl Iterator<Item = usize> + 'a {
    (0..calls.len()).filter(|&place| matches!(calls[place], Call::Reset))
}

const KEPT: [(&str, Range<usize>); 5] = [
    ("a reset keeps a begun frame", 0..FRAME),
    ("a reset keeps a begun header", 0..HEADER.len()),
    ("a reset keeps a header that is there", HEADER.len()..HEADER.len() + 1),
    ("a reset keeps begun data", HEADER.len() + 1..DATA_END),
    ("a reset keeps a frame without its tail", DATA_END..FRAME),
];

/// A variant whose reset does nothing where an unfinished end has one of these lengths. An empty slice does nothing,
/// and has the line of a reset.
fn keeping((mistake, lengths): (&str, Range<usize>)) -> Mutant {
    Mutant::argument(PARSE, mistake, move |argument| {
        let mut kept: Vec<_> = calls(argument).collect();
        let all = kept.clone();
        for place in resets(&all) {
            if lengths.contains(&(unfinished(&all[..place]) as usize)) {
                kept[place] = Call::Slice(&[]);
            }
        }
        *argument = script(&kept);
    })
}

const CLEARED: [(&str, &[usize]); 4] = [
    ("a reset clears the counters", &[FRAMES, RESYNCS, DROPPED]),
    ("a reset clears the frames", &[FRAMES]),
    ("a reset clears the resyncs", &[RESYNCS]),
    ("a reset clears what was dropped", &[DROPPED]),
];

/// A variant whose counters at these places count from the last reset.
fn clearing(mistake: &str, places: &'static [usize]) -> Mutant {
    Mutant::lines(PARSE, mistake, |argument, lines| {
        let calls: Vec<_> = calls(argument).collect();
        let after = &calls[resets(&calls).last().map_or(0, |last| last + 1)..];
        let since = right(PARSE, &script(after));
        if let (Some(closing), Some(since)) = (lines.last_mut(), since.last()) {
            places.iter().for_each(|&place| closing[place] = since[place]);
        }
    })
}

/// What a reset adds to the closing line for an unfinished end of this length.
type Counted = fn(&mut [u64], u64);

const COUNTED: [(&str, Counted); 5] = [
    ("a reset drops an unfinished end", |closing, length| closing[DROPPED] += length),
    ("a reset drops an unfinished end as one byte", |closing, length| closing[DROPPED] += length.min(1)),
    ("a reset of an unfinished end is a resync", |closing, length| closing[RESYNCS] += length.min(1)),
    ("a reset is a resync", |closing, _| closing[RESYNCS] += 1),
    ("a reset counts an unfinished end as a broken start", |closing, length| {
        closing[RESYNCS] += length.min(1);
        closing[DROPPED] += length;
    }),
];

fn counting(mistake: &str, counted: Counted) -> Mutant {
    Mutant::lines(PARSE, mistake, move |argument, lines| {
        let calls: Vec<_> = calls(argument).collect();
        if let Some(closing) = lines.last_mut() {
            resets(&calls).for_each(|place| counted(closing, unfinished(&calls[..place])));
        }
    })
}
