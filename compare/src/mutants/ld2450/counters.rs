//! Mistakes in what each kind of piece adds to the counters, in their width, and in the unfinished length.

use super::{by, CLOSING, DROPPED, FRAMES, PARSE, RESYNCS, UNFINISHED};
use crate::model::ld2450::frames::{DATA_END, FRAME, HEADER};
use crate::model::ld2450::streams::{broken_start, stray, unfinished_end, whole_frame, Totals};
use crate::model::ld2450::{Count, Rules, RULES};
use crate::mutants::Mutant;

pub fn mutants() -> Vec<Mutant> {
    let mut all = Vec::new();
    all.extend(STRAY.map(|(mistake, stray)| by(PARSE, mistake, Rules { stray, ..RULES })));
    all.extend(BROKEN_START.map(|(mistake, broken_start)| by(PARSE, mistake, Rules { broken_start, ..RULES })));
    all.extend(WHOLE_FRAME.map(|(mistake, whole_frame)| by(PARSE, mistake, Rules { whole_frame, ..RULES })));
    all.extend(UNFINISHED_END.map(|(mistake, unfinished_end)| by(PARSE, mistake, Rules { unfinished_end, ..RULES })));
    all.extend(closing());
    all
}

const STRAY: [(&str, Count); 5] = [
    ("a stray byte is not dropped", |_, _| {}),
    ("a stray byte is dropped twice", |totals, length| stray(totals, 2 * length)),
    ("a stray byte is a resync", broken_start),
    ("a stray byte is a resync and not dropped", |totals, _| totals.resyncs += 1),
    ("a stray byte is a frame", whole_frame),
];

const BROKEN_START: [(&str, Count); 23] = [
    ("a broken start is no resync", stray),
    ("a broken start is two resyncs", |totals, length| {
        totals.resyncs += 1;
        broken_start(totals, length);
    }),
    ("each byte of a broken start is a resync", |totals, length| {
        totals.resyncs += length;
        totals.dropped += length;
    }),
    ("a broken start is not dropped", |totals, _| totals.resyncs += 1),
    ("a broken start is dropped as one byte", |totals, _| broken_start(totals, 1)),
    ("a broken start is dropped with the byte after it", |totals, length| broken_start(totals, length + 1)),
    ("a broken start is dropped but for its first byte", |totals, length| broken_start(totals, length - 1)),
    ("a broken start is dropped but for its header", |totals, length| {
        broken_start(totals, if length > HEADER.len() { length - HEADER.len() } else { length });
    }),
    ("a broken start is dropped but for its data", |totals, length| broken_start(totals, length.min(HEADER.len()))),
    ("a broken start is dropped but for its tail", |totals, length| broken_start(totals, length.min(DATA_END))),
    ("a broken start is dropped as a whole frame", |totals, length| {
        broken_start(totals, if length > HEADER.len() { FRAME } else { length });
    }),
    ("a broken start is a frame too", |totals, length| {
        totals.frames += usize::from(length > HEADER.len());
        broken_start(totals, length);
    }),
    ("a broken AA is no resync", no_resync::<1>),
    ("a broken AA FF is no resync", no_resync::<2>),
    ("a broken AA FF 03 is no resync", no_resync::<3>),
    ("a frame without 55 is no resync", no_resync::<28>),
    ("a frame without CC is no resync", no_resync::<29>),
    ("a broken AA is not dropped", undropped::<1>),
    ("a broken AA FF is not dropped", undropped::<2>),
    ("a broken AA FF 03 is not dropped", undropped::<3>),
    ("a frame without 55 is not dropped", undropped::<28>),
    ("a frame without CC is not dropped", undropped::<29>),
    ("a broken start clears what was dropped", |totals, length| {
        totals.dropped = 0;
        broken_start(totals, length);
    }),
];

/// A broken start of this length is dropped and no more.
fn no_resync<const LENGTH: usize>(totals: &mut Totals, length: usize) {
    let count = if length == LENGTH { stray } else { broken_start };
    count(totals, length);
}

/// A broken start of this length is a resync and no more.
fn undropped<const LENGTH: usize>(totals: &mut Totals, length: usize) {
    broken_start(totals, if length == LENGTH { 0 } else { length });
}

const WHOLE_FRAME: [(&str, Count); 7] = [
    ("a whole frame is not counted", |_, _| {}),
    ("a whole frame is counted twice", |totals, _| totals.frames += 2),
    ("a whole frame is counted once", |totals, _| totals.frames = 1),
    ("a whole frame is dropped too", |totals, length| {
        whole_frame(totals, length);
        stray(totals, length);
    }),
    ("a whole frame is a resync too", |totals, length| {
        whole_frame(totals, length);
        totals.resyncs += 1;
    }),
    ("a whole frame clears what was dropped", |totals, length| {
        whole_frame(totals, length);
        totals.dropped = 0;
    }),
    ("a whole frame clears the resyncs", |totals, length| {
        whole_frame(totals, length);
        totals.resyncs = 0;
    }),
];

const UNFINISHED_END: [(&str, Count); 12] = [
    ("an unfinished end is not told", |_, _| {}),
    ("an unfinished end is told one short", |totals, length| totals.unfinished = length - 1),
    ("an unfinished end is told one long", |totals, length| totals.unfinished = length + 1),
    ("an unfinished end is told as what is missing", |totals, length| totals.unfinished = FRAME - length),
    ("an unfinished header is not told", |totals, length| {
        totals.unfinished = if length < HEADER.len() { 0 } else { length };
    }),
    ("an unfinished end is told without its header", |totals, length| {
        totals.unfinished = if length < HEADER.len() { length } else { length - HEADER.len() };
    }),
    ("an unfinished end is told without its tail", |totals, length| totals.unfinished = length.min(DATA_END)),
    ("an unfinished end without a tail is not told", |totals, length| {
        totals.unfinished = if (HEADER.len()..=DATA_END).contains(&length) { 0 } else { length };
    }),
    ("an unfinished end is dropped too", |totals, length| {
        unfinished_end(totals, length);
        stray(totals, length);
    }),
    ("an unfinished end is a resync too", |totals, length| {
        unfinished_end(totals, length);
        totals.resyncs += 1;
    }),
    ("an unfinished end is a frame too", |totals, length| {
        unfinished_end(totals, length);
        whole_frame(totals, length);
    }),
    ("an unfinished end is dropped instead", stray),
];

/// Counters that are narrow, not told, or in each other's places.
fn closing() -> Vec<Mutant> {
    let names = [(FRAMES, "frames"), (RESYNCS, "resyncs"), (DROPPED, "dropped"), (UNFINISHED, "unfinished")];
    let mut all = Vec::new();
    for (place, name) in names {
        all.push(of_closing(format!("{name} is told as 0"), move |line| line[place] = 0));
        for (other, other_name) in names.into_iter().filter(|(other, _)| *other > place) {
            let mistake = format!("{name} and {other_name} are swapped");
            all.push(of_closing(mistake, move |line| line.swap(place, other)));
        }
    }
    for (place, name) in names.into_iter().take(3) {
        all.push(of_closing(format!("{name} wraps at 256"), move |line| line[place] %= 256));
        all.push(of_closing(format!("{name} stops at 255"), move |line| line[place] = line[place].min(255)));
    }
    all
}

fn of_closing(mistake: String, change: impl Fn(&mut [u64]) + 'static) -> Mutant {
    Mutant::numbers(PARSE, mistake, move |_, line| {
        if line.len() == CLOSING {
            change(line);
        }
    })
}
