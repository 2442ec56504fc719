//! Streams of an LD2450 that break at every place: by every byte, by begun frames and runs, by the framing in the data.

use super::frames::good_frames;
use super::streams::by_slices;
use super::{holding, plain, printed, LETTERS};
use crate::generate::calls::by_bytes;
use crate::generate::Cases;
use crate::model::ld2450::frames::{DATA_END, FRAME, HEADER, TAIL};
use crate::script::{script, Call};

pub fn every_break(cases: &mut Cases<'_>) {
    every_offending_byte(cases);
    every_begun_frame(cases);
    every_run(cases);
    every_framing_in_the_data(cases);
    every_short_string(cases);
}

/// Every byte instead of that at every place of a frame: what follows is the frame's rest, a frame that the offending
/// byte may begin, another frame, or nothing.
fn every_offending_byte(cases: &mut Cases<'_>) {
    for good in [printed(), plain(), holding(&HEADER, 24)] {
        for place in 0..FRAME {
            for byte in 0..=255 {
                let broken = [&good[..place], &[byte]].concat();
                let rests = [&good[place + 1..], &plain()[1..], &printed()[..], &[]];
                for rest in rests {
                    cases.add(&by_slices(&[&broken[..], rest, &printed()].concat(), || 100));
                }
                cases.add(&script(&[Call::Slice(&good[..place]), Call::Feed(byte), Call::Slice(&good[1..])]));
            }
            for first in LETTERS {
                for second in LETTERS {
                    let stream = [&good[..place], &[first, second], &good].concat();
                    cases.add(&by_slices(&stream, || 100));
                    cases.add(&script(&[Call::Slice(&good[..place]), Call::Feed(first), Call::Feed(second)]));
                }
            }
        }
    }
}

/// Begun frames of every length before a frame: only the byte that breaks one is tried as a new start, so that the
/// frame that follows may be lost in it, though it is whole.
fn every_begun_frame(cases: &mut Cases<'_>) {
    for begun in good_frames() {
        for length in 0..=FRAME {
            for good in good_frames() {
                let stream = [&begun[..length], &good, &plain(), &printed()[..7]].concat();
                cases.add(&by_slices(&stream, || 200));
                cases.add(&by_slices(&stream, || 13));
                cases.add(&script(&[Call::Slice(&begun[..length]), Call::Reset, Call::Slice(&good)]));
            }
            let again = [&begun[..length], &begun[..length], &begun[..length], &begun].concat();
            cases.add(&by_slices(&again, || 200));
            cases.add(&by_bytes(&again));
        }
    }
}

/// Runs of AA of every length, and of other bytes of the framing, before a frame, its rest, a part of it, and alone.
fn every_run(cases: &mut Cases<'_>) {
    let (good, other) = (plain(), printed());
    for length in (0..=70).chain([100, 255, 256, 300]) {
        for byte in LETTERS {
            let run = vec![byte; length];
            for rest in [&good[..], &good[1..], &good[2..], &good[..1], &good[1..3], &good[4..], &[0xFF], &[]] {
                let stream = [&run[..], rest, &other].concat();
                cases.add(&by_slices(&stream, || 400));
                cases.add(&script(&[Call::Slice(&run), Call::Slice(&[]), Call::Slice(rest), Call::Slice(&other)]));
            }
            cases.add(&script(&[Call::Slice(&run)]));
            if length <= 70 {
                cases.add(&by_bytes(&run));
            }
        }
    }
    for length in [1_000, 10_000, 60_000] {
        cases.add(&script(&[Call::Slice(&vec![0xAA; length]), Call::Slice(&good[1..]), Call::Slice(&good)]));
    }
}

/// Headers, tails and parts of them at every place of the data; then the frame's tail, a broken one, or a frame.
fn every_framing_in_the_data(cases: &mut Cases<'_>) {
    let joined = [&TAIL[..], &HEADER].concat();
    let strings = [&HEADER[..], &HEADER[..1], &HEADER[..2], &HEADER[..3], &TAIL, &TAIL[..1], &TAIL[1..], &joined];
    for string in strings {
        for place in HEADER.len()..DATA_END {
            let good = holding(string, place);
            for tail in [&TAIL[..], &[0x55, 0x00], &[0x55, 0xAA], &[0x55, 0x55, 0xCC], &[0xCC, 0x55], &[0xAA]] {
                let stream = [&good[..DATA_END], tail, &good].concat();
                cases.add(&by_slices(&stream, || 100));
                let (front, back) = stream.split_at(DATA_END + 1);
                cases.add(&script(&[Call::Slice(front), Call::Slice(back)]));
            }
            cases.add(&by_bytes(&good));
        }
    }
    for place in HEADER.len()..DATA_END {
        let within = holding(&plain(), place);
        cases.add(&by_slices(&[&within[..DATA_END], &plain()[DATA_END - place..], &printed()].concat(), || 100));
        cases.add(&by_slices(&[&within[..], &plain()[FRAME - place..], &printed()].concat(), || 100));
    }
}

/// Every short string of the framing's bytes, from fresh and where a frame's tail is due.
fn every_short_string(cases: &mut Cases<'_>) {
    let begun = &plain()[..DATA_END];
    let mut strings = vec![Vec::new()];
    for length in 1..=5 {
        let longer = |string: &Vec<u8>| LETTERS.map(|letter| [&string[..], &[letter]].concat());
        strings = strings.iter().flat_map(longer).collect();
        for string in &strings {
            let (front, back) = string.split_at(length / 2);
            cases.add(&by_bytes(string));
            cases.add(&script(&[Call::Slice(string)]));
            cases.add(&script(&[Call::Slice(front), Call::Slice(&[]), Call::Slice(back)]));
            if length <= 4 {
                cases.add(&[script(&[Call::Slice(begun)]), by_bytes(string)].concat());
                cases.add(&by_slices(&[begun, string, begun, &TAIL].concat(), || 100));
            }
        }
    }
}
