//! Op 30: the LD2450's frames, every pair of bytes in every field, and bytes that are no frame.

use super::{any_data, any_frame, frame, holding, plain, printed, ENDS};
use crate::generate::damage::{damaged, every_damage};
use crate::generate::random::Random;
use crate::generate::Cases;
use crate::model::ld2450::frames::{DATA, DATA_END, FRAME, HEADER, TAIL, TARGET};
use crate::published;

pub fn frame_cases(cases: &mut Cases<'_>) {
    for frame in good_frames() {
        every_damage(&frame, &mut |bytes| cases.add(bytes));
        cases.add(&frame);
    }
    published::all().iter().for_each(|frame| cases.add(frame));
    every_byte_of_the_framing(cases);
    every_length(cases);
    every_byte_alone(cases);
    every_end_of_each_field(cases);
    cases.up_to_two_bytes();
    every_pair(cases);
    cases.draw_million(frame_near_good);
}

/// The printed frame; frames without absent targets, without any target, and with the framing in their data.
pub fn good_frames() -> [Vec<u8>; 6] {
    [
        printed(),
        plain(),
        frame([0; DATA]),
        frame([0xFF; DATA]),
        holding(&HEADER, 12),
        holding(&[&TAIL[..], &HEADER].concat(), 4),
    ]
}

/// Every pair of bytes in each of the four fields of each target, its other bytes zero; the other targets are absent,
/// or any.
fn every_pair(cases: &mut Cases<'_>) {
    for field in (0..DATA).step_by(2) {
        for pair in 0..=u16::MAX {
            let mut data = if pair % 2 == 0 { [0; DATA] } else { any_data(&mut cases.random) };
            let target = field / TARGET * TARGET;
            data[target..target + TARGET].fill(0);
            data[field..field + 2].copy_from_slice(&pair.to_le_bytes());
            cases.add(&frame(data));
        }
    }
}

/// Eight bytes of which one alone is not zero, at every place, in a frame without other targets.
fn every_byte_alone(cases: &mut Cases<'_>) {
    for place in 0..DATA {
        for byte in 0..=255 {
            let mut data = [0; DATA];
            data[place] = byte;
            cases.add(&frame(data));
        }
    }
}

/// Every end of a field beside every end of the next, in each target.
fn every_end_of_each_field(cases: &mut Cases<'_>) {
    for first in (0..DATA - 2).step_by(2) {
        for a in ENDS {
            for b in ENDS {
                let mut data = [0; DATA];
                data[first..first + 2].copy_from_slice(&a.to_le_bytes());
                data[first + 2..first + 4].copy_from_slice(&b.to_le_bytes());
                cases.add(&frame(data));
            }
        }
    }
}

/// Every byte in each place of header and tail.
fn every_byte_of_the_framing(cases: &mut Cases<'_>) {
    for good in [printed(), plain()] {
        for place in (0..HEADER.len()).chain(DATA_END..FRAME) {
            for byte in 0..=255 {
                let mut bytes = good.clone();
                bytes[place] = byte;
                cases.add(&bytes);
            }
        }
    }
}

/// Frames with data of every length around 24, and of large ones; frames cut short, and followed by more.
fn every_length(cases: &mut Cases<'_>) {
    for length in (0..=64).chain([255, 256, 280, 65_535, 69_994]) {
        for byte in [0x00, 0x55, 0xAA] {
            cases.add(&[&HEADER[..], &vec![byte; length], &TAIL].concat());
        }
    }
    let twice = [printed(), plain(), printed()].concat();
    for start in 0..=FRAME {
        for end in start..=twice.len() {
            cases.add(&twice[start..end]);
        }
    }
}

fn frame_near_good(random: &mut Random) -> Vec<u8> {
    let frame = any_frame(random);
    match random.below(8) {
        0..=4 => frame,
        5 => damaged(&frame, random),
        6 => {
            let once = damaged(&frame, random);
            damaged(&once, random)
        }
        _ => {
            let length = random.below(40);
            random.bytes(length)
        }
    }
}
