//! Op 5: whole frames of both families, good and bad, around every check F1 to F4.

use super::acks::{ack_near_good, good_ack, large_ack};
use super::damage::{damaged, every_damage};
use super::random::Random;
use super::reports::{
    every_state, good_report, large_report, large_report_of, marked_data, report_near_good, BOUNDARY_LENGTHS,
};
use super::Cases;
use crate::model::families::{Family, COMMAND, REPORT};
use crate::published;

/// A frame that decodes.
pub fn good_frame(random: &mut Random) -> Vec<u8> {
    if random.once_in(2) {
        REPORT.frame(&good_report(random))
    } else {
        COMMAND.frame(&good_ack(random))
    }
}

/// A frame, right in its framing, whose data may not decode.
pub fn framed(random: &mut Random) -> Vec<u8> {
    if random.once_in(2) {
        REPORT.frame(&report_near_good(random))
    } else {
        COMMAND.frame(&ack_near_good(random))
    }
}

pub fn frame_cases(cases: &mut Cases<'_>) {
    for frame in published::all() {
        every_damage(&frame, &mut |bytes| cases.add(bytes));
        cases.add(&frame);
    }
    for data in every_state(&mut cases.random) {
        cases.add(&REPORT.frame(&data));
    }
    boundary_lengths(cases);
    every_length_told(cases);
    largest_frames(cases);
    cases.draw(3_000, large_frame);
    cases.draw_million(frame_near_good);
}

/// Frames of every boundary length, of each family and with the other's header or tail.
fn boundary_lengths(cases: &mut Cases<'_>) {
    let families = [REPORT, COMMAND];
    for length in BOUNDARY_LENGTHS {
        for header in &families {
            for tail in &families {
                for data_type in 0..=4 {
                    let data = marked_data(length, data_type, 0, &mut cases.random);
                    cases.add(&mixed(header, tail, &data));
                }
            }
        }
    }
}

/// A frame with one family's header and perhaps the other's tail.
fn mixed(header: &Family, tail: &Family, data: &[u8]) -> Vec<u8> {
    let family = Family { header: header.header, tail: tail.tail };
    family.frame(data)
}

/// Good frames whose length says every number near the right one, and some far from it.
fn every_length_told(cases: &mut Cases<'_>) {
    for _ in 0..40 {
        let good = good_frame(&mut cases.random);
        let right = (good.len() - 10) as u16;
        let near = (-14..=14).map(|by| right.wrapping_add_signed(by));
        let far = [0, 1, 2, 255, 256, 0x7FFF, 0x8000, 0xFFFF, right << 8, right | 0x0100];
        for told in near.chain(far) {
            let mut bytes = good.clone();
            bytes[4..6].copy_from_slice(&told.to_le_bytes());
            cases.add(&bytes);
        }
    }
}

fn largest_frames(cases: &mut Cases<'_>) {
    for length in [65_533, 65_534, 65_535] {
        let data = large_report_of(length, &mut cases.random);
        let frame = REPORT.frame(&data);
        cases.add(&frame);
        cases.add(&frame[..frame.len() - 1]);
        cases.add(&[&frame[..], &[0xF5]].concat());
        cases.add(&COMMAND.frame(&[&[0xFF, 0x01], &data[2..]].concat()));
    }
}

fn large_frame(random: &mut Random) -> Vec<u8> {
    let frame = if random.once_in(2) {
        REPORT.frame(&large_report(65_535, random))
    } else {
        COMMAND.frame(&large_ack(65_535, random))
    };
    if random.once_in(3) {
        damaged(&frame, random)
    } else {
        frame
    }
}

pub fn frame_near_good(random: &mut Random) -> Vec<u8> {
    match random.below(8) {
        0..=1 => good_frame(random),
        2..=3 => framed(random),
        4..=5 => {
            let good = good_frame(random);
            damaged(&good, random)
        }
        6 => {
            let frame = framed(random);
            damaged(&frame, random)
        }
        _ => {
            let length = random.below(70);
            let header = random.pick(&[&REPORT.header[..], &COMMAND.header, &[]]);
            [header, &random.bytes(length)].concat()
        }
    }
}
