//! Ops 3 and 4: acknowledgement data and the replies in them.

use super::damage::{damaged, every_damage};
use super::random::Random;
use super::reports::{BOUNDARY_LENGTHS, MAX_GATES};
use super::Cases;
use crate::model::families::ACK_BIT;
use crate::published;

/// Every word of the link.
pub const WORDS: [u16; 13] =
    [0x00FF, 0x00FE, 0x0060, 0x0061, 0x0062, 0x0063, 0x0064, 0x00A0, 0x00A1, 0x00A2, 0x00A3, 0x00A4, 0x00A5];
/// The words whose acknowledgements carry a reply: EnableConfig, ReadFirmware, ReadMac, ReadParameters.
pub const REPLY_WORDS: [u16; 4] = [0x00FF, 0x00A0, 0x00A5, 0x0061];

/// Acknowledgement data: the word as sent, status, payload.
pub fn ack_data(word: u16, status: u16, payload: &[u8]) -> Vec<u8> {
    [&word.to_le_bytes()[..], &status.to_le_bytes(), payload].concat()
}

/// A payload of `parameters`: AA, the three gates, the sensitivities and the seconds, then `surplus` more bytes, or,
/// below 0, so many fewer.
pub fn parameters_payload(max_gate: u8, surplus: isize, random: &mut Random) -> Vec<u8> {
    let body = 2 * (usize::from(max_gate) + 1) + 2;
    let mut payload = vec![0xAA, max_gate, random.byte(), random.byte()];
    payload.extend(random.bytes(body.saturating_add_signed(surplus)));
    payload
}

/// A payload for a word: long enough for its reply, or nearly so.
fn payload_for(word: u16, random: &mut Random) -> Vec<u8> {
    let surplus = random.pick(&[0, 0, 0, 0, 1, 2, -1, -2]);
    let length = match word & !ACK_BIT {
        0x00FF => 4,
        0x00A0 => 8,
        0x00A5 => 6,
        0x0061 => {
            let max_gate = random.pick(&[0, 1, 7, 8, 8, 8, 8, 9, 10, 255]);
            return parameters_payload(max_gate, surplus, random);
        }
        _ => random.below(12),
    };
    random.bytes(length.saturating_add_signed(surplus))
}

pub fn any_word(random: &mut Random) -> u16 {
    match random.below(8) {
        0 => random.u16(),
        1 => random.pick(&WORDS) ^ (1 << random.below(16)),
        2 => random.pick(&WORDS),
        _ => random.pick(&REPLY_WORDS),
    }
}

pub fn any_status(random: &mut Random) -> u16 {
    random.pick(&[0, 0, 0, 0, 0, 0, 1, 2, 0x0100, 0x8000, 0xFFFF])
}

/// Data that pass A1 and A2.
pub fn good_ack(random: &mut Random) -> Vec<u8> {
    let word = any_word(random) | ACK_BIT;
    let status = any_status(random);
    ack_data(word, status, &payload_for(word, random))
}

/// An acknowledgement of at least 300 and at most `most` data bytes.
pub fn large_ack(most: usize, random: &mut Random) -> Vec<u8> {
    let length = random.large_length(most);
    ack_data(any_word(random) | ACK_BIT, any_status(random), &random.bytes(length - 4))
}

pub fn ack_near_good(random: &mut Random) -> Vec<u8> {
    match random.below(6) {
        0..=2 => good_ack(random),
        3 | 4 => {
            let good = good_ack(random);
            damaged(&good, random)
        }
        _ => {
            let length = random.below(60);
            random.bytes(length)
        }
    }
}

pub fn ack_cases(cases: &mut Cases<'_>) {
    cases.up_to_two_bytes();
    each_acknowledgement_damaged(cases, |cases, _, data| cases.add(data));
    boundary_lengths(cases, |cases, _, data| cases.add(data));
    cases.draw(3_000, |random| large_ack(65_535, random));
    cases.draw_million(ack_near_good);
}

pub fn reply_cases(cases: &mut Cases<'_>) {
    for argument in [&[][..], &[0xFF], &[0xFF, 0x00], &[0xFF, 0x00, 0xFF]] {
        cases.add(argument);
    }
    each_acknowledgement_damaged(cases, |cases, word, data| cases.add(&awaiting(word, data)));
    boundary_lengths(cases, |cases, word, data| cases.add(&awaiting(word, data)));
    every_reply_length(cases);
    every_parameters_shape(cases);
    cases.draw(3_000, |random| {
        let data = large_ack(65_000, random);
        awaiting(any_word(random), &data)
    });
    cases.draw_million(|random| {
        let data = ack_near_good(random);
        awaiting(awaited_for(&data, random), &data)
    });
}

fn awaiting(word: u16, data: &[u8]) -> Vec<u8> {
    [&word.to_le_bytes(), data].concat()
}

/// Most often the word of the data, else another.
fn awaited_for(data: &[u8], random: &mut Random) -> u16 {
    match data.first_chunk() {
        Some(&word) if !random.once_in(4) => u16::from_le_bytes(word) & !ACK_BIT,
        _ => any_word(random),
    }
}

fn each_acknowledgement_damaged(cases: &mut Cases<'_>, add: fn(&mut Cases<'_>, u16, &[u8])) {
    for frame in published::ACKS {
        let bytes = published::bytes(frame);
        let data = published::data(&bytes);
        let word = u16::from(data[0]);
        every_damage(data, &mut |damaged| add(cases, word, damaged));
    }
}

fn boundary_lengths(cases: &mut Cases<'_>, add: fn(&mut Cases<'_>, u16, &[u8])) {
    for length in BOUNDARY_LENGTHS {
        for word in REPLY_WORDS {
            for sent in [word, word | ACK_BIT, ACK_BIT, 0xFFFF, word << 8] {
                let payload = cases.random.bytes(length);
                let data = ack_data(sent, u16::from(payload.len() % 3 == 1), &payload);
                add(cases, word, &data[..length]);
                add(cases, word, &data);
            }
        }
    }
}

/// Every reply word with payloads of 0 to 40 bytes, acknowledged and failed, awaited and not.
fn every_reply_length(cases: &mut Cases<'_>) {
    for word in WORDS {
        for length in 0..=40 {
            for status in [0, 1, 0x0100] {
                for awaited in [word, word | ACK_BIT, 0x0061] {
                    let mut payload = cases.random.bytes(length);
                    payload.iter_mut().zip([0xAA, 8]).for_each(|(slot, byte)| *slot = byte);
                    cases.add(&awaiting(awaited, &ack_data(word | ACK_BIT, status, &payload)));
                }
            }
        }
    }
}

fn every_parameters_shape(cases: &mut Cases<'_>) {
    for max_gate in MAX_GATES {
        for surplus in -24..=4 {
            for head in [0xAA, 0xAB, 0x00] {
                let mut payload = parameters_payload(max_gate, surplus, &mut cases.random);
                payload[0] = head;
                cases.add(&awaiting(0x0061, &ack_data(0x0161, 0, &payload)));
            }
        }
    }
}
