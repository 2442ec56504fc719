//! Op 14: acknowledgements built by hand, with spans inside their bytes, outside, and near the largest number.

use super::acks::{ack_near_good, any_status, any_word, large_ack, REPLY_WORDS};
use super::random::Random;
use super::Cases;
use crate::model::families::ACK_BIT;

/// An argument of op 14.
pub struct BuiltAck<'a> {
    pub word: u16,
    pub ok: u8,
    pub status: u16,
    pub span: (u64, u64),
    pub awaited: u16,
    pub bytes: &'a [u8],
}

impl BuiltAck<'_> {
    pub fn argument(&self) -> Vec<u8> {
        let mut argument = self.word.to_le_bytes().to_vec();
        argument.push(self.ok);
        argument.extend(self.status.to_le_bytes());
        argument.extend(self.span.0.to_le_bytes());
        argument.extend(self.span.1.to_le_bytes());
        argument.extend(self.awaited.to_le_bytes());
        argument.extend(self.bytes);
        argument
    }
}

/// Spans in and around `length` bytes: inside, past the end by one, and near the largest number.
pub fn spans(length: u64) -> Vec<(u64, u64)> {
    let places = [
        0,
        1,
        4,
        10,
        length.wrapping_sub(1),
        length,
        length + 1,
        u64::MAX / 2,
        u64::MAX - length,
        u64::MAX - 1,
        u64::MAX,
    ];
    let lengths_from = |start: u64| {
        let left = length.wrapping_sub(start);
        [left, left.wrapping_add(1), left.wrapping_sub(1), start.wrapping_neg()]
    };
    let mut spans = Vec::new();
    for start in places {
        spans.extend(places.map(|length| (start, length)));
        spans.extend(lengths_from(start).map(|length| (start, length)));
    }
    spans
}

pub fn built_ack_cases(cases: &mut Cases<'_>) {
    for word in REPLY_WORDS {
        for length in [0, 1, 4, 6, 8, 12, 26, 28, 64, 300] {
            for span in spans(length as u64) {
                for ok in [0, 1, 2, 255] {
                    let mut bytes = cases.random.bytes(length);
                    if let Some([head, max_gate]) = at_start(&mut bytes, span.0) {
                        (*head, *max_gate) = (0xAA, 8);
                    }
                    let built = BuiltAck { word, ok, status: 0, span, awaited: word, bytes: &bytes };
                    cases.add(&built.argument());
                }
            }
        }
    }
    short_arguments(cases);
    cases.draw(3_000, |random| {
        let data = large_ack(65_000, random);
        built_ack(&data, random)
    });
    cases.draw_million(|random| {
        let data = ack_near_good(random);
        built_ack(&data, random)
    });
}

fn at_start(bytes: &mut [u8], start: u64) -> Option<&mut [u8; 2]> {
    bytes.get_mut(usize::try_from(start).ok()?..)?.first_chunk_mut()
}

/// Arguments that end before, at and after the last fixed field.
fn short_arguments(cases: &mut Cases<'_>) {
    let built = BuiltAck { word: 0x00FF, ok: 1, status: 0, span: (0, 4), awaited: 0x00FF, bytes: &[1, 0, 64, 0] };
    let argument = built.argument();
    for length in 0..=argument.len() {
        cases.add(&argument[..length]);
    }
}

/// Acknowledgement data with surplus bytes around them, read through a span that is most often right.
fn built_ack(data: &[u8], random: &mut Random) -> Vec<u8> {
    let before = random.pick(&[0, 0, 6, 17]);
    let mut bytes = random.bytes(before);
    bytes.extend(data);
    bytes.extend(random.pick(&[&[][..], &[0x04, 0x03, 0x02, 0x01]]));
    let right = ((before + 4) as u64, data.len().saturating_sub(4) as u64);
    let span = match random.below(8) {
        0 => random.pick(&spans(bytes.len() as u64)),
        1 => (random.next() >> random.below(64), random.next() >> random.below(64)),
        2 => (random.below(bytes.len() + 2) as u64, random.below(bytes.len() + 2) as u64),
        _ => right,
    };
    let word = match data.first_chunk() {
        Some(&word) if !random.once_in(8) => u16::from_le_bytes(word) & !ACK_BIT,
        _ => any_word(random),
    };
    let awaited = if random.once_in(4) { any_word(random) } else { word };
    let built = BuiltAck {
        word,
        ok: random.pick(&[1, 1, 1, 0, 2, 255]),
        status: any_status(random),
        span,
        awaited,
        bytes: &bytes,
    };
    built.argument()
}
