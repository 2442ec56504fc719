//! Mistakes in what the parser takes for a frame: another byte of the framing, another number of bytes.

use super::framing::lenient;
use super::{by, PARSE};
use crate::model::division::{next_piece_by, Framing};
use crate::model::ld2450::division::ThreeTargets;
use crate::model::ld2450::frames::{DATA, HEADER, TAIL, TARGET};
use crate::model::ld2450::{Rules, RULES};
use crate::mutants::Mutant;

pub fn mutants() -> Vec<Mutant> {
    let all = other_bytes().into_iter().chain(other_lengths());
    all.map(|(mistake, rules)| by(PARSE, mistake, rules)).collect()
}

fn other_bytes() -> [(&'static str, Rules); 12] {
    [
        ("any byte does for the header's second", taking::<1, 0x00, 0xFF>()),
        ("any byte does for the header's third", taking::<2, 0x00, 0xFF>()),
        ("any byte does for the header's fourth", taking::<3, 0x00, 0xFF>()),
        ("any byte does for the tail's first", taking::<28, 0x00, 0xFF>()),
        ("any byte does for the tail's second", taking::<29, 0x00, 0xFF>()),
        ("AA does for the header's second byte", taking::<1, 0xAA, 0xAA>()),
        ("AA does for the header's third byte", taking::<2, 0xAA, 0xAA>()),
        ("AA does for the header's fourth byte", taking::<3, 0xAA, 0xAA>()),
        ("AA does for the tail's first byte", taking::<28, 0xAA, 0xAA>()),
        ("AA does for the tail's second byte", taking::<29, 0xAA, 0xAA>()),
        ("00 does for the tail's second byte", taking::<29, 0x00, 0x00>()),
        ("55 does for the tail's second byte", taking::<29, 0x55, 0x55>()),
    ]
}

/// The rules with a byte of the range taken at a place of the framing.
fn taking<const PLACE: usize, const LOW: u8, const HIGH: u8>() -> Rules {
    let next_piece = |rest: &[u8]| {
        let is_frame = |string: &[u8]| lenient::<PLACE, LOW, HIGH>(string).is_some();
        next_piece_by(rest, &ThreeTargets { is_frame })
    };
    Rules { data: lenient::<PLACE, LOW, HIGH>, next_piece, ..RULES }
}

fn other_lengths() -> [(&'static str, Rules); 6] {
    [
        ("a frame has 23 data bytes", framed::<{ DATA - 1 }, 2>()),
        ("a frame has 25 data bytes", framed::<{ DATA + 1 }, 2>()),
        ("a frame has two targets", framed::<{ DATA - TARGET }, 2>()),
        ("a frame has four targets", framed::<{ DATA + TARGET }, 2>()),
        ("a frame ends with 55", framed::<DATA, 1>()),
        ("a frame ends with its data", framed::<DATA, 0>()),
    ]
}

/// The rules with so many bytes of data and of the tail.
fn framed<const LENGTH: usize, const TAIL_LENGTH: usize>() -> Rules {
    let data = |bytes: &[u8]| {
        let mut data = bytes.get(HEADER.len()..HEADER.len() + LENGTH)?.to_vec();
        data.resize(DATA, 0);
        data.try_into().ok()
    };
    let next_piece = |rest: &[u8]| next_piece_by(rest, &OtherFrame { data: LENGTH, tail: TAIL_LENGTH });
    Rules { data, next_piece, ..RULES }
}

/// A frame with so many bytes of data and of the tail.
struct OtherFrame {
    data: usize,
    tail: usize,
}

impl Framing for OtherFrame {
    fn longest(&self) -> usize {
        HEADER.len() + self.data + self.tail
    }

    fn stray(&self, byte: u8) -> bool {
        byte != HEADER[0]
    }

    fn open(&self, string: &[u8]) -> bool {
        let (header, rest) = string.split_at(string.len().min(HEADER.len()));
        let tail = rest.get(self.data..).unwrap_or_default();
        HEADER.starts_with(header) && TAIL[..self.tail].starts_with(tail)
    }

    fn whole(&self, string: &[u8]) -> bool {
        string.len() == self.longest() && self.open(string)
    }
}
