//! Mistakes in the division of a stream: what begins a frame, what breaks one, and where the search goes on.

use std::ops::Range;

use super::{by, PARSE};
use crate::model::division::Piece;
use crate::model::ld2450::division::next_piece;
use crate::model::ld2450::frames::{DATA, DATA_END, FRAME, HEADER, TAIL};
use crate::model::ld2450::{Rules, RULES};
use crate::mutants::Mutant;

pub fn mutants() -> Vec<Mutant> {
    let divided = |(mistake, next_piece)| by(PARSE, mistake, Rules { next_piece, ..RULES });
    SEARCH.into_iter().chain(STARTS).chain(WITHIN).map(divided).collect()
}

type NextPiece = fn(&[u8]) -> (Piece, usize);

/// The lengths of broken starts are 1 to 3, 28 and 29: a frame breaks in its header or in its tail.
const SEARCH: [(&str, NextPiece); 11] = [
    ("AA is not tried as a start after AA", untried::<1>),
    ("AA is not tried as a start after AA FF", untried::<2>),
    ("AA is not tried as a start after AA FF 03", untried::<3>),
    ("AA is not tried as a start in the place of 55", untried::<28>),
    ("AA is not tried as a start in the place of CC", untried::<29>),
    ("a frame without 55 is searched again from its second byte", searched_again::<28>),
    ("a frame without CC is searched again from its second byte", searched_again::<29>),
    ("a frame without 55 is searched for a header", searched_for_a_header::<28>),
    ("a frame without CC is searched for a header", searched_for_a_header::<29>),
    ("the header is looked at when four bytes are there", |rest| late(rest, 1..4, HEADER.len())),
    ("the tail is looked at when 30 bytes are there", |rest| late(rest, DATA_END..FRAME, FRAME)),
];

/// The byte that breaks a start of this length is dropped with it.
fn untried<const LENGTH: usize>(rest: &[u8]) -> (Piece, usize) {
    match next_piece(rest) {
        (Piece::BrokenStart, length) if length == LENGTH => (Piece::BrokenStart, length + 1),
        piece => piece,
    }
}

/// Of a broken start of this length, its first byte alone is dropped.
fn searched_again<const LENGTH: usize>(rest: &[u8]) -> (Piece, usize) {
    match next_piece(rest) {
        (Piece::BrokenStart, length) if length == LENGTH => (Piece::BrokenStart, 1),
        piece => piece,
    }
}

/// A broken start of this length is dropped up to a header in its data.
fn searched_for_a_header<const LENGTH: usize>(rest: &[u8]) -> (Piece, usize) {
    match next_piece(rest) {
        (Piece::BrokenStart, length) if length == LENGTH => {
            let header = place_in_data(&rest[..DATA_END], &HEADER);
            (Piece::BrokenStart, header.unwrap_or(length))
        }
        piece => piece,
    }
}

/// A start that breaks with one of these lengths is dropped when so many bytes are there, all of them.
fn late(rest: &[u8], lengths: Range<usize>, there: usize) -> (Piece, usize) {
    match next_piece(rest) {
        (Piece::BrokenStart, length) if lengths.contains(&length) && rest.len() < there => {
            (Piece::UnfinishedEnd, rest.len())
        }
        (Piece::BrokenStart, length) if lengths.contains(&length) => (Piece::BrokenStart, there),
        piece => piece,
    }
}

const STARTS: [(&str, NextPiece); 8] = [
    ("AA before AA is a stray byte", |rest| {
        if rest.starts_with(&[0xAA, 0xAA]) {
            (Piece::Stray, 1)
        } else {
            next_piece(rest)
        }
    }),
    ("AA at the end is a stray byte", |rest| if rest == [0xAA] { (Piece::Stray, 1) } else { next_piece(rest) }),
    ("a stray FF is taken as a start", started::<0xFF>),
    ("a stray 03 is taken as a start", started::<0x03>),
    ("a stray 00 is taken as a start", started::<0x00>),
    ("a stray 55 is taken as a start", started::<0x55>),
    ("a stray CC is taken as a start", started::<0xCC>),
    ("a row of stray bytes is a broken start", |rest| match next_piece(rest) {
        (Piece::Stray, _) => (Piece::BrokenStart, rest.iter().position(|&byte| byte == 0xAA).unwrap_or(rest.len())),
        piece => piece,
    }),
];

/// A stray byte that begins a frame, which breaks with the byte after it.
fn started<const BYTE: u8>(rest: &[u8]) -> (Piece, usize) {
    match rest {
        [byte] if *byte == BYTE => (Piece::UnfinishedEnd, 1),
        [byte, ..] if *byte == BYTE => (Piece::BrokenStart, 1),
        _ => next_piece(rest),
    }
}

const WITHIN: [(&str, NextPiece); 8] = [
    ("AA in the data begins a frame", |rest| broken_before(rest, &HEADER[..1])),
    ("AA FF in the data begins a frame", |rest| broken_before(rest, &HEADER[..2])),
    ("AA FF 03 in the data begins a frame", |rest| broken_before(rest, &HEADER[..3])),
    ("a header in the data begins a frame", |rest| broken_before(rest, &HEADER)),
    ("a tail in the data breaks the frame", |rest| broken_before(rest, &TAIL)),
    ("55 in the data breaks the frame", |rest| broken_before(rest, &TAIL[..1])),
    ("three absent targets break the frame", |rest| match next_piece(rest) {
        (Piece::WholeFrame, length) if rest[HEADER.len()..DATA_END] == [0; DATA] => (Piece::BrokenStart, length),
        piece => piece,
    }),
    ("a frame is unfinished until a byte follows it", |rest| match next_piece(rest) {
        (Piece::WholeFrame, length) if rest.len() == length => (Piece::UnfinishedEnd, length),
        piece => piece,
    }),
];

/// A frame breaks where its data have this string.
fn broken_before(rest: &[u8], string: &[u8]) -> (Piece, usize) {
    let (piece, length) = next_piece(rest);
    match place_in_data(&rest[..length.min(DATA_END)], string) {
        Some(place) => (Piece::BrokenStart, place),
        None => (piece, length),
    }
}

/// Where a string stands first in the data of a begun frame.
fn place_in_data(begun: &[u8], string: &[u8]) -> Option<usize> {
    let mut windows = begun.get(HEADER.len()..)?.windows(string.len());
    windows.position(|window| window == string).map(|place| HEADER.len() + place)
}
