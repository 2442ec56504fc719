//! The division of a stretch into pieces, in the words of document 01: what every framing shares, and the framing of
//! this link.

use super::families::{Family, COMMAND, FRAMING, REPORT};

/// The most data bytes of a frame in the stream.
pub const LIMIT: usize = 54;

#[derive(Clone, Copy, PartialEq, Eq)]
pub enum Piece {
    Stray,
    BrokenStart,
    WholeFrame,
    UnfinishedEnd,
}

/// What a division goes by.
pub trait Framing {
    /// Bytes of the longest whole frame.
    fn longest(&self) -> usize;

    /// Whether a byte, alone, is a stray one.
    fn stray(&self, byte: u8) -> bool;

    fn open(&self, string: &[u8]) -> bool;

    fn whole(&self, string: &[u8]) -> bool;
}

/// What the first `length` bytes of the rest of a stretch are as a piece of its division, if they may be one.
fn piece(rest: &[u8], length: usize, framing: &impl Framing) -> Option<Piece> {
    let (string, after) = rest.split_at(length);
    if matches!(string, [byte] if framing.stray(*byte)) {
        return Some(Piece::Stray);
    }
    if framing.whole(string) {
        return Some(Piece::WholeFrame);
    }
    if !framing.open(string) {
        return None;
    }
    if after.is_empty() {
        return Some(Piece::UnfinishedEnd);
    }
    (!framing.open(&rest[..length + 1])).then_some(Piece::BrokenStart)
}

/// The piece at the front of the rest of a stretch, and its length. Every length is tried, and exactly one must do:
/// a division exists, and any two are the same.
pub fn next_piece_by(rest: &[u8], framing: &impl Framing) -> (Piece, usize) {
    let lengths = 1..=rest.len().min(framing.longest());
    let mut found = lengths.filter_map(|length| Some((piece(rest, length, framing)?, length)));
    let first = found.next().expect("a division exists");
    assert!(found.next().is_none(), "two divisions of one stretch");
    first
}

/// The framing of this link, its frames of at most `limit` data bytes.
struct Link {
    limit: usize,
}

impl Framing for Link {
    fn longest(&self) -> usize {
        FRAMING + self.limit
    }

    fn stray(&self, byte: u8) -> bool {
        byte != 0xF4 && byte != 0xFD
    }

    /// Whether a string is open: a prefix of a header; or a header and any one byte; or a header, a length of 2 to
    /// `limit`, at most that many data bytes, and, once they are all there, a prefix of that family's tail.
    fn open(&self, string: &[u8]) -> bool {
        open_in(&REPORT, string, self.limit) || open_in(&COMMAND, string, self.limit)
    }

    /// Whether a string is a whole frame: open, and the tail complete.
    fn whole(&self, string: &[u8]) -> bool {
        let length = |low, high| usize::from(u16::from_le_bytes([low, high]));
        match *string {
            [_, _, _, _, low, high, ..] => self.open(string) && string.len() == FRAMING + length(low, high),
            _ => false,
        }
    }
}

fn open_in(family: &Family, string: &[u8], limit: usize) -> bool {
    let Some(after_header) = string.strip_prefix(&family.header) else {
        return family.header.starts_with(string);
    };
    let Some((&length, body)) = after_header.split_first_chunk() else {
        return true;
    };
    let length = usize::from(u16::from_le_bytes(length));
    let tail_begins = || family.tail.starts_with(&body[length..]);
    (2..=limit).contains(&length) && (body.len() <= length || tail_begins())
}

/// The piece at the front of the rest of a stretch of this link, and its length.
pub fn next_piece(rest: &[u8], limit: usize) -> (Piece, usize) {
    next_piece_by(rest, &Link { limit })
}
