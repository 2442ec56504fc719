//! The LD2450's framing, for "a division of the same kind" as document 01's.

use super::frames::{self, FRAME, HEADER};
use crate::model::division::{next_piece_by, Framing, Piece};

/// Some frame. Its data are free, so that a string is the beginning of a frame exactly if it is the beginning of one
/// that goes on like this.
pub const SOME_FRAME: [u8; FRAME] = {
    let mut frame = [0; FRAME];
    [frame[0], frame[1], frame[2], frame[3]] = HEADER;
    [frame[FRAME - 2], frame[FRAME - 1]] = frames::TAIL;
    frame
};

/// Which bytes are a frame.
pub struct ThreeTargets<F> {
    pub is_frame: F,
}

impl<F: Fn(&[u8]) -> bool> Framing for ThreeTargets<F> {
    fn longest(&self) -> usize {
        FRAME
    }

    fn stray(&self, byte: u8) -> bool {
        byte != 0xAA
    }

    /// Whether a string is open: the beginning of a frame.
    fn open(&self, string: &[u8]) -> bool {
        let mut frame = SOME_FRAME;
        let Some(front) = frame.get_mut(..string.len()) else {
            return false;
        };
        front.copy_from_slice(string);
        (self.is_frame)(&frame)
    }

    fn whole(&self, string: &[u8]) -> bool {
        (self.is_frame)(string)
    }
}

pub fn is_frame(bytes: &[u8]) -> bool {
    frames::data(bytes).is_some()
}

/// The piece at the front of the rest of a stretch, and its length.
pub fn next_piece(rest: &[u8]) -> (Piece, usize) {
    next_piece_by(rest, &ThreeTargets { is_frame })
}
