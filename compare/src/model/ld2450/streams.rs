//! The LD2450's stream parser by the division of the bytes that it took: what each call takes and delivers, the
//! counters, and the unfinished length. Every call divides the whole stretch again, and nothing is kept from one to
//! the next but its bytes.

use std::ops::Range;

use super::frames::{read, Targets};
use super::Rules;
use crate::model::division::Piece;
use crate::script::Call;

pub struct Stream<'a> {
    rules: &'a Rules,
    /// The bytes taken, a stretch for each reset and one more.
    stretches: Vec<Vec<u8>>,
}

/// The three counters, and the length of the last stretch's unfinished end. No script is so long that a counter stops.
#[derive(Default)]
pub struct Totals {
    pub frames: usize,
    pub resyncs: usize,
    pub dropped: usize,
    pub unfinished: usize,
}

impl<'a> Stream<'a> {
    pub fn new(rules: &'a Rules) -> Self {
        Self { rules, stretches: vec![Vec::new()] }
    }

    /// Makes a call: the bytes taken, and what is delivered. A reset begins another stretch.
    pub fn call(&mut self, call: Call<'_>) -> (usize, Option<Targets>) {
        match call {
            Call::Feed(byte) => self.take(&[byte]),
            Call::Slice(bytes) => self.take(bytes),
            Call::Reset => {
                self.stretches.push(Vec::new());
                (0, None)
            }
        }
    }

    /// Takes the slice "up to the end of the first whole frame that ends at a byte of the slice, in the division of
    /// the stretch so far with the slice behind it; else all of it", and delivers that frame.
    fn take(&mut self, slice: &[u8]) -> (usize, Option<Targets>) {
        let stretch = self.stretches.last_mut().expect("a stretch is always there");
        let before = stretch.len();
        stretch.extend(slice);
        let pieces = division(stretch, self.rules);
        let ended = pieces.into_iter().find(|(piece, place)| *piece == Piece::WholeFrame && place.end > before);
        let Some((_, place)) = ended else {
            return (slice.len(), None);
        };
        stretch.truncate(place.end);
        (place.end - before, read(&stretch[place], self.rules))
    }

    /// The counters, summed over the pieces of every stretch, and the length of the last one's unfinished end.
    pub fn totals(&self) -> Totals {
        let mut totals = Totals::default();
        for stretch in &self.stretches {
            totals.unfinished = 0;
            for (piece, place) in division(stretch, self.rules) {
                let count = match piece {
                    Piece::Stray => self.rules.stray,
                    Piece::BrokenStart => self.rules.broken_start,
                    Piece::WholeFrame => self.rules.whole_frame,
                    Piece::UnfinishedEnd => self.rules.unfinished_end,
                };
                count(&mut totals, place.len());
            }
        }
        totals
    }
}

/// "`dropped` counts stray bytes and the bytes of broken starts."
pub fn stray(totals: &mut Totals, length: usize) {
    totals.dropped += length;
}

/// "`resyncs` counts broken starts."
pub fn broken_start(totals: &mut Totals, length: usize) {
    totals.resyncs += 1;
    totals.dropped += length;
}

/// Every whole frame decodes, so `frames` counts them all.
pub fn whole_frame(totals: &mut Totals, _length: usize) {
    totals.frames += 1;
}

/// "Unfinished is the length of the last stretch's unfinished end."
pub fn unfinished_end(totals: &mut Totals, length: usize) {
    totals.unfinished = length;
}

/// The pieces of a stretch, and where each stands.
fn division(stretch: &[u8], rules: &Rules) -> Vec<(Piece, Range<usize>)> {
    let mut pieces = Vec::new();
    let mut start = 0;
    while start < stretch.len() {
        let (piece, length) = (rules.next_piece)(&stretch[start..]);
        pieces.push((piece, start..start + length));
        start += length;
    }
    pieces
}
