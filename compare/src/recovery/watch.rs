//! The original's parser, from fresh, beside the lengths of the whole frames that it is fed.

use ld2410::{Frame, Parser};

/// The lengths follow from the counters: a byte that is taken is dropped, or of a whole frame, or of the frame in
/// progress, and where a whole frame ends none is in progress.
pub struct Watch {
    parser: Parser,
    taken: u32,
    /// The bytes of the whole frames so far.
    whole: u32,
}

impl Watch {
    pub const fn new() -> Self {
        Self { parser: Parser::new(), taken: 0, whole: 0 }
    }

    pub fn feed(&mut self, bytes: &[u8]) {
        for &byte in bytes {
            self.feed_byte(byte, None);
        }
    }

    /// Feeds a frame; true where it is found: its last byte delivers what `Frame::parse` reads from it, and the whole
    /// frame that ends there has its length. The bytes of a whole frame stand together, so that one is this frame.
    pub fn finds(&mut self, frame: &[u8]) -> bool {
        let (&last, others) = frame.split_last().expect("a frame has bytes");
        self.feed(others);
        let before = self.whole;
        let delivered = self.feed_byte(last, Frame::parse(frame).ok());
        delivered && u32::try_from(frame.len()) == Ok(self.whole - before)
    }

    /// Feeds a byte; true where it delivers this frame.
    fn feed_byte(&mut self, byte: u8, frame: Option<Frame<'_>>) -> bool {
        let ended = self.ended();
        let delivered = self.parser.feed(byte);
        let delivers = delivered.is_some() && delivered == frame;
        self.taken += 1;
        if self.ended() > ended {
            self.whole = self.taken - self.parser.stats().dropped;
        }
        delivers
    }

    /// How many whole frames have ended, decoded or not.
    fn ended(&self) -> u32 {
        let stats = self.parser.stats();
        stats.frames + stats.malformed
    }
}
