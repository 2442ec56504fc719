//! A stream cut into the calls of a script, in every manner.

use ld2410::Parser;

use super::random::Random;
use crate::script::{script, Call};

/// Every byte a call.
pub fn by_bytes(stream: &[u8]) -> Vec<u8> {
    script(&stream.iter().map(|&byte| Call::Feed(byte)).collect::<Vec<_>>())
}

/// Slices of the given lengths; what a call leaves of its slice is handed in again, as a caller does.
pub fn by_slices(stream: &[u8], mut length: impl FnMut() -> usize) -> Vec<u8> {
    let mut parser = Parser::new();
    let mut script = Vec::new();
    let mut rest = stream;
    while !rest.is_empty() {
        let slice = &rest[..length().min(rest.len())];
        Call::Slice(slice).write(&mut script);
        rest = &rest[parser.feed_slice(slice).0..];
    }
    script
}

/// Bytes, slices and resets in any order; what a call leaves of its slice may be lost.
pub fn mixed_calls(stream: &[u8], random: &mut Random) -> Vec<u8> {
    let mut script = Vec::new();
    let mut rest = stream;
    while let [first, after @ ..] = rest {
        match random.below(12) {
            0..=3 => {
                Call::Feed(*first).write(&mut script);
                rest = after;
            }
            4 if random.once_in(3) => Call::Reset.write(&mut script),
            _ => {
                let (slice, after) = rest.split_at(random.below(64).min(rest.len()));
                Call::Slice(slice).write(&mut script);
                rest = after;
            }
        }
    }
    script
}
