//! Mistakes with farthest gates 0 and 1 that are sent.

use ld2410::Command;

use super::{awaits, becomes, Edit, Seen, CLOSED, OPEN, WAITING};

/// The word of `SetMaxGates`.
const WORD: u64 = 0x0060;

/// Whether a farthest gate of 0 or 1 is sent, and none above 8.
fn near(seen: &Seen<'_>) -> bool {
    matches!(
        seen.command(),
        Some(Command::SetMaxGates { moving, stationary, .. })
            if moving.min(stationary) < 2 && moving.max(stationary) <= 8
    )
}

pub const NEAR: [(&str, Edit); 6] = [
    ("gates 0 and 1 get 2 before 7", |seen, line| {
        if near(seen) && seen.state == CLOSED {
            line[1] = 2;
        }
    }),
    ("gates 0 and 1 get 2 before 8", |seen, line| {
        if near(seen) && seen.word != 0 {
            line[1] = 2;
        }
    }),
    ("the length is tested before gates 0 and 1", |seen, line| {
        if near(seen) && seen.state == OPEN && line.len() < 3 + 30 + 2 {
            line[1..3].copy_from_slice(&[4, 30]);
        }
    }),
    ("gates 0 and 1 get 7 from open", |seen, line| {
        if near(seen) && seen.state == OPEN {
            line[1] = 7;
        }
    }),
    ("gates 0 and 1 are waited for", |seen, line| {
        if near(seen) && seen.state == OPEN {
            awaits(line, WAITING, WORD);
        }
    }),
    ("gates 0 and 1 close the session", |seen, line| {
        if near(seen) && seen.state == OPEN {
            becomes(line, CLOSED);
        }
    }),
];
