//! Mistakes in sending a command and in refusing it.

use ld2410::Command;

use super::{awaits, becomes, Edit, Seen, CLOSED, CLOSING, OPEN, OPENING, WAITING};
use crate::station::Event;

/// Where a buffer starts in the answer.
pub const BUFFER: usize = 3;

pub const SENDING: [(&str, Edit); 12] = [
    ("EnableConfig is refused from open", |seen, line| {
        if seen.state == OPEN && seen.sends(Command::EnableConfig) {
            line[1] = 8;
        }
    }),
    ("EnableConfig is refused from closed", |seen, line| {
        if seen.state == CLOSED && seen.sends(Command::EnableConfig) {
            line[1] = 7;
        }
    }),
    ("EnableConfig from open leaves the session open", |seen, line| {
        if seen.state == OPEN && seen.sends(Command::EnableConfig) {
            becomes(line, OPEN);
        }
    }),
    ("EnableConfig leads to waiting", |seen, line| {
        if seen.sends(Command::EnableConfig) && seen.refused(line, 0) {
            awaits(line, WAITING, 0x00FF);
        }
    }),
    ("EndConfig leads to waiting", |seen, line| {
        if seen.sends(Command::EndConfig) && seen.refused(line, 0) {
            awaits(line, WAITING, 0x00FE);
        }
    }),
    ("EndConfig goes from closed", |seen, line| {
        if seen.state == CLOSED && seen.sends(Command::EndConfig) {
            awaits(line, CLOSING, 0x00FE);
        }
    }),
    ("Restart leads to closing", |seen, line| {
        if seen.sends(Command::Restart) && seen.refused(line, 0) {
            awaits(line, CLOSING, 0x00A3);
        }
    }),
    ("engineering mode off awaits the word of on", |seen, line| {
        if seen.sends(Command::EngineeringMode(false)) && seen.refused(line, 0) {
            awaits(line, WAITING, 0x0062);
        }
    }),
    ("no awaited word is told while opening", |_, line| {
        if line.ends_with(&[OPENING, 0x00FF]) {
            becomes(line, OPENING);
        }
    }),
    ("no awaited word is told while closing", |_, line| {
        if line.ends_with(&[CLOSING, 0x00FE]) {
            becomes(line, CLOSING);
        }
    }),
    ("nothing is written", |seen, line| {
        if let Event::Send { length, fill, .. } = seen.event {
            line[BUFFER..BUFFER + usize::from(length)].fill(fill.into());
        }
    }),
    ("a byte after the frame is touched", |seen, line| {
        let after = BUFFER + line[2] as usize;
        if seen.refused(line, 0) && after < line.len() - 2 {
            line[after] ^= 1;
        }
    }),
];

pub const REFUSING: [(&str, Edit); 20] = [
    ("7 is for every session that is not open, and before 8", |seen, line| {
        if seen.refused(line, 8) && !seen.sends(Command::EnableConfig) {
            line[1] = 7;
        }
    }),
    ("8 is for every session that is not open", |seen, line| {
        if seen.refused(line, 7) {
            line[1] = 8;
        }
    }),
    ("EnableConfig is not refused while it waits for its own word", |seen, line| {
        if seen.state == OPENING && seen.sends(Command::EnableConfig) && seen.refused(line, 8) {
            line[1] = 0;
        }
    }),
    ("2 is tested before 7", |seen, line| encoder_first(seen, line, 7, 2)),
    ("2 is tested before 8", |seen, line| encoder_first(seen, line, 8, 2)),
    ("4 is tested before 7", |seen, line| encoder_first(seen, line, 7, 4)),
    ("4 is tested before 8", |seen, line| encoder_first(seen, line, 8, 4)),
    ("4 is tested before 2", |seen, line| match seen.event {
        Event::Send { command, length, .. } if line[1] == 2 && usize::from(length) < command.encoded_len() => {
            line[1..3].copy_from_slice(&[4, command.encoded_len() as u64]);
        }
        _ => {}
    }),
    ("a command refused with 2 moves the session", |seen, line| moved_by_refused(seen, line, 2)),
    ("a command refused with 4 moves the session", |seen, line| moved_by_refused(seen, line, 4)),
    ("a command refused with 7 moves the session", |seen, line| moved_by_refused(seen, line, 7)),
    ("a command refused with 8 moves the session", |seen, line| moved_by_refused(seen, line, 8)),
    ("a command refused with 4 writes the buffer", |seen, line| {
        if seen.refused(line, 4) && line.len() > BUFFER + 2 {
            line[BUFFER] = 0xFD;
        }
    }),
    ("a command refused with 2 writes the buffer", |seen, line| {
        if seen.refused(line, 2) && line.len() > BUFFER + 2 {
            line[BUFFER] = 0xFD;
        }
    }),
    ("a command refused with 7 writes the buffer", |seen, line| written_by_refused(seen, line, 7)),
    ("a command refused with 8 writes the buffer", |seen, line| written_by_refused(seen, line, 8)),
    ("the bytes needed are missing with 4", |seen, line| {
        if seen.refused(line, 4) {
            line[2] = 0;
        }
    }),
    ("a count is told beside 7", |seen, line| counted_beside(seen, line, 7)),
    ("a count is told beside 8", |seen, line| counted_beside(seen, line, 8)),
    ("a count is told beside 2", |seen, line| counted_beside(seen, line, 2)),
];

/// Puts the encoder's refusal in the place of a session's.
pub fn encoder_first(seen: &Seen<'_>, line: &mut [u64], refusal: u64, earlier: u64) {
    if let Some((number, count, _)) = seen.encoded() {
        if seen.refused(line, refusal) && number == earlier {
            line[1..3].copy_from_slice(&[number, count]);
        }
    }
}

/// Moves the session where a command was refused.
fn moved_by_refused(seen: &Seen<'_>, line: &mut [u64], refusal: u64) {
    if let Some(command) = seen.command().filter(|_| seen.refused(line, refusal)) {
        awaits(line, WAITING, command.word().into());
    }
}

/// Writes the buffer where a command was refused.
fn written_by_refused(seen: &Seen<'_>, line: &mut [u64], refusal: u64) {
    if let Some((0, _, buffer)) = seen.encoded().filter(|_| seen.refused(line, refusal)) {
        for (slot, byte) in line[BUFFER..].iter_mut().zip(buffer) {
            *slot = byte.into();
        }
    }
}

/// Tells a count beside a refusal.
fn counted_beside(seen: &Seen<'_>, line: &mut [u64], refusal: u64) {
    if let Some(command) = seen.command().filter(|_| seen.refused(line, refusal)) {
        line[2] = command.encoded_len() as u64;
    }
}
