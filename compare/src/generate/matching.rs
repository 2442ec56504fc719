//! Every byte in every state in which a header or a tail is matched: request 9's states, 4 times the part, plus the
//! bytes matched. The first engine is given the same cases.

use std::ops::Range;

use ld2410::access::Fields as ParserFields;

use super::acks::ack_data;
use super::calls::{by_bytes, by_slices};
use super::counters::counting_from;
use super::parsers::{after, argument};
use super::Cases;
use crate::model::families::{COMMAND, REPORT};
use crate::model::table_engine::PARTS;
use crate::published;
use crate::script::{script, Call};

/// The matching states.
pub const STATES: Range<u8> = 0..16;

/// Nothing of a command header is matched: from fresh, a parser that keeps the family has this after a command frame.
const AFTER_COMMAND: u8 = 4;

/// The states in which every byte can be tried within a few slices: a whole frame before each would end as many.
pub fn swept() -> impl Iterator<Item = u8> {
    STATES.filter(|&state| state != AFTER_COMMAND)
}

/// A byte of each class.
pub fn classes() -> Vec<u8> {
    [&PARTS.concat()[..], &[0x00]].concat()
}

/// A byte tried in a matching state.
pub struct Trial {
    /// The frame that is begun, and how much of it is taken.
    frame: Vec<u8>,
    taken: usize,
    pub byte: u8,
    /// What shows where the byte led: the rest of the frame, as if the byte were the one due; but after the first byte
    /// of a header, the rest of a frame with that header.
    pub back: Vec<u8>,
    /// Whether a frame is delivered at its end: the byte is the one due, or a header's first.
    pub delivers: bool,
}

impl Trial {
    pub fn new(state: u8, byte: u8) -> Self {
        let [part, matched] = [state / 4, state % 4].map(usize::from);
        let due = PARTS[part][matched] == byte;
        let frame = if due { decoding(part % 2) } else { malformed(part % 2) };
        let taken = if part < 2 { matched } else { frame.len() - 4 + matched };
        let begun = (0..2).find(|&header| !due && PARTS[header][0] == byte);
        let back = begun.map_or(frame[taken + 1..].to_vec(), |header| decoding(header)[1..].to_vec());
        Self { frame, taken, byte, back, delivers: due || begun.is_some() }
    }

    /// The byte that is due in a state.
    pub fn due(state: u8) -> Self {
        Self::new(state, PARTS.concat()[usize::from(state)])
    }

    /// What leads from fresh, or from nothing begun, to the state.
    pub fn front(&self) -> Vec<u8> {
        match self.taken {
            0 if self.frame[0] == COMMAND.header[0] => malformed(1),
            taken => self.frame[..taken].to_vec(),
        }
    }

    /// The byte, and what comes after it.
    pub fn rest(&self) -> Vec<u8> {
        [&[self.byte], &self.back[..]].concat()
    }

    /// The parser in the state.
    pub fn parser(&self) -> ParserFields {
        after(&self.frame, self.taken, counting_from(7))
    }
}

/// A frame of a family that decodes, and would not in the other.
fn decoding(family: usize) -> Vec<u8> {
    match family {
        0 => published::bytes(published::B),
        _ => COMMAND.frame(&ack_data(0x01FF, 0, &[])),
    }
}

/// A short frame of a family that does not decode.
pub fn malformed(family: usize) -> Vec<u8> {
    [REPORT, COMMAND][family].frame(&[0x5A; 2])
}

/// Every byte in one state, one after the other, in slices as long as may be.
pub fn sweep(state: u8) -> Vec<u8> {
    let trials = (0..=255).map(|byte| Trial::new(state, byte));
    let stream: Vec<_> = trials.flat_map(|trial| [trial.front(), trial.rest()].concat()).collect();
    by_slices(&stream, || 65_535)
}

/// The same from a parser in the state: 00, which is due in none, comes first, and leaves nothing begun.
pub fn built_sweep(state: u8) -> Vec<u8> {
    let first = Trial::new(state, 0x00);
    argument(&first.parser(), &[script(&[Call::Slice(&first.rest())]), sweep(state)].concat())
}

/// The bytes of a state together; then each by itself, by bytes, in slices of one, and in two.
pub fn script_cases(cases: &mut Cases<'_>) {
    swept().for_each(|state| cases.add(&sweep(state)));
    for state in STATES {
        for byte in 0..=255 {
            let trial = Trial::new(state, byte);
            let stream = [trial.front(), trial.rest()].concat();
            cases.add(&by_bytes(&stream));
            cases.add(&by_slices(&stream, || 1));
            cases.add(&script(&[Call::Slice(&trial.front()), Call::Slice(&trial.rest())]));
        }
    }
}

/// The same from a parser in the state.
pub fn built_parser_cases(cases: &mut Cases<'_>) {
    swept().for_each(|state| cases.add(&built_sweep(state)));
    for state in STATES {
        for byte in 0..=255 {
            let trial = Trial::new(state, byte);
            cases.add(&argument(&trial.parser(), &by_bytes(&trial.rest())));
            cases.add(&argument(&trial.parser(), &script(&[Call::Slice(&trial.rest())])));
        }
    }
}
