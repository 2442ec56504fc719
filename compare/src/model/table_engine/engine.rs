//! The engine itself: tables match headers and tails, "length and data are counted as now".

use ld2410::access::{Counters, Fields as ParserFields};
use ld2410::Frame;

use super::{Place, WHOLE};
use crate::model::families::{COMMAND, REPORT};
use crate::model::rules::Rules;
use crate::script::Call;

pub struct Engine<'a> {
    rules: &'a Rules,
    place: Place,
    /// Whose header or tail was whole last: 0 the report's, 1 the command's.
    family: u8,
    length: usize,
    data: Vec<u8>,
    pub counters: Counters,
}

impl<'a> Engine<'a> {
    pub fn fresh(rules: &'a Rules) -> Self {
        let (place, counters) = (Place::Matching(0), Counters::all(0));
        Self { rules, place, family: 0, length: 0, data: Vec::new(), counters }
    }

    /// The engine that goes on from a parser with these fields; one out of range is handled as if reset came first.
    pub fn built(parser: &ParserFields, rules: &'a Rules) -> Option<Self> {
        let matching = |part: u8| Place::Matching((4 * part).wrapping_add(parser.matched as u8) % 16);
        let place = match (parser.state, parser.kind) {
            (_, 2..) => return None,
            (0, kind) => matching(kind),
            (1, _) => Place::Length((parser.matched > 0).then_some(parser.len as u8)),
            (2, _) => Place::Data,
            (3, kind) => matching(2 + kind),
            _ => return None,
        };
        let fresh = Self { counters: parser.counters, ..Self::fresh(rules) };
        if !(rules.in_range)(parser) {
            return Some(fresh);
        }
        let data = parser.buf[..parser.pos.min(parser.buf.len())].to_vec();
        Some(Self { place, family: parser.kind, length: parser.len, data, ..fresh })
    }

    /// The length of the frame that is begun.
    pub fn begun(&self) -> usize {
        match self.place {
            Place::Matching(state @ 0..8) => usize::from(state % 4),
            Place::Matching(state) => 6 + self.data.len() + usize::from(state % 4),
            Place::Length(low) => 4 + usize::from(low.is_some()),
            Place::Data => 6 + self.data.len(),
        }
    }

    /// Makes a call: the bytes taken, and the whole frame at their end, empty where there is none.
    pub fn call(&mut self, call: Call<'_>) -> (usize, Vec<u8>) {
        self.place = (self.rules.tables.found)(call, self.place);
        match call {
            Call::Feed(byte) => self.take(&[byte]),
            Call::Slice(bytes) => self.take(bytes),
            Call::Reset => {
                self.place = (self.rules.tables.reset)(self.place);
                (0, Vec::new())
            }
        }
    }

    fn take(&mut self, bytes: &[u8]) -> (usize, Vec<u8>) {
        let mut last = Vec::new();
        for (place, &byte) in bytes.iter().enumerate() {
            if let Some(frame) = self.step(byte) {
                last = frame;
                if self.rules.tables.stops {
                    return (place + 1, last);
                }
            }
        }
        (bytes.len(), last)
    }

    /// Takes a byte: the frame that it makes whole.
    fn step(&mut self, byte: u8) -> Option<Vec<u8>> {
        match self.place {
            Place::Matching(state) => return self.matched(state, self.next(state, byte)),
            Place::Length(None) => self.place = Place::Length(Some(byte)),
            Place::Length(Some(low)) => {
                self.length = u16::from_le_bytes([low, byte]).into();
                if (2..=self.rules.tables.limit).contains(&self.length) {
                    self.data.clear();
                    self.place = Place::Data;
                } else {
                    self.broken(self.next(0, byte));
                }
            }
            Place::Data => {
                self.data.push(byte);
                if self.data.len() >= self.length {
                    self.place = Place::Matching(4 * (2 + self.family));
                }
            }
        }
        None
    }

    /// The next state, by both tables.
    fn next(&self, state: u8, byte: u8) -> u8 {
        let class = self.rules.tables.classes[usize::from(byte)];
        self.rules.tables.nexts[usize::from(state)][usize::from(class)]
    }

    /// Goes to the next state. A whole frame leaves its family's header, none of it matched.
    fn matched(&mut self, state: u8, next: u8) -> Option<Vec<u8>> {
        match next.checked_sub(WHOLE) {
            Some(family @ 0..2) => {
                self.family = family;
                self.place = Place::Length(None);
            }
            Some(tail) => {
                self.family = tail - 2;
                self.place = Place::Matching(4 * self.family);
                return Some(self.whole());
            }
            None if next == state + 1 => self.place = Place::Matching(next),
            None => self.broken(next),
        }
        None
    }

    fn whole(&mut self) -> Vec<u8> {
        let frame = [REPORT, COMMAND][usize::from(self.family)].frame(&self.data);
        let counter = match Frame::parse(&frame) {
            Ok(_) => &mut self.counters.frames,
            Err(_) => &mut self.counters.malformed,
        };
        *counter = (self.rules.add)(*counter, 1);
        frame
    }

    /// Counts what is begun as broken; the byte that broke it is a stray one where it begins nothing.
    fn broken(&mut self, next: u8) {
        let tables = &self.rules.tables;
        let (resyncs, dropped) = (tables.broken)(self.place, self.begun());
        let next = if (tables.tried)(self.place) { next } else { 0 };
        let stray = usize::from(next % 4 == 0);
        self.counters.resyncs = (self.rules.add)(self.counters.resyncs, resyncs);
        self.counters.dropped = (self.rules.add)(self.counters.dropped, dropped);
        self.counters.dropped = (self.rules.add)(self.counters.dropped, stray);
        self.place = (tables.after_break)(self.place, next);
    }
}
