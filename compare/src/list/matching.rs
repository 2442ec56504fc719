//! Listed cases of the table engine: every byte in every matching state, and a byte of every class there by each call.

use ld2410::access::Fields as ParserFields;
use ld2410::Parser;

use crate::generate::matching::{built_sweep, classes, sweep, swept, Trial, STATES};
use crate::generate::parsers::argument;
use crate::script::{script, Call};

/// From fresh.
pub fn scripts() -> Vec<Vec<u8>> {
    let mut all: Vec<_> = swept().map(sweep).collect();
    for state in STATES {
        all.push(trials(state, true));
        all.push(trials(state, false));
    }
    all
}

/// From a parser in the state; and from one with 4 to 7 bytes matched, which has the next part's state unless reset.
pub fn built_parsers() -> Vec<Vec<u8>> {
    let mut all: Vec<_> = swept().map(built_sweep).collect();
    for state in STATES {
        for trial in classes().into_iter().map(|byte| Trial::new(state, byte)) {
            let calls = [Call::Feed(trial.byte), Call::Slice(&trial.back)];
            all.push(argument(&trial.parser(), &script(&calls[..1 + usize::from(trial.delivers)])));
            all.push(argument(&trial.parser(), &script(&[Call::Slice(&trial.rest())])));
        }
        let part = state / 4;
        let parser = ParserFields { matched: usize::from(state % 4) + 4, ..Trial::due(4 * part).parser() };
        let next_part = Trial::due((state + 4) % 16);
        all.push(argument(&parser, &script(&[Call::Slice(&next_part.rest())])));
    }
    all
}

/// A byte of each class in one state, one after the other: a call of its own, or the first of a slice.
fn trials(state: u8, fed: bool) -> Vec<u8> {
    let mut calls = Calls { parser: Parser::new(), script: Vec::new(), waiting: Vec::new() };
    for trial in classes().into_iter().map(|byte| Trial::new(state, byte)) {
        calls.waiting.extend(trial.front());
        calls.slices();
        if fed {
            calls.feed(trial.byte);
            calls.waiting.extend(trial.back);
        } else {
            calls.waiting.extend(trial.rest());
        }
    }
    calls.slices();
    calls.script
}

/// A script that is being written, and the bytes that wait for the next slice.
struct Calls {
    parser: Parser,
    script: Vec<u8>,
    waiting: Vec<u8>,
}

impl Calls {
    fn feed(&mut self, byte: u8) {
        Call::Feed(byte).write(&mut self.script);
        self.parser.feed(byte);
    }

    /// Feeds what waits; what a call leaves of its slice is handed in again.
    fn slices(&mut self) {
        while !self.waiting.is_empty() {
            Call::Slice(&self.waiting).write(&mut self.script);
            let (taken, _) = self.parser.feed_slice(&self.waiting);
            self.waiting.drain(..taken);
        }
    }
}
