//! Mistakes in what ends a wait, where it leads, and what passes.

use ld2410::Ack;

use super::{awaits, becomes, Edit, Seen, CLOSED, CLOSING, OPEN, OPENING, WAITING};
use crate::station::Event;

pub const ENDING: [(&str, Edit); 17] = [
    ("a failed opening stays open", |seen, line| {
        if seen.state == OPENING && seen.ends(line, false) {
            becomes(line, OPEN);
        }
    }),
    ("a failed opening from open returns to open", |seen, line| {
        if seen.state == OPENING && seen.sent_from == OPEN && seen.ends(line, false) {
            becomes(line, OPEN);
        }
    }),
    ("a good opening from open closes", |seen, line| {
        if seen.state == OPENING && seen.sent_from == OPEN && seen.ends(line, true) {
            becomes(line, CLOSED);
        }
    }),
    ("a failed closing closes", |seen, line| {
        if seen.state == CLOSING && seen.ends(line, false) {
            becomes(line, CLOSED);
        }
    }),
    ("a good closing returns to open", |seen, line| {
        if seen.state == CLOSING && seen.ends(line, true) {
            becomes(line, OPEN);
        }
    }),
    ("a failed restart closes", |seen, line| {
        if seen.word == 0x00A3 && seen.ends(line, false) {
            becomes(line, CLOSED);
        }
    }),
    ("a good restart returns to open", |seen, line| {
        if seen.word == 0x00A3 && seen.ends(line, true) {
            becomes(line, OPEN);
        }
    }),
    ("a good factory reset closes", |seen, line| {
        if seen.word == 0x00A2 && seen.ends(line, true) {
            becomes(line, CLOSED);
        }
    }),
    ("a failed command closes", |seen, line| {
        if seen.state == WAITING && seen.word != 0x00A3 && seen.ends(line, false) {
            becomes(line, CLOSED);
        }
    }),
    ("a failed ACK does not end the wait", |seen, line| {
        if seen.ends(line, false) {
            pass(seen, line);
        }
    }),
    ("the awaited word stays after the wait", |seen, line| {
        if line[1] == 1 && matches!(seen.event, Event::Hand(_)) {
            let state = line[3];
            awaits(line, state, seen.word);
        }
    }),
    ("ok is told whenever a wait ends", |seen, line| {
        if seen.ends(line, false) {
            line[2] = 1;
        }
    }),
    ("ok is not told", |seen, line| {
        if seen.ends(line, true) {
            line[2] = 0;
        }
    }),
    ("a status of 0100 counts as success", |seen, line| {
        if seen.ends(line, false) && seen.ack().is_some_and(|ack| ack.status & 0xFF == 0) {
            line[2] = 1;
        }
    }),
    ("an ACK with an empty payload does not end the wait for a reply", |seen, line| {
        if seen.state == OPENING && seen.ends(line, true) && seen.ack().is_some_and(|ack| ack.payload.is_empty()) {
            pass(seen, line);
        }
    }),
    ("an ACK with a short payload does not end the wait", |seen, line| {
        let short = |ack: Ack<'_>| seen.word == 0x0061 && ack.parameters().is_err();
        if seen.ends(line, true) && seen.ack().is_some_and(short) {
            pass(seen, line);
        }
    }),
    ("an ACK with surplus payload does not end the wait", |seen, line| {
        let surplus = |ack: Ack<'_>| seen.state == CLOSING && !ack.payload.is_empty();
        if seen.ends(line, true) && seen.ack().is_some_and(surplus) {
            pass(seen, line);
        }
    }),
];

pub const PASSING: [(&str, Edit); 10] = [
    ("another word's ACK ends the wait", |seen, line| {
        if let Some(ack) = seen.ack().filter(|_| seen.passes(line)) {
            end(line, ack.ok);
        }
    }),
    ("another word's failed ACK ends the wait", |seen, line| {
        if seen.passes(line) && seen.ack().is_some_and(|ack| !ack.ok) {
            end(line, false);
        }
    }),
    ("engineering mode on and off are one word", |seen, line| {
        let engineering = |word: u64| matches!(word, 0x0062 | 0x0063);
        if seen.passes(line) && engineering(seen.word) && seen.ack().is_some_and(|ack| engineering(ack.word.into())) {
            end(line, true);
        }
    }),
    ("the ACK of EndConfig ends an opening", |seen, line| {
        if seen.state == OPENING && seen.ack().is_some_and(|ack| ack.word == 0x00FE) {
            end(line, true);
        }
    }),
    ("a report ends the wait", |seen, line| {
        if seen.passes(line) && seen.report() {
            end(line, true);
        }
    }),
    ("bytes that are no frame end the wait", |seen, line| {
        if seen.passes(line) && seen.frame().is_none() {
            end(line, false);
        }
    }),
    ("ok is told beside a frame that passed", |seen, line| {
        if line[1] == 0 && seen.ack().is_some_and(|ack| ack.ok) {
            line[2] = 1;
        }
    }),
    ("an ACK without a wait is told as its end", |seen, line| {
        if seen.word == 0 && seen.ack().is_some() {
            line[1] = 1;
        }
    }),
    ("a late ACK of EnableConfig opens a closed session", |seen, line| {
        if seen.state == CLOSED && seen.ack().is_some_and(|ack| ack.word == 0x00FF && ack.ok) {
            becomes(line, OPEN);
        }
    }),
    ("a failed ACK without a wait closes an open session", |seen, line| {
        if seen.state == OPEN && seen.ack().is_some_and(|ack| !ack.ok) {
            becomes(line, CLOSED);
        }
    }),
];

/// Makes a frame that passed end the wait.
pub fn end(line: &mut [u64], ok: bool) {
    line[1..3].copy_from_slice(&[1, ok.into()]);
    becomes(line, OPEN);
}

/// Makes a frame that ended the wait pass.
pub fn pass(seen: &Seen<'_>, line: &mut [u64]) {
    line[1..3].fill(0);
    awaits(line, seen.state, seen.word);
}
