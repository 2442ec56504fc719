//! Op 20: station scripts: every kind of event in every session, and random walks.

use super::acks::{ack_data, large_ack, WORDS};
use super::commands::{COMMANDS, FILLS};
use super::damage::every_damage;
use super::random::Random;
use super::sessions::{
    ack, closing, kinds_of_bytes, lengths_around, open, opening, sessions, success, waiting, waits, ENABLE,
    ENABLE_WORD, ENGINEERING_ON,
};
use super::walks::walk;
use super::Cases;
use crate::model::families::{ACK_BIT, COMMAND};
use crate::oracle::commands::command;
use crate::oracle::sessions::after;
use crate::published;
use crate::station::Script;

/// Words of one script where every word is tried.
const WORDS_IN_ONE: usize = 64;
/// The payload of the longest acknowledgement that an event has room for.
const LONGEST_PAYLOAD: usize = 65_535 - 14;

pub fn station_cases(cases: &mut Cases<'_>) {
    cases.add(&[]);
    every_kind_before_the_end(cases);
    every_ack(cases);
    every_late_ack(cases);
    every_buffer(cases);
    every_command_and_answer(cases);
    every_damaged_frame(cases);
    every_word(cases);
    every_number(cases);
    every_end(cases);
    cases.add(&opening().hand(&ack(ENABLE_WORD, 0, &[0x5A; LONGEST_PAYLOAD])).0);
    cases.draw(300, large_frame);
    cases.draw(20_000, walk);
}

/// Every command in every session, into every buffer, and after it every kind of bytes, twice, a give-up, and the
/// acknowledgement, which is then repeated or late.
fn every_command_and_answer(cases: &mut Cases<'_>) {
    for session in sessions() {
        for numbers in COMMANDS {
            for length in lengths_around(numbers) {
                let fill = cases.random.pick(&FILLS);
                let sent = session.clone().send(numbers, length, fill);
                let own = command(numbers).map_or(0, |command| command.word());
                let word = after(&sent.0).awaited().unwrap_or(own);
                for bytes in kinds_of_bytes(word) {
                    cases.add(&sent.clone().hand(&bytes).hand(&bytes).give_up().succeed(word).0);
                }
            }
        }
    }
}

/// Every kind of bytes in every wait, then the acknowledgement that ends it, unless it has ended.
fn every_kind_before_the_end(cases: &mut Cases<'_>) {
    for session in waits() {
        let word = awaited(&session);
        for bytes in kinds_of_bytes(word) {
            cases.add(&session.clone().hand(&bytes).succeed(word).fail(word).0);
        }
    }
}

/// The word that a session awaits; where none is awaited, that of `EnableConfig`.
fn awaited(session: &Script) -> u16 {
    after(&session.0).awaited().unwrap_or(ENABLE_WORD)
}

/// Every word of the link and every one near the awaited, with statuses and payloads, in every session.
fn every_ack(cases: &mut Cases<'_>) {
    for session in sessions() {
        let near = (0..16).map(|bit| (awaited(&session) | ACK_BIT) ^ (1 << bit));
        for word in WORDS.map(|word| word | ACK_BIT).into_iter().chain(near) {
            for status in [0, 1, 0x0100, 0x8000, 0xFFFF] {
                for length in [0, 1, 4, 26] {
                    let payload = cases.random.bytes(length);
                    let frame = COMMAND.frame(&ack_data(word, status, &payload));
                    cases.add(&session.clone().hand(&frame).give_up().hand(&frame).0);
                }
            }
        }
    }
}

/// Every wait given up, and its acknowledgement in every later wait, before that one's own.
fn every_late_ack(cases: &mut Cases<'_>) {
    for earlier in waits() {
        let word = awaited(&earlier);
        for later in waits() {
            let again = Script([&earlier.clone().give_up().0[..], &later.0].concat());
            cases.add(&again.clone().succeed(word).succeed(awaited(&later)).0);
            cases.add(&again.fail(word).succeed(awaited(&later)).0);
        }
    }
}

/// The awaited acknowledgement with every damage in every session, and the whole one after it; and damaged reports.
fn every_damaged_frame(cases: &mut Cases<'_>) {
    for session in sessions() {
        let right = success(awaited(&session));
        every_damage(&right, &mut |bytes| cases.add(&session.clone().hand(bytes).hand(&right).0));
    }
    for report in published::REPORTS {
        let session = waiting(ENGINEERING_ON);
        every_damage(&published::bytes(report), &mut |bytes| cases.add(&session.clone().hand(bytes).0));
    }
}

/// Every two bytes as the word of an acknowledgement, while opening, waiting and closing.
fn every_word(cases: &mut Cases<'_>) {
    for session in [opening(), waiting(ENGINEERING_ON), closing()] {
        for first in (0..=u16::MAX).step_by(WORDS_IN_ONE) {
            let words = (first..=u16::MAX).take(WORDS_IN_ONE);
            let hand = |script: Script, word| script.hand(&COMMAND.frame(&ack_data(word, 0, &[])));
            cases.add(&words.fold(session.clone(), hand).0);
        }
    }
}

/// Every command into buffers of every length, from open and from closed.
fn every_buffer(cases: &mut Cases<'_>) {
    for numbers in COMMANDS {
        for length in 0..=255 {
            let fill = FILLS[usize::from(length) % FILLS.len()];
            cases.add(&open().send(numbers, length, fill).0);
            cases.add(&Script::default().send(numbers, length, fill).0);
        }
    }
}

/// Every number of a command with every first argument, from open; a COMMAND that is none ends the script.
fn every_number(cases: &mut Cases<'_>) {
    for number in 0..=255 {
        let firsts = if number < 14 { 0..=255 } else { 0..=1 };
        for first in firsts {
            cases.add(&open().ask([number, first, 8, 0, 0, 0]).give_up().0);
        }
    }
    for session in sessions() {
        for none in [[12, 0, 0, 0, 0, 0], [255, 0, 0, 0, 0, 0], [7, 0, 0, 0, 0, 0], [7, 9, 0, 0, 0, 0]] {
            cases.add(&session.clone().ask(none).ask(ENABLE).give_up().0);
        }
    }
}

/// Numbers that no event has, and scripts that are cut short at every byte.
fn every_end(cases: &mut Cases<'_>) {
    for session in [Script::default(), opening(), open(), closing()] {
        for number in 3..=255 {
            cases.add(&[&session.0[..], &[number, 2, 2]].concat());
        }
    }
    for session in sessions() {
        let whole = session.give_up().ask(ENABLE).hand(&published::bytes(published::B)).succeed(ENABLE_WORD).give_up();
        for length in 0..=whole.0.len() {
            cases.add(&whole.0[..length]);
        }
    }
}

/// A large acknowledgement, most often the awaited one, in any session.
fn large_frame(random: &mut Random) -> Vec<u8> {
    let all = sessions();
    let session = all[random.below(all.len())].clone();
    let mut data = large_ack(65_000, random);
    if let Some(word) = after(&session.0).awaited().filter(|_| !random.once_in(4)) {
        data[..2].copy_from_slice(&(word | ACK_BIT).to_le_bytes());
    }
    session.hand(&COMMAND.frame(&data)).give_up().0
}
