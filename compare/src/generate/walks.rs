//! Random walks of a station, steered by the session so that each of the five is visited often.

use super::acks::{any_status, any_word};
use super::commands::{any_command, COMMANDS};
use super::damage::damaged;
use super::frames::frame_near_good;
use super::random::Random;
use super::reports::good_report;
use super::sessions::{ack, failure, kinds_of_bytes, lengths_around, success, ENABLE, ENABLE_WORD, END, RESTART};
use crate::model::families::REPORT;
use crate::model::session::Session;
use crate::oracle::commands::command;
use crate::oracle::sessions::advance;
use crate::station::Script;

/// The most events of a walk.
const LONGEST: usize = 74;

pub fn walk(random: &mut Random) -> Vec<u8> {
    let mut script = Vec::new();
    let mut session = Session::Closed;
    // The words awaited now or last, and before that.
    let mut words = [ENABLE_WORD; 2];
    for _ in 0..random.between(1, LONGEST) {
        if let Some(word) = session.awaited().filter(|&word| word != words[0]) {
            words = [word, words[0]];
        }
        let Script(event) = event(session, words, random);
        advance(&mut session, &event);
        script.extend(event);
    }
    if random.once_in(16) {
        end_early(&mut script, random);
    }
    script
}

/// The next event: most often one that leads on.
fn event(session: Session, words: [u16; 2], random: &mut Random) -> Script {
    let script = Script::default();
    match (session, random.below(16)) {
        (_, 0) => script.give_up(),
        (_, 1 | 2) => script.hand(&other_bytes(words[0], random)),
        (_, 3) => script.hand(&late(words, random)),
        (_, 4) => send(script, any(random), random),
        (Session::Closed, 5) => send(script, any(random), random),
        (Session::Closed, _) => send(script, ENABLE, random),
        (Session::Open, 5 | 6) => send(script, random.pick(&[ENABLE, END, END, RESTART]), random),
        (Session::Open, _) => send(script, any(random), random),
        (_, 5) => script.give_up(),
        (_, 6) => script.hand(&other_bytes(words[0], random)),
        (_, 7..=9) => script.hand(&failure(words[0])),
        (_, _) => script.hand(&awaited(words[0], random)),
    }
}

fn send(script: Script, numbers: [u8; 6], random: &mut Random) -> Script {
    let around = lengths_around(numbers);
    let length = match random.below(8) {
        0 => random.byte(),
        1 => random.pick(&around),
        _ => random.pick(&[around[2], around[3], 30]),
    };
    script.send(numbers, length, random.byte())
}

/// Any command, also one that does not pass.
fn any(random: &mut Random) -> [u8; 6] {
    let numbers = any_command(random);
    if random.once_in(2) && command(numbers).is_some() {
        numbers
    } else {
        random.pick(&COMMANDS)
    }
}

/// An acknowledgement with the awaited word.
fn awaited(word: u16, random: &mut Random) -> Vec<u8> {
    match random.below(4) {
        0 => {
            let length = random.below(30);
            ack(word, any_status(random), &random.bytes(length))
        }
        1 => ack(word, 0, &[]),
        _ => success(word),
    }
}

/// An acknowledgement of a wait that may be over.
fn late(words: [u16; 2], random: &mut Random) -> Vec<u8> {
    let word = random.pick(&words);
    if random.once_in(3) {
        failure(word)
    } else {
        success(word)
    }
}

/// Reports, acknowledgements of any word, and bytes that are no frame.
fn other_bytes(word: u16, random: &mut Random) -> Vec<u8> {
    match random.below(6) {
        0 | 1 => REPORT.frame(&good_report(random)),
        2 => ack(any_word(random), any_status(random), &[]),
        3 => damaged(&success(word), random),
        4 => frame_near_good(random),
        _ => {
            let kinds = kinds_of_bytes(word);
            kinds[random.below(kinds.len())].clone()
        }
    }
}

/// Cuts a script short, or puts a byte that no event has somewhere into it, or a COMMAND that is none after it.
fn end_early(script: &mut Vec<u8>, random: &mut Random) {
    let place = random.below(script.len() + 1);
    match random.below(3) {
        0 => script.truncate(place),
        1 => script.insert(place, random.between(3, 255) as u8),
        _ => script.extend([0, 12, 0, 0, 0, 0, 0, 30, 0, 2]),
    }
}
