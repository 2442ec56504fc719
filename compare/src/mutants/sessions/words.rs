//! Mistakes with one command of the link alone: in sending it, and in the wait for its word.

use ld2410::Command;

use super::commands::{encoder_first, BUFFER};
use super::frames::{end, pass};
use super::{awaits, becomes, Edit, Seen, CLOSED, OPEN};
use crate::generate::acks::WORDS;
use crate::generate::sessions::{ASKED, ENABLE, END};
use crate::model::session::Session;
use crate::mutants::Mutant;
use crate::oracle::commands::command;
use crate::oracle::gates::Gates;
use crate::station::{Event, STATION};

/// A command, and the session from which it goes.
#[derive(Clone, Copy)]
struct Exchange {
    command: Command,
    from: u64,
}

pub fn mutants() -> Vec<Mutant> {
    exchanges().into_iter().flat_map(Exchange::mutants).collect()
}

/// `EnableConfig` from closed, and each command from open.
fn exchanges() -> Vec<Exchange> {
    let from_open = [ENABLE, END].into_iter().chain(ASKED).filter_map(command);
    let mut all: Vec<_> = from_open.map(|command| Exchange { command, from: OPEN }).collect();
    all.push(Exchange { command: Command::EnableConfig, from: CLOSED });
    all
}

impl Exchange {
    fn mutants(self) -> Vec<Mutant> {
        let others = WORDS.into_iter().filter(|&word| word != self.command.word());
        let mut all = Vec::from(SENDING.map(|(mistake, surplus, edit)| self.sending(mistake, surplus, edit)));
        all.extend(WAITING.map(|(mistake, edit)| self.waiting(mistake, edit)));
        for ok in [true, false] {
            all.extend(ENDING.map(|(mistake, edit)| self.ending(ok, mistake, edit)));
            all.push(self.ended_by_another(ok));
        }
        all.extend(others.map(|word| self.ended_by(word)));
        all.extend(WORDS.map(|word| self.taking(word)));
        all
    }

    /// A mistake in sending the command into a buffer that has so many bytes more than its frame.
    fn sending(self, mistake: &str, surplus: isize, edit: Edit) -> Mutant {
        let length = self.command.encoded_len().saturating_add_signed(surplus);
        Mutant::events(STATION, self.named(mistake), move |seen, line| {
            if seen.state == self.from && seen.sends(self.command) && line.len() == BUFFER + length + 2 {
                edit(seen, line);
            }
        })
    }

    /// A mistake while the command is waited for.
    fn waiting(self, mistake: &str, edit: impl Fn(&Seen<'_>, &mut Vec<u64>) + 'static) -> Mutant {
        Mutant::events(STATION, self.named(mistake), move |seen, line| {
            if seen.word != 0 && seen.sent == Some(self.command) && seen.sent_from == self.from {
                edit(seen, line);
            }
        })
    }

    /// A mistake where the awaited acknowledgement comes.
    fn ending(self, ok: bool, mistake: &str, edit: Edit) -> Mutant {
        self.waiting(&format!("its {} ACK {mistake}", good(ok)), move |seen, line| {
            if seen.ends(line, ok) {
                edit(seen, line);
            }
        })
    }

    fn ended_by_another(self, ok: bool) -> Mutant {
        self.waiting(&format!("another word's {} ACK ends the wait", good(ok)), move |seen, line| {
            if seen.passes(line) && seen.ack().is_some_and(|ack| ack.ok == ok) {
                end(line, ok);
            }
        })
    }

    fn ended_by(self, word: u16) -> Mutant {
        self.waiting(&format!("the ACK of {word:04X} ends the wait"), move |seen, line| {
            if let Some(ack) = seen.ack().filter(|ack| ack.word == word) {
                end(line, ack.ok);
            }
        })
    }

    fn taking(self, word: u16) -> Mutant {
        self.waiting(&format!("the command {word:04X} is taken while it waits"), move |seen, line| {
            if seen.command().is_some_and(|command| command.word() == word) {
                take(seen, line);
            }
        })
    }

    fn named(self, mistake: &str) -> String {
        let from = if self.from == OPEN { "open" } else { "closed" };
        format!("{:?} from {from}: {mistake}", self.command)
    }
}

fn good(ok: bool) -> &'static str {
    if ok {
        "good"
    } else {
        "failed"
    }
}

const SENDING: [(&str, isize, Edit); 7] = [
    ("one byte short, the bytes needed are missing", -1, |_, line| line[2] = 0),
    ("one byte short, it moves the session", -1, |seen, line| lead_on(seen, line)),
    ("one byte short, it is taken and leads on", -1, |seen, line| {
        line[1] = 0;
        lead_on(seen, line);
    }),
    ("one byte short, it leads elsewhere", -1, |_, line| elsewhere(line)),
    ("a buffer of just the length is refused", 0, |seen, line| refuse(seen, line)),
    ("a buffer one byte longer is refused", 1, |seen, line| refuse(seen, line)),
    ("it leaves the session where it was", 0, |seen, line| awaits(line, seen.state, seen.word)),
];

const WAITING: [(&str, Edit); 7] = [
    ("a give-up leaves the session open", |seen, line| {
        if seen.gives_up() {
            becomes(line, OPEN);
        }
    }),
    ("a give-up keeps the wait", |seen, line| {
        if seen.gives_up() {
            awaits(line, seen.state, seen.word);
        }
    }),
    ("a report ends the wait", |seen, line| {
        if seen.report() {
            end(line, true);
        }
    }),
    ("bytes that are no frame end the wait", |seen, line| {
        if seen.passes(line) && seen.frame().is_none() {
            end(line, false);
        }
    }),
    ("a command sent while it waits gets 7", |seen, line| {
        if seen.refused(line, 8) {
            line[1] = 7;
        }
    }),
    ("2 is tested before 8", |seen, line| encoder_first(seen, line, 8, 2)),
    ("4 is tested before 8", |seen, line| encoder_first(seen, line, 8, 4)),
];

const ENDING: [(&str, Edit); 4] = [
    ("leads elsewhere", |_, line| elsewhere(line)),
    ("keeps the wait", |seen, line| awaits(line, seen.state, seen.word)),
    ("passes", |seen, line| pass(seen, line)),
    ("counts as the opposite", |_, line| line[2] ^= 1),
];

/// Closes a session that should be open, and opens one that should be closed.
fn elsewhere(line: &mut [u64]) {
    let right = line[line.len() - 2];
    becomes(line, if right == OPEN { CLOSED } else { OPEN });
}

/// Moves the session to where the command leads.
fn lead_on(seen: &Seen<'_>, line: &mut [u64]) {
    if let Some(command) = seen.command() {
        let mut session = Session::Open;
        session.send(command, &mut vec![0; command.encoded_len()], Gates::RIGHT);
        awaits(line, session.number().into(), session.awaited().unwrap_or(0).into());
    }
}

/// Takes a command that was refused: writes it, and moves the session.
fn take(seen: &Seen<'_>, line: &mut [u64]) {
    if let Some((0, count, buffer)) = seen.encoded() {
        line[1..BUFFER].copy_from_slice(&[0, count]);
        line[BUFFER..].iter_mut().zip(buffer).for_each(|(slot, byte)| *slot = byte.into());
        lead_on(seen, line);
    }
}

/// Refuses with 4 a command that was taken: the buffer stays, and the session.
fn refuse(seen: &Seen<'_>, line: &mut [u64]) {
    if let Event::Send { length, fill, .. } = seen.event {
        line[1] = 4;
        line[BUFFER..BUFFER + usize::from(length)].fill(fill.into());
        awaits(line, seen.state, seen.word);
    }
}
