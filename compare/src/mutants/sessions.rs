//! Mistakes in the session of request 2: in its commands, frames and give-ups, with any command and
//! with one alone, and in the script.

mod commands;
mod frames;
mod gates;
mod give_ups;
mod words;

use ld2410::{Ack, Command, Frame};

use super::{right, Mutant};
use crate::oracle::gates::Gates;
use crate::station::{events, Event, STATION};

/// The numbers of sessions.
const CLOSED: u64 = 0;
const OPENING: u64 = 1;
const OPEN: u64 = 2;
const WAITING: u64 = 3;
const CLOSING: u64 = 4;

/// Bytes of an event that sends a command.
const SEND: usize = 9;

/// An event, and the session before it.
pub struct Seen<'a> {
    event: Event<'a>,
    /// The session's number.
    state: u64,
    /// The word awaited, 0 where none is.
    word: u64,
    /// The last command that was not refused, and the session from which it went.
    sent: Option<Command>,
    sent_from: u64,
}

type Edit = fn(&Seen<'_>, &mut Vec<u64>);

/// Changes the answer to each event of a script.
pub fn edit_events(script: &[u8], lines: &mut [Vec<u64>], edit: impl Fn(&Seen<'_>, &mut Vec<u64>)) {
    let (mut state, mut word) = (CLOSED, 0);
    let (mut sent, mut sent_from) = (None, CLOSED);
    for (event, line) in events(script).zip(lines) {
        let after = [line[line.len() - 2], line[line.len() - 1]];
        let refused = line[1] != 0;
        edit(&Seen { event, state, word, sent, sent_from }, line);
        if let Event::Send { command, .. } = event {
            (sent, sent_from) = if refused { (sent, sent_from) } else { (Some(command), state) };
        }
        [state, word] = after;
    }
}

impl<'a> Seen<'a> {
    fn command(&self) -> Option<Command> {
        match self.event {
            Event::Send { command, .. } => Some(command),
            _ => None,
        }
    }

    /// Whether this is the command sent, or refused.
    fn sends(&self, command: Command) -> bool {
        self.command() == Some(command)
    }

    fn frame(&self) -> Option<Frame<'a>> {
        match self.event {
            Event::Hand(bytes) => Frame::parse(bytes).ok(),
            _ => None,
        }
    }

    fn ack(&self) -> Option<Ack<'a>> {
        match self.frame() {
            Some(Frame::Ack(ack)) => Some(ack),
            _ => None,
        }
    }

    fn report(&self) -> bool {
        matches!(self.frame(), Some(Frame::Report(_)))
    }

    /// Whether the event ended the wait by success, or by failure.
    fn ends(&self, line: &[u64], ok: bool) -> bool {
        matches!(self.event, Event::Hand(_)) && line[1..3] == [1, ok.into()]
    }

    /// Whether a frame is handed over that passes while a wait is on.
    fn passes(&self, line: &[u64]) -> bool {
        matches!(self.event, Event::Hand(_)) && self.word != 0 && line[1] == 0
    }

    fn gives_up(&self) -> bool {
        matches!(self.event, Event::GiveUp)
    }

    /// Whether a command got this refusal, 0 for none.
    fn refused(&self, line: &[u64], refusal: u64) -> bool {
        self.command().is_some() && line[1] == refusal
    }

    /// What the encoder alone would answer: refusal, count, and the buffer.
    fn encoded(&self) -> Option<(u64, u64, Vec<u8>)> {
        let Event::Send { command, length, fill } = self.event else {
            return None;
        };
        let needed = command.encoded_len();
        let passes = Gates::RIGHT.encode(command, &mut vec![0; needed]).is_ok();
        let mut buffer = vec![fill; length.into()];
        let written = Gates::RIGHT.encode(command, &mut buffer).is_ok();
        Some(match (passes, written) {
            (_, true) => (0, needed as u64, buffer),
            (true, false) => (4, needed as u64, buffer),
            (false, false) => (2, 0, buffer),
        })
    }
}

/// Makes the session after an event another; its awaited word is 0.
fn becomes(line: &mut [u64], state: u64) {
    awaits(line, state, 0);
}

fn awaits(line: &mut [u64], state: u64, word: u64) {
    let end = line.len();
    line[end - 2..].copy_from_slice(&[state, word]);
}

pub fn mutants() -> Vec<Mutant> {
    let of_events = |all: &[(&'static str, Edit)]| -> Vec<_> {
        all.iter().map(|&(mistake, edit)| Mutant::events(STATION, mistake, edit)).collect()
    };
    let mut all = of_events(&commands::SENDING);
    all.extend(of_events(&commands::REFUSING));
    all.extend(of_events(&gates::NEAR));
    all.extend(of_events(&frames::ENDING));
    all.extend(of_events(&frames::PASSING));
    all.extend(of_events(&give_ups::GIVING_UP));
    all.extend(words::mutants());
    all.extend(scripts());
    all
}

/// Mistakes in the events of a script.
fn scripts() -> Vec<Mutant> {
    vec![
        Mutant::argument(STATION, "a number that no event has is passed over", |script| {
            let end = script.len() - events(script).end().len();
            if script.get(end).is_some_and(|&number| number > 2) {
                script.remove(end);
            }
        }),
        Mutant::argument(STATION, "a COMMAND that is none is passed over", |script| {
            let left = events(script).end();
            if left.len() >= SEND && left[0] == 0 {
                let end = script.len() - left.len();
                script.drain(end..end + SEND);
            }
        }),
        Mutant::argument(STATION, "a frame that is cut short is handed over", |script| {
            if let [1, _, _, bytes @ ..] = events(script).end() {
                let (end, length) = (script.len() - bytes.len() - 2, bytes.len() as u16);
                script[end..end + 2].copy_from_slice(&length.to_le_bytes());
            }
        }),
        Mutant::lines(STATION, "each event starts from a closed session", |script, lines| {
            let mut rest = events(script);
            let mut before = script;
            for line in lines {
                let _ = rest.next();
                let alone = &before[..before.len() - rest.left().len()];
                *line = right(STATION, alone).remove(0);
                before = rest.left();
            }
        }),
    ]
}
