//! The lines of an answer in which the farthest gates of a `SetMaxGates` are tested.

use ld2410::Command;

use crate::model::commands::read;
use crate::model::session::Session;
use crate::oracle::commands::Encoding;
use crate::oracle::gates::Gates;
use crate::oracle::sessions::with_sessions;
use crate::station::{Event, STATION};

/// The places of the lines of ops 6, 9 and 20 that are about such gates, the moving one and the stationary one. In a
/// session that is not open, 8 and 7 come first, and the gates are not looked at.
pub fn lines(op: u8, argument: &[u8], meant: fn(u8, u8) -> bool) -> Vec<usize> {
    let has = |command: Option<Command>| match command {
        Some(Command::SetMaxGates { moving, stationary, .. }) => meant(moving, stationary),
        _ => false,
    };
    let commands = match op {
        6 => vec![Encoding::of(argument).map(|encoding| encoding.command)],
        9 => vec![read(argument, Gates::Original).ok()],
        STATION => with_sessions(argument).map(|(session, event)| sent(session, event)).collect(),
        _ => Vec::new(),
    };
    (0..).zip(commands).filter(|&(_, command)| has(command)).map(|(place, _)| place).collect()
}

/// The command of an event that comes to the encoder from open.
fn sent(session: Session, event: Event<'_>) -> Option<Command> {
    match event {
        Event::Send { command, .. } if session == Session::Open => Some(command),
        _ => None,
    }
}
