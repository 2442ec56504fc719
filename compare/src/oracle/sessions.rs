//! Op 20: station scripts on the model's session.

use ld2410::Frame;

use super::gates::Gates;
use crate::line::Line;
use crate::model::session::Session;
use crate::station::{events, Event, STATION};

/// The original's gates change the answer to an event, and not the session in which the next one happens: so each event
/// is answered from the same session as by the right gates.
pub fn station(script: &[u8], gates: Gates, out: &mut Vec<u8>) -> Option<()> {
    let mut session = Session::Closed;
    for event in events(script) {
        let mut line = Line::new(out, STATION);
        let before = session;
        happen(&mut session, event, gates, &mut line);
        line.number(session.number());
        line.number(session.awaited().unwrap_or(0));
        line.end();
        if matches!(gates, Gates::Original) {
            session = next(before, event);
        }
    }
    Some(())
}

/// Lets an event happen to a session, and writes its answer.
fn happen(session: &mut Session, event: Event<'_>, gates: Gates, line: &mut Line<'_>) {
    match event {
        Event::Send { command, length, fill } => {
            let mut buffer = vec![fill; length.into()];
            let sent = session.send(command, &mut buffer, gates);
            line.number(sent.refusal);
            line.count(sent.count);
            line.bytes(&buffer);
        }
        Event::Hand(bytes) => {
            let handed = session.hand(Frame::parse(bytes).ok().as_ref());
            line.number(handed.ended);
            line.number(handed.ok);
        }
        Event::GiveUp => session.give_up(),
    }
}

/// The session after an event.
fn next(mut session: Session, event: Event<'_>) -> Session {
    happen(&mut session, event, Gates::RIGHT, &mut Line::new(&mut Vec::new(), STATION));
    session
}

/// Lets the events of a script happen to a session.
pub fn advance(session: &mut Session, script: &[u8]) {
    *session = events(script).fold(*session, next);
}

/// The session after a script.
pub fn after(script: &[u8]) -> Session {
    events(script).fold(Session::Closed, next)
}

/// The events of a script, each beside the session before it.
pub fn with_sessions(script: &[u8]) -> impl Iterator<Item = (Session, Event<'_>)> {
    events(script).scan(Session::Closed, |session, event| {
        let before = *session;
        *session = next(before, event);
        Some((before, event))
    })
}
