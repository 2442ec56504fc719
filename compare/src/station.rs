//! A station script of docs/REPLAY.md: a row of events on one session.

use ld2410::Command;

use crate::case::Fields;
use crate::oracle::commands::command;

/// The op of a station script.
pub const STATION: u8 = 20;

#[derive(Clone, Copy)]
pub enum Event<'a> {
    /// A command is sent into a buffer of this length, each byte `fill`.
    Send {
        command: Command,
        length: u8,
        fill: u8,
    },
    /// The frame that these bytes are, or none, is handed over.
    Hand(&'a [u8]),
    GiveUp,
}

/// The events of a script, up to one that it cuts short, a number that no event has, or a COMMAND that is none.
pub struct Events<'a> {
    rest: &'a [u8],
}

pub fn events(script: &[u8]) -> Events<'_> {
    Events { rest: script }
}

impl<'a> Events<'a> {
    /// What stands after the events that were taken.
    pub fn left(&self) -> &'a [u8] {
        self.rest
    }

    /// What stands after the last event.
    pub fn end(mut self) -> &'a [u8] {
        while self.next().is_some() {}
        self.rest
    }
}

impl<'a> Iterator for Events<'a> {
    type Item = Event<'a>;

    fn next(&mut self) -> Option<Event<'a>> {
        let mut fields = Fields(self.rest);
        let event = match fields.u8()? {
            0 => Event::Send { command: command(fields.array()?)?, length: fields.u8()?, fill: fields.u8()? },
            1 => {
                let length = fields.u16()?;
                Event::Hand(fields.take(length.into())?)
            }
            2 => Event::GiveUp,
            _ => return None,
        };
        self.rest = fields.rest();
        Some(event)
    }
}

/// A script that is being written.
#[derive(Clone, Default)]
pub struct Script(pub Vec<u8>);

impl Script {
    pub fn send(mut self, command: [u8; 6], length: u8, fill: u8) -> Self {
        self.0.push(0);
        self.0.extend(command);
        self.0.extend([length, fill]);
        self
    }

    pub fn hand(mut self, bytes: &[u8]) -> Self {
        let length = u16::try_from(bytes.len()).expect("a frame handed over is at most 65,535 bytes");
        self.0.push(1);
        self.0.extend(length.to_le_bytes());
        self.0.extend(bytes);
        self
    }

    pub fn give_up(mut self) -> Self {
        self.0.push(2);
        self
    }
}
