//! The session of request 2, sentence by sentence, over the original's commands and frames, with farthest
//! gates as they are given.

use ld2410::{Command, Frame};
use rusty_esp_core::prelude::Error;

use crate::oracle::gates::Gates;
use crate::oracle::values::refusal;

/// New number: "a command other than `EnableConfig` in a closed session".
const CLOSED: u8 = 7;
/// New number: "any command while opening, waiting or closing".
const BUSY: u8 = 8;

/// "A session that is closed, opening, open, waiting for a word, or closing."
#[derive(Clone, Copy, PartialEq, Eq)]
pub enum Session {
    Closed,
    Opening,
    Open,
    Waiting(u16),
    Closing,
}

/// The answer to a command: the refusal (0 for none), and the bytes written, with refusal 4 those needed.
pub struct Sent {
    pub refusal: u8,
    pub count: usize,
}

/// "The answer to a frame says whether it ended the wait, and if so whether `ok` was on."
pub struct Handed {
    pub ended: bool,
    pub ok: bool,
}

impl Session {
    /// The number of docs/REPLAY.md.
    pub fn number(self) -> u8 {
        match self {
            Self::Closed => 0,
            Self::Opening => 1,
            Self::Open => 2,
            Self::Waiting(_) => 3,
            Self::Closing => 4,
        }
    }

    /// The word of the ACK that a wait is for; none where no wait is on.
    pub fn awaited(self) -> Option<u16> {
        match self {
            Self::Opening => Some(Command::EnableConfig.word()),
            Self::Waiting(word) => Some(word),
            Self::Closing => Some(Command::EndConfig.word()),
            Self::Closed | Self::Open => None,
        }
    }

    /// "8 is tested first, then 7, both before 2 and 4"; the encoder tests 2 before 4. "A refused command leaves the
    /// session where it was."
    pub fn send(&mut self, command: Command, buffer: &mut [u8], gates: Gates) -> Sent {
        if matches!(self, Self::Opening | Self::Waiting(_) | Self::Closing) {
            return Sent { refusal: BUSY, count: 0 };
        }
        if *self == Self::Closed && command != Command::EnableConfig {
            return Sent { refusal: CLOSED, count: 0 };
        }
        match gates.encode(command, buffer) {
            Ok(count) => {
                *self = Self::after(command);
                Sent { refusal: 0, count }
            }
            Err(error @ Error::BufferTooSmall { needed }) => Sent { refusal: refusal(error), count: needed },
            Err(error) => Sent { refusal: refusal(error), count: 0 },
        }
    }

    /// "`EnableConfig` is sent from closed or open and leads to opening. Other commands go from open; `EndConfig` leads
    /// to closing."
    fn after(command: Command) -> Self {
        match command {
            Command::EnableConfig => Self::Opening,
            Command::EndConfig => Self::Closing,
            other => Self::Waiting(other.word()),
        }
    }

    /// "The awaited ACK ends the wait"; "other ACKs and reports pass through and change nothing".
    pub fn hand(&mut self, frame: Option<&Frame<'_>>) -> Handed {
        match frame {
            Some(Frame::Ack(ack)) if self.awaited() == Some(ack.word) => {
                *self = self.ended(ack.ok);
                Handed { ended: true, ok: ack.ok }
            }
            _ => Handed { ended: false, ok: false },
        }
    }

    /// "Opening becomes open on success (`ok` on) and closed on failure, closing becomes closed on success and open on
    /// failure, a successful `Restart` closes, any other returns to open."
    fn ended(self, ok: bool) -> Self {
        match (self, ok) {
            (Self::Opening, true) => Self::Open,
            (Self::Opening, false) => Self::Closed,
            (Self::Closing, true) => Self::Closed,
            (Self::Closing, false) => Self::Open,
            (Self::Waiting(word), true) if word == Command::Restart.word() => Self::Closed,
            (Self::Waiting(_), _) => Self::Open,
            (Self::Closed | Self::Open, _) => self,
        }
    }

    /// "The station may give up a wait, which closes the session; giving up with no wait on changes nothing."
    pub fn give_up(&mut self) {
        if self.awaited().is_some() {
            *self = Self::Closed;
        }
    }
}
