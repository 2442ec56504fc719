//! Which farthest gates are encoded: those that the original takes, or by a rule.

use ld2410::Command;
use rusty_esp_core::prelude::{Error, Result};

use crate::model::gates::may_be_farthest;

#[derive(Clone, Copy)]
pub enum Gates {
    Original,
    /// Of the moving gate and the stationary one.
    By(fn(u8, u8) -> bool),
}

impl Gates {
    /// Those of request 7.
    pub const RIGHT: Self = Self::By(may_be_farthest);

    /// Encodes a command as the original does. Farthest gates that a rule does not take get what the original gives to
    /// gates above 8, before the buffer's length is looked at.
    pub fn encode(self, command: Command, buffer: &mut [u8]) -> Result<usize> {
        match (self, command) {
            (Self::By(rule), Command::SetMaxGates { moving, stationary, .. }) if !rule(moving, stationary) => {
                Err(Error::Unsupported)
            }
            _ => command.encode(buffer),
        }
    }
}
