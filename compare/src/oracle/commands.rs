//! Ops 6, 9 and 12: COMMAND of docs/REPLAY.md, the original's encoder and rates, the model's command reader.

use ld2410::{Baud, Command, Gate};
use rusty_esp_core::prelude::Error;

use super::gates::Gates;
use super::values::refusal_of;
use crate::case::Fields;
use crate::line::Line;
use crate::model;

/// An argument of op 6: a command, and a buffer of this length, each byte `fill`.
pub struct Encoding {
    pub command: Command,
    length: u16,
    fill: u8,
}

impl Encoding {
    pub fn of(argument: &[u8]) -> Option<Self> {
        let mut fields = Fields(argument);
        let (length, fill) = (fields.u16()?, fields.u8()?);
        Some(Self { command: command(fields.array()?)?, length, fill })
    }
}

pub fn encode(argument: &[u8], gates: Gates, out: &mut Vec<u8>) -> Option<()> {
    let Encoding { command, length, fill } = Encoding::of(argument)?;
    let mut buffer = vec![fill; length.into()];
    let result = gates.encode(command, &mut buffer);
    let mut line = Line::new(out, 6);
    line.number(refusal_of(&result));
    line.count(match result {
        Ok(written) => written,
        Err(Error::BufferTooSmall { needed }) => needed,
        Err(_) => 0,
    });
    line.bytes(&buffer);
    line.number(command.word());
    line.count(command.encoded_len());
    line.end();
    Some(())
}

pub fn read(bytes: &[u8], gates: Gates, out: &mut Vec<u8>) -> Option<()> {
    let read = model::commands::read(bytes, gates);
    let mut line = Line::new(out, 9);
    line.number(read.err().unwrap_or(0));
    line.bytes(&read.map_or([0; 6], numbers));
    line.end();
    Some(())
}

pub fn baud(argument: &[u8], out: &mut Vec<u8>) -> Option<()> {
    let rate = Baud::from_index(Fields(argument).u16()?);
    let mut line = Line::new(out, 12);
    line.number(rate.is_some());
    line.number(rate.map_or(0, Baud::index));
    line.number(rate.map_or(0, Baud::bits_per_second));
    line.end();
    Some(())
}

/// The command of six numbers; none for a number or a rate that there is not.
pub fn command([number, a, b, c, d, _]: [u8; 6]) -> Option<Command> {
    Some(match number {
        0 => Command::EnableConfig,
        1 => Command::EndConfig,
        2 => Command::SetMaxGates { moving: a, stationary: b, no_one_secs: u16::from_le_bytes([c, d]) },
        3 => Command::ReadParameters,
        4 => Command::EngineeringMode(a != 0),
        5 => {
            Command::SetSensitivity { gate: if a != 0 { Gate::All } else { Gate::Index(b) }, moving: c, stationary: d }
        }
        6 => Command::ReadFirmware,
        7 => Command::SetBaud(Baud::from_index(a.into())?),
        8 => Command::FactoryReset,
        9 => Command::Restart,
        10 => Command::Bluetooth(a != 0),
        11 => Command::ReadMac,
        _ => return None,
    })
}

/// The six numbers of a command; all gates are 1 and gate 0, and what a command does not have is 0.
fn numbers(command: Command) -> [u8; 6] {
    match command {
        Command::EnableConfig => [0; 6],
        Command::EndConfig => [1, 0, 0, 0, 0, 0],
        Command::SetMaxGates { moving, stationary, no_one_secs } => {
            let [low, high] = no_one_secs.to_le_bytes();
            [2, moving, stationary, low, high, 0]
        }
        Command::ReadParameters => [3, 0, 0, 0, 0, 0],
        Command::EngineeringMode(on) => [4, on.into(), 0, 0, 0, 0],
        Command::SetSensitivity { gate, moving, stationary } => {
            let (all, index) = match gate {
                Gate::All => (1, 0),
                Gate::Index(index) => (0, index),
            };
            [5, all, index, moving, stationary, 0]
        }
        Command::ReadFirmware => [6, 0, 0, 0, 0, 0],
        Command::SetBaud(baud) => [7, baud.index() as u8, 0, 0, 0, 0],
        Command::FactoryReset => [8, 0, 0, 0, 0, 0],
        Command::Restart => [9, 0, 0, 0, 0, 0],
        Command::Bluetooth(on) => [10, on.into(), 0, 0, 0, 0],
        Command::ReadMac => [11, 0, 0, 0, 0, 0],
    }
}
