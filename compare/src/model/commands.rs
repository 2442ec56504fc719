//! The added command reader of document 01: the command that encodes to these bytes, if there is one.

use ld2410::{Baud, Command, Gate};

use super::families::{ACK_BIT, COMMAND};
use crate::oracle::gates::Gates;

/// Refusal: framing, a report header, data under two bytes, a set ACK bit.
const LAYOUT: u8 = 1;
/// Refusal: framed, yet no command encodes to these bytes.
const NO_COMMAND: u8 = 5;

/// The longest frame that a command has.
const LONGEST: usize = 30;

/// The command that encodes to these bytes, of those with such farthest gates.
pub fn read(bytes: &[u8], gates: Gates) -> Result<Command, u8> {
    let data = COMMAND.data(bytes).ok_or(LAYOUT)?;
    let (&word, _) = data.split_first_chunk().ok_or(LAYOUT)?;
    if u16::from_le_bytes(word) & ACK_BIT != 0 {
        return Err(LAYOUT);
    }
    candidates(bytes).into_iter().find(|&command| encodes_to(command, bytes, gates)).ok_or(NO_COMMAND)
}

fn encodes_to(command: Command, bytes: &[u8], gates: Gates) -> bool {
    let mut buffer = [0; LONGEST];
    gates.encode(command, &mut buffer).is_ok_and(|written| &buffer[..written] == bytes)
}

/// Every command that could encode to these bytes: a value stands in its frame at a known place, so the bytes there
/// leave one choice for it.
fn candidates(bytes: &[u8]) -> Vec<Command> {
    let at = |place: usize| bytes.get(place).copied().unwrap_or(0);
    let two_byte_value = u16::from_le_bytes([at(8), at(9)]);
    let (first, second, third) = (at(10), at(16), u16::from_le_bytes([at(22), at(23)]));
    let sensitivity = |gate| Command::SetSensitivity { gate, moving: second, stationary: at(22) };
    let mut all = vec![
        Command::EnableConfig,
        Command::EndConfig,
        Command::SetMaxGates { moving: first, stationary: second, no_one_secs: third },
        Command::ReadParameters,
        Command::EngineeringMode(true),
        Command::EngineeringMode(false),
        sensitivity(Gate::Index(first)),
        sensitivity(Gate::All),
        Command::ReadFirmware,
        Command::FactoryReset,
        Command::Restart,
        Command::Bluetooth(true),
        Command::Bluetooth(false),
        Command::ReadMac,
    ];
    all.extend(Baud::from_index(two_byte_value).map(Command::SetBaud));
    all
}
