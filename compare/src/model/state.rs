//! What a state byte says, by request 3.

/// A state's number, as `to_byte` gives it, and the targets that are there.
#[derive(Clone, Copy)]
pub struct State {
    pub number: u8,
    pub moving: bool,
    pub stationary: bool,
    pub present: bool,
}

/// "04 to background calibration running, 05 to done, 06 to failed. Decode these three as states of their own, without
/// any target; bytes 07 and above keep the old rule."
pub fn from_byte(byte: u8) -> State {
    match byte {
        0x04..=0x06 => without_target(byte),
        _ => by_lowest_bits(byte),
    }
}

pub fn without_target(number: u8) -> State {
    State { number, moving: false, stationary: false, present: false }
}

/// The old rule: "State uses its two lowest bits only."
pub fn by_lowest_bits(byte: u8) -> State {
    let (moving, stationary) = (byte & 1 != 0, byte & 2 != 0);
    State { number: byte & 3, moving, stationary, present: moving || stationary }
}
