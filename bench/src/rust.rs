//! The original Rust behind the functions of bench/link: all of the bytes fed to a fresh parser, by slices or byte by
//! byte, with every field of every frame and the final counters in a digest; and, for the size of the library's text,
//! each reader and the encoder, with every field of its answer.
pub mod digest;

use ld2410::{Ack, Baud, Command, Frame, Gate, Parser, Report};
use rusty_esp_core::prelude::{Error, Result};

/// A refusal's number.
fn number(error: Error) -> u64 {
    match error {
        Error::InvalidFormat => 1,
        Error::Unsupported => 2,
        Error::Hardware => 3,
        Error::BufferTooSmall { .. } => 4,
    }
}

/// What an answer adds to the digest: by `there`, or the refusal's number.
fn answered<T>(digest: u64, answer: Result<T>, there: impl Fn(u64, T) -> u64) -> u64 {
    match answer {
        Ok(value) => there(digest, value),
        Err(error) => digest::mix(digest, number(error)),
    }
}

#[unsafe(no_mangle)]
pub unsafe extern "C" fn rust_feed_slice(bytes: *const u8, len: usize) -> u64 {
    let bytes = unsafe { std::slice::from_raw_parts(bytes, len) };
    let mut parser = Parser::new();
    let mut digest = 0;
    let mut i = 0;
    while i < bytes.len() {
        let (taken, frame) = parser.feed_slice(&bytes[i..]);
        if let Some(frame) = &frame {
            digest = digest::frame(digest, frame);
        }
        i += taken;
    }
    digest::stats(digest, parser.stats())
}

#[unsafe(no_mangle)]
pub unsafe extern "C" fn rust_feed(bytes: *const u8, len: usize) -> u64 {
    let bytes = unsafe { std::slice::from_raw_parts(bytes, len) };
    let mut parser = Parser::new();
    let mut digest = 0;
    for &byte in bytes {
        if let Some(frame) = &parser.feed(byte) {
            digest = digest::frame(digest, frame);
        }
    }
    digest::stats(digest, parser.stats())
}

#[unsafe(no_mangle)]
pub unsafe extern "C" fn rust_report(bytes: *const u8, len: usize) -> u64 {
    let bytes = unsafe { std::slice::from_raw_parts(bytes, len) };
    answered(0, Report::parse(bytes), |d, r| digest::report(d, &r))
}

#[unsafe(no_mangle)]
pub unsafe extern "C" fn rust_frame(bytes: *const u8, len: usize) -> u64 {
    let bytes = unsafe { std::slice::from_raw_parts(bytes, len) };
    answered(0, Frame::parse(bytes), |d, f| digest::frame(d, &f))
}

#[unsafe(no_mangle)]
pub unsafe extern "C" fn rust_replies(bytes: *const u8, len: usize) -> u64 {
    let bytes = unsafe { std::slice::from_raw_parts(bytes, len) };
    answered(0, Ack::parse(bytes), |d, ack| {
        let config = answered(d, ack.enable_config(), |d, c| {
            digest::mix(d, c.protocol_version as u64 ^ (c.buffer_size as u64) << 16)
        });
        let firmware = answered(config, ack.firmware_version(), |d, v| {
            digest::mix(d, v.firmware_type as u64 ^ (v.major as u64) << 16 ^ (v.minor as u64) << 32)
        });
        let parameters = answered(firmware, ack.parameters(), |d, p| {
            let gates = p.max_gate as u64 ^ (p.max_moving_gate as u64) << 8 ^ (p.max_stationary_gate as u64) << 16;
            let last = (p.moving_sensitivity[8] as u64) << 24 ^ (p.stationary_sensitivity[8] as u64) << 32;
            let d = digest::mix(d, gates ^ last ^ (p.no_one_secs as u64) << 40);
            digest::mix(
                digest::mix(d, digest::eight(&p.moving_sensitivity)),
                digest::eight(&p.stationary_sensitivity),
            )
        });
        answered(parameters, ack.mac(), |d, mac| {
            let a = mac.0;
            digest::mix(d, u64::from_le_bytes([a[0], a[1], a[2], a[3], a[4], a[5], 0, 0]))
        })
    })
}

fn command(which: u8, a: u8, b: u8, c: u8) -> Command {
    match which {
        0 => Command::EnableConfig,
        1 => Command::EndConfig,
        2 => Command::SetMaxGates { moving: a, stationary: b, no_one_secs: c as u16 },
        3 => Command::ReadParameters,
        4 => Command::EngineeringMode(a == 1),
        5 => {
            let gate = if a == 255 { Gate::All } else { Gate::Index(a) };
            Command::SetSensitivity { gate, moving: b, stationary: c }
        }
        6 => Command::ReadFirmware,
        7 => Command::SetBaud(Baud::from_index(a as u16).unwrap_or(Baud::B9600)),
        8 => Command::FactoryReset,
        9 => Command::Restart,
        10 => Command::Bluetooth(a == 1),
        _ => Command::ReadMac,
    }
}

#[unsafe(no_mangle)]
pub unsafe extern "C" fn rust_encode(out: *mut u8, len: usize, which: u8, a: u8, b: u8, c: u8) -> u64 {
    let out = unsafe { std::slice::from_raw_parts_mut(out, len) };
    match command(which, a, b, c).encode(out) {
        Ok(end) => end as u64,
        Err(Error::BufferTooSmall { needed }) => 4 << 32 ^ needed as u64,
        Err(error) => number(error) << 32,
    }
}
