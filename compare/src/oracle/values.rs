//! The original's values as numbers of a line: REPORT, ACK and FRAME of docs/REPLAY.md.

use ld2410::{Ack, Engineering, Frame, Report, Target};
use rusty_esp_core::prelude::Error;

use super::states::Targets;
use crate::line::Line;

/// Numbers of a REPORT: 36 fields, then 14 of the accessors.
const REPORT_NUMBERS: usize = 36 + 14;
/// Numbers of an ACK.
const ACK_NUMBERS: usize = 5;
/// Numbers of an engineering block: two counts, nine and nine energies, eight reserved bytes and their count.
const ENGINEERING_NUMBERS: usize = 2 + 9 + 9 + 8 + 1;
/// Numbers of its accessors: three valid counts, `light` and `out_pin`.
const ENGINEERING_ACCESSOR_NUMBERS: usize = 3 + 2 + 2;

/// Document 01's number of a refusal.
pub fn refusal(error: Error) -> u8 {
    match error {
        Error::InvalidFormat => 1,
        Error::Unsupported => 2,
        Error::Hardware => 3,
        Error::BufferTooSmall { .. } => 4,
    }
}

/// The refusal of a result, 0 where there is none.
pub fn refusal_of<T>(result: &Result<T, Error>) -> u8 {
    result.as_ref().err().map_or(0, |&error| refusal(error))
}

/// A report, its state and what follows from it as `targets` says.
pub fn report(line: &mut Line<'_>, report: Option<&Report>, targets: impl FnOnce(&Report) -> Targets) {
    let Some(report) = report else {
        return line.zeros(REPORT_NUMBERS);
    };
    let Targets { state, moving, stationary, present } = targets(report);
    line.number(state);
    line.number(report.moving_distance_cm);
    line.number(report.moving_energy);
    line.number(report.stationary_distance_cm);
    line.number(report.stationary_energy);
    line.number(report.detection_distance_cm);
    line.number(report.is_engineering());
    engineering(line, report.engineering.as_ref());
    target(line, moving);
    target(line, stationary);
    line.number(present);
    engineering_accessors(line, report.engineering.as_ref());
}

fn engineering(line: &mut Line<'_>, block: Option<&Engineering>) {
    let Some(block) = block else {
        return line.zeros(ENGINEERING_NUMBERS);
    };
    line.number(block.moving_gates);
    line.number(block.stationary_gates);
    line.bytes(&block.moving_energy);
    line.bytes(&block.stationary_energy);
    line.bytes(&block.extra);
    line.number(block.extra_len);
}

fn engineering_accessors(line: &mut Line<'_>, block: Option<&Engineering>) {
    let Some(block) = block else {
        return line.zeros(ENGINEERING_ACCESSOR_NUMBERS);
    };
    line.count(block.moving().len());
    line.count(block.stationary().len());
    line.count(block.extra().len());
    optional_byte(line, block.light());
    optional_byte(line, block.out_pin());
}

fn target(line: &mut Line<'_>, target: Option<Target>) {
    line.number(target.is_some());
    line.number(target.map_or(0, |target| target.distance_cm));
    line.number(target.map_or(0, |target| target.energy));
}

fn optional_byte(line: &mut Line<'_>, byte: Option<u8>) {
    line.number(byte.is_some());
    line.number(byte.unwrap_or(0));
}

/// An ACK, its payload's start counted from the address `base` of the bytes it was read from.
pub fn ack(line: &mut Line<'_>, ack: Option<&Ack<'_>>, base: usize) {
    let Some(ack) = ack else {
        return line.zeros(ACK_NUMBERS);
    };
    line.number(ack.word);
    line.number(ack.ok);
    line.number(ack.status);
    span(line, ack.payload, base);
}

/// Start and length of a payload within the bytes at `base`.
pub fn span(line: &mut Line<'_>, payload: &[u8], base: usize) {
    line.count(address(payload) - base);
    line.count(payload.len());
}

pub fn frame(line: &mut Line<'_>, frame: Option<&Frame<'_>>, targets: impl FnOnce(&Report) -> Targets, base: usize) {
    let (kind, its_report, its_ack) = match frame {
        None => (0u8, None, None),
        Some(Frame::Report(report)) => (1, Some(report), None),
        Some(Frame::Ack(ack)) => (2, None, Some(ack)),
    };
    line.number(kind);
    report(line, its_report, targets);
    ack(line, its_ack, base);
}

/// The line of one call on a parser: bytes taken, the frame, and its payload's bytes.
pub fn call(
    line: &mut Line<'_>,
    taken: usize,
    delivered: Option<&Frame<'_>>,
    targets: impl FnOnce(&Report) -> Targets,
    base: usize,
) {
    line.count(taken);
    frame(line, delivered, targets, base);
    if let Some(Frame::Ack(ack)) = delivered {
        line.bytes(ack.payload);
    }
}

pub fn address(bytes: &[u8]) -> usize {
    bytes.as_ptr() as usize
}
