//! Ops 1 to 5 and 14: the readers of the original and the replies of an acknowledgement.

use ld2410::{Ack, Frame, Report};

use super::states::States;
use super::values::{self, address, refusal_of};
use crate::case::Fields;
use crate::line::Line;

/// Where the state byte stands in report data, and in a frame.
pub const STATE_IN_DATA: usize = 2;
pub const STATE_IN_FRAME: usize = 6 + STATE_IN_DATA;

pub fn target_state(argument: &[u8], states: States, out: &mut Vec<u8>) -> Option<()> {
    let state = states.state(Fields(argument).u8()?);
    let mut line = Line::new(out, 1);
    line.number(state.number);
    line.number(state.moving);
    line.number(state.stationary);
    line.number(state.present);
    line.end();
    Some(())
}

pub fn report(data: &[u8], states: States, out: &mut Vec<u8>) -> Option<()> {
    let parsed = Report::parse(data);
    let mut line = Line::new(out, 2);
    line.number(refusal_of(&parsed));
    values::report(&mut line, parsed.as_ref().ok(), |report| states.targets(data[STATE_IN_DATA], report));
    line.end();
    Some(())
}

pub fn ack(data: &[u8], out: &mut Vec<u8>) -> Option<()> {
    let parsed = Ack::parse(data);
    let mut line = Line::new(out, 3);
    line.number(refusal_of(&parsed));
    values::ack(&mut line, parsed.as_ref().ok(), address(data));
    line.end();
    Some(())
}

pub fn frame(bytes: &[u8], states: States, out: &mut Vec<u8>) -> Option<()> {
    let parsed = Frame::parse(bytes);
    let mut line = Line::new(out, 5);
    line.number(refusal_of(&parsed));
    let targets = |report: &Report| states.targets(bytes[STATE_IN_FRAME], report);
    values::frame(&mut line, parsed.as_ref().ok(), targets, address(bytes));
    line.end();
    Some(())
}

pub fn replies(argument: &[u8], out: &mut Vec<u8>) -> Option<()> {
    let mut fields = Fields(argument);
    let awaited = fields.u16()?;
    let data = fields.rest();
    let parsed = Ack::parse(data);
    let mut line = Line::new(out, 4);
    line.number(refusal_of(&parsed));
    if let Ok(ack) = parsed {
        let start = address(ack.payload) - address(data);
        write_replies(&mut line, &ack, awaited, (start, ack.payload.len()));
    }
    line.end();
    Some(())
}

pub fn replies_of_built(argument: &[u8], out: &mut Vec<u8>) -> Option<()> {
    let mut fields = Fields(argument);
    let word = fields.u16()?;
    let ok = fields.flag()?;
    let status = fields.u16()?;
    let span = (fields.usize()?, fields.usize()?);
    let awaited = fields.u16()?;
    let ack = Ack { word, ok, status, payload: payload_in(fields.rest(), span) };
    let mut line = Line::new(out, 14);
    write_replies(&mut line, &ack, awaited, span);
    line.end();
    Some(())
}

/// The bytes of a span; a span that is not inside them counts as empty.
fn payload_in(bytes: &[u8], (start, length): (usize, usize)) -> &[u8] {
    let from_start = bytes.get(start..).unwrap_or(&[]);
    from_start.get(..length).unwrap_or(&[])
}

/// `expect` of the awaited word, which gives the span as it stands, then the four replies.
fn write_replies(line: &mut Line<'_>, ack: &Ack<'_>, awaited: u16, span: (usize, usize)) {
    let expected = ack.expect(awaited);
    line.number(refusal_of(&expected));
    let (start, length) = expected.map_or((0, 0), |_| span);
    line.count(start);
    line.count(length);
    write_enable_config(line, ack);
    write_firmware_version(line, ack);
    write_mac(line, ack);
    write_parameters(line, ack);
}

fn write_enable_config(line: &mut Line<'_>, ack: &Ack<'_>) {
    let reply = ack.enable_config();
    line.number(refusal_of(&reply));
    match reply {
        Ok(config) => {
            line.number(config.protocol_version);
            line.number(config.buffer_size);
        }
        Err(_) => line.zeros(2),
    }
}

fn write_firmware_version(line: &mut Line<'_>, ack: &Ack<'_>) {
    let reply = ack.firmware_version();
    line.number(refusal_of(&reply));
    match reply {
        Ok(version) => {
            line.number(version.firmware_type);
            line.number(version.major);
            line.number(version.minor);
        }
        Err(_) => line.zeros(3),
    }
}

fn write_mac(line: &mut Line<'_>, ack: &Ack<'_>) {
    let reply = ack.mac();
    line.number(refusal_of(&reply));
    line.bytes(&reply.map_or([0; 6], |mac| mac.0));
}

/// A refused answer has every field 0, so its accessor `gates` says 1.
fn write_parameters(line: &mut Line<'_>, ack: &Ack<'_>) {
    let reply = ack.parameters();
    line.number(refusal_of(&reply));
    match reply {
        Ok(parameters) => {
            line.number(parameters.max_gate);
            line.number(parameters.max_moving_gate);
            line.number(parameters.max_stationary_gate);
            line.bytes(&parameters.moving_sensitivity);
            line.bytes(&parameters.stationary_sensitivity);
            line.number(parameters.no_one_secs);
            line.count(parameters.gates());
        }
        Err(_) => {
            line.zeros(3 + 9 + 9 + 1);
            line.number(1u8);
        }
    }
}
