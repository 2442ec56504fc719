//! Ops 7 and 8: the report frame writer and the acknowledgement frame writer, from the model.

use crate::case::Fields;
use crate::line::Line;
use crate::model::writers::{put, AckValue, ReportValue, Written};

/// States are 0 to 3 by document 01, and 4 to 6 by request 3.
const LAST_STATE: u8 = 6;

pub fn report_frame(argument: &[u8], out: &mut Vec<u8>) -> Option<()> {
    let mut fields = Fields(argument);
    let mut buffer = buffer(&mut fields)?;
    let value = report_value(&mut fields)?;
    let written = put(value.frame(), &mut buffer);
    write_answer(7, &written, &buffer, out);
    Some(())
}

pub fn ack_frame(argument: &[u8], out: &mut Vec<u8>) -> Option<()> {
    let mut fields = Fields(argument);
    let mut buffer = buffer(&mut fields)?;
    let value = AckValue { word: fields.u16()?, ok: fields.flag()?, status: fields.u16()?, payload: fields.rest() };
    let written = put(value.frame(), &mut buffer);
    write_answer(8, &written, &buffer, out);
    Some(())
}

/// The buffer that an argument describes: its length, and the byte that fills it.
fn buffer(fields: &mut Fields<'_>) -> Option<Vec<u8>> {
    let length = fields.u16()?;
    let fill = fields.u8()?;
    Some(vec![fill; length.into()])
}

fn report_value(fields: &mut Fields<'_>) -> Option<ReportValue> {
    let value = ReportValue {
        state: fields.u8()?,
        moving_distance_cm: fields.u16()?,
        moving_energy: fields.u8()?,
        stationary_distance_cm: fields.u16()?,
        stationary_energy: fields.u8()?,
        detection_distance_cm: fields.u16()?,
        engineering: fields.flag()?,
        moving_gates: fields.u8()?,
        stationary_gates: fields.u8()?,
        moving_energies: fields.array()?,
        stationary_energies: fields.array()?,
        extra: fields.array()?,
        extra_len: fields.u8()?,
    };
    (value.state <= LAST_STATE).then_some(value)
}

fn write_answer(op: u8, written: &Written, buffer: &[u8], out: &mut Vec<u8>) {
    let mut line = Line::new(out, op);
    line.number(written.refusal);
    line.count(written.count);
    line.bytes(buffer);
    line.end();
}
