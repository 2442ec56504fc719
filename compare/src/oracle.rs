//! The original Rust's answer of every op, its counters as it has them; for the three added calls (7, 8, 9) the answer
//! of the model of document 01, and for a station script (20) that of the session of request 2.

pub mod commands;
pub mod gates;
pub mod readers;
pub mod sessions;
pub mod states;
pub mod streams;
pub mod values;
mod writers;

use crate::case::Case;
use crate::line;
use gates::Gates;
use states::States;

/// Appends the answer lines of a case.
pub fn answer(case: Case<'_>, out: &mut Vec<u8>) {
    answer_by(case, States::Original, Gates::Original, out);
}

/// Appends the answer lines of a case; ops 1, 2 and 5 read state bytes as `states` says, scripts as the original does;
/// ops 6, 9 and 20 take the farthest gates that `gates` takes.
pub fn answer_by(case: Case<'_>, states: States, gates: Gates, out: &mut Vec<u8>) {
    let Case { op, argument } = case;
    let before = out.len();
    let answered = match op {
        1 => readers::target_state(argument, states, out),
        2 => readers::report(argument, states, out),
        3 => readers::ack(argument, out),
        4 => readers::replies(argument, out),
        5 => readers::frame(argument, states, out),
        6 => commands::encode(argument, gates, out),
        7 => writers::report_frame(argument, out),
        8 => writers::ack_frame(argument, out),
        9 => commands::read(argument, gates, out),
        10 | 11 | 13 | 16 | 17 => streams::script(op, argument, out),
        12 => commands::baud(argument, out),
        14 => readers::replies_of_built(argument, out),
        20 => sessions::station(argument, gates, out),
        _ => None,
    };
    if answered.is_none() {
        out.truncate(before);
        line::none(out, op);
    }
}
