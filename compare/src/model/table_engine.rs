//! The table engine of request 9: what ops 16 and 17 answer.

mod engine;

use super::division::LIMIT;
use super::families::{COMMAND, REPORT};
use super::rules;
use super::streams::call_line;
use crate::case::Case;
use crate::oracle::streams::{built_parser, closing_line};
use crate::script::{calls, Call};
use engine::Engine;

/// The class of "all others".
pub const OTHER: u8 = 16;
/// Where a whole part leads: 16 and 17 for the headers, 18 and 19 for the tails.
pub const WHOLE: u8 = 16;

/// "each byte of the two headers and two tails": the byte at place p of part q has class 4q + p.
pub const PARTS: [[u8; 4]; 4] = [REPORT.header, COMMAND.header, REPORT.tail, COMMAND.tail];

pub type Classes = [u8; 256];
pub type Nexts = [[u8; 17]; 16];

/// "A table of 256 entries gives each byte its class"
const fn classes() -> Classes {
    let mut classes = [OTHER; 256];
    let mut class = 0;
    while class < 16 {
        classes[PARTS[class / 4][class % 4] as usize] = class as u8;
        class += 1;
    }
    classes
}

/// Where the byte that is due in a state leads: the fourth of a part makes it whole.
pub const fn due(state: u8) -> u8 {
    match state % 4 {
        3 => WHOLE + state / 4,
        _ => state + 1,
    }
}

/// "A second table, by state and class, gives the next state": the byte that is due has the state's own number as its
/// class; any other is tried as a first one.
const fn nexts() -> Nexts {
    let mut nexts = [[0; 17]; 16];
    let mut state = 0;
    while state < 16 {
        nexts[state][0] = due(0);
        nexts[state][4] = due(4);
        nexts[state][state] = due(state as u8);
        state += 1;
    }
    nexts
}

#[derive(Clone, Copy)]
pub enum Place {
    /// "while a header or tail is matched": 4 times its part, plus the bytes matched.
    Matching(u8),
    /// A header is whole, and perhaps the first byte of the length is there.
    Length(Option<u8>),
    Data,
}

/// The rules of the table engine, each one replaceable.
pub struct Rules {
    pub classes: Classes,
    pub nexts: Nexts,
    /// The largest length.
    pub limit: usize,
    /// The resyncs and the bytes dropped where so many bytes, begun at a place, are broken.
    pub broken: fn(Place, usize) -> (usize, usize),
    /// Whether the byte that breaks what is begun at a place is tried as a first one.
    pub tried: fn(Place) -> bool,
    /// Where a break at a place leads, by the next state.
    pub after_break: fn(Place, u8) -> Place,
    /// What a call finds of the place that the call before it left.
    pub found: fn(Call<'_>, Place) -> Place,
    /// What a reset leaves of a place.
    pub reset: fn(Place) -> Place,
    /// Whether a slice ends at a whole frame.
    pub stops: bool,
}

/// Request 9's tables, and document 01's rules around them.
pub const RULES: Rules = Rules {
    classes: classes(),
    nexts: nexts(),
    limit: LIMIT,
    broken: |_, begun| (usize::from(begun > 0), begun),
    tried: |_| true,
    after_break: |_, next| Place::Matching(next),
    found: |_, place| place,
    reset: |_| Place::Matching(0),
    stops: true,
};

/// Appends the answer lines of a script of op 16 or 17; none for a parser that cannot be built.
pub fn answer(case: Case<'_>, rules: &rules::Rules, out: &mut Vec<u8>) -> Option<()> {
    let (mut engine, script) = match case.op {
        17 => {
            let (parser, script) = built_parser(case.argument)?;
            (Engine::built(&parser, rules)?, script)
        }
        _ => (Engine::fresh(rules), case.argument),
    };
    for call in calls(script) {
        let (taken, frame) = engine.call(call);
        call_line(case.op, taken, &frame, rules, out);
    }
    closing_line(case.op, engine.counters, engine.begun(), out);
    Some(())
}
