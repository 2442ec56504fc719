//! The generated cases of every op: whole enumerations and seeded random parts, the same for the same seed and scale.

pub mod acks;
pub mod built_acks;
pub mod calls;
pub mod commands;
pub mod counters;
pub mod damage;
pub mod frames;
pub mod ld2450;
pub mod loads;
pub mod matching;
pub mod parsers;
pub mod random;
pub mod reports;
pub mod sessions;
pub mod stations;
pub mod streams;
pub mod values;
pub mod walks;

use random::Random;

/// Random cases of an op at scale 1.
const MILLION: u64 = 1_000_000;

/// Where the cases of one op go, and what they are drawn from.
pub struct Cases<'a> {
    pub random: Random,
    /// Random parts have one case for this many at full scale.
    scale: u64,
    emit: &'a mut dyn FnMut(&[u8]),
}

impl Cases<'_> {
    pub fn add(&mut self, argument: &[u8]) {
        (self.emit)(argument);
    }

    /// A random part of `count` cases at full scale.
    pub fn draw(&mut self, count: u64, mut argument: impl FnMut(&mut Random) -> Vec<u8>) {
        for _ in 0..count.div_ceil(self.scale) {
            let argument = argument(&mut self.random);
            self.add(&argument);
        }
    }

    pub fn draw_million(&mut self, argument: impl FnMut(&mut Random) -> Vec<u8>) {
        self.draw(MILLION, argument);
    }

    /// Every argument of at most two bytes.
    pub fn up_to_two_bytes(&mut self) {
        self.add(&[]);
        for first in 0..=255 {
            self.add(&[first]);
            for second in 0..=255 {
                self.add(&[first, second]);
            }
        }
    }
}

/// Hands every generated argument of an op to `emit`.
pub fn cases(op: u8, seed: u64, scale: u64, emit: &mut dyn FnMut(&[u8])) {
    let mut cases = Cases { random: Random::new(seed, op), scale, emit };
    match op {
        1 => cases.up_to_two_bytes(),
        2 => reports::report_cases(&mut cases),
        3 => acks::ack_cases(&mut cases),
        4 => acks::reply_cases(&mut cases),
        5 => frames::frame_cases(&mut cases),
        6 => commands::encode_cases(&mut cases),
        7 => values::report_value_cases(&mut cases),
        8 => values::ack_value_cases(&mut cases),
        9 => commands::read_cases(&mut cases),
        10 | 11 | 16 => {
            matching::script_cases(&mut cases);
            streams::script_cases(&mut cases);
        }
        12 => commands::baud_cases(&mut cases),
        13 | 17 => {
            matching::built_parser_cases(&mut cases);
            parsers::built_parser_cases(&mut cases);
        }
        14 => built_acks::built_ack_cases(&mut cases),
        15 => loads::load_cases(&mut cases),
        20 => stations::station_cases(&mut cases),
        30 => ld2450::frames::frame_cases(&mut cases),
        31 => ld2450::values::value_cases(&mut cases),
        32 => ld2450::streams::script_cases(&mut cases),
        _ => {}
    }
}
