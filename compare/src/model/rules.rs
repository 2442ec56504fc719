//! The rules of the models, each one replaceable, so that the self-check can put a wrong one in its place.

use ld2410::access::Fields as ParserFields;

use super::division::{next_piece, Piece, LIMIT};
use super::gates::may_be_farthest;
use super::ld2450;
use super::loads;
use super::state::{self, State};
use super::table_engine;
use crate::oracle::streams::in_range;

pub struct Rules {
    /// What a state byte says.
    pub state: fn(u8) -> State,
    /// The piece at the front of the rest of a stretch, and its length.
    pub next_piece: fn(&[u8]) -> (Piece, usize),
    /// A counter after that many more.
    pub add: fn(u64, usize) -> u64,
    /// Whether a parser built by hand is taken as it stands.
    pub in_range: fn(&ParserFields) -> bool,
    /// Whether a moving and a stationary gate may be the farthest.
    pub gates: fn(u8, u8) -> bool,
    /// The LD2450's.
    pub ld2450: ld2450::Rules,
    /// The load's.
    pub loads: loads::Rules,
    /// The table engine's.
    pub tables: table_engine::Rules,
}

/// Document 01's rules, with the counters of request 1, the states of request 3, the module of request 6, the farthest
/// gates of request 7, the load of request 8 and the tables of request 9.
pub const RULES: Rules = Rules {
    state: state::from_byte,
    next_piece: |rest| next_piece(rest, LIMIT),
    add: |counter, by| (u128::from(counter) + by as u128).min(u64::MAX.into()) as u64,
    in_range,
    gates: may_be_farthest,
    ld2450: ld2450::RULES,
    loads: loads::RULES,
    tables: table_engine::RULES,
};
