//! The programs that answer cases: the ops of each, and what else is asked of it.

use crate::case::Case;

pub struct Program {
    /// Its name, which is that of its directory in crates; `rt run` leaves it in out/ there.
    pub name: &'static str,
    /// The option that gives its path.
    pub option: &'static str,
    pub ops: &'static [u8],
    /// Ops outside its table; the first one ends its fixed list.
    pub no_ops: &'static [u8],
    /// A case that it answers with a line.
    pub sample: Case<'static>,
    /// A case that is cut short.
    pub cut: &'static [u8],
}

/// Ops 18 to 22 that are in no table yet belong to later requests.
pub const PROGRAMS: [Program; 3] = [
    Program {
        name: "replay",
        option: "--ours",
        ops: &[1, 2, 3, 4, 5, 6, 7, 8, 9, 10, 11, 12, 13, 14, 15, 16, 17],
        no_ops: &[0, 18, 19, 20, 30, 255],
        sample: Case { op: 3, argument: &[0xFF, 0x01, 0x00, 0x00] },
        cut: &[1, 2, 0, 0, 0, 3],
    },
    Program {
        name: "replay_station",
        option: "--station",
        ops: &[20],
        no_ops: &[1, 0, 6, 10, 14, 19, 22, 30, 255],
        sample: Case { op: 20, argument: &[2] },
        cut: &[20, 2, 0, 0, 0, 2],
    },
    Program {
        name: "replay_ld2450",
        option: "--ld2450",
        ops: &[30, 31, 32],
        no_ops: &[1, 0, 5, 10, 20, 22, 29, 33, 255],
        sample: Case { op: 30, argument: &[0xAA, 0xFF, 0x03, 0x00] },
        cut: &[30, 2, 0, 0, 0, 0xAA],
    },
];

/// Every op that has an answer.
pub fn ops() -> Vec<u8> {
    PROGRAMS.iter().flat_map(|program| program.ops).copied().collect()
}
