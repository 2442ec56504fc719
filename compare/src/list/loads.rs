//! Listed cases of op 15: each sentence of request 8, from both sides.

use crate::generate::loads::{argument, seeds, FULL};
use crate::model::loads::{LONGEST, MOST};

pub fn loads() -> Vec<Vec<u8>> {
    let mut all = Vec::new();
    // Each kind of piece first, into buffers that it fits and that it does not.
    for seed in [0, 1, 2, 3, 4] {
        for length in [0, 1, 17, 18, 19, 21, 22, 23, 24, 64] {
            all.push(argument(seed, length, 0xA5));
        }
    }
    // A byte, the acknowledgement, a byte: where the second does not fit, the third is not tried.
    all.extend([1, 18, 19, 20].map(|length| argument(42, length, 0x00)));
    all.extend(seeds().into_iter().map(|seed| argument(seed, 100, 0xFF)));
    all.push(argument(FULL, MOST + 4, 0x5A));
    all.extend([argument(1, LONGEST + 1, 0), argument(0, LONGEST + 1, 0), argument(1, 1 << 24, 0)]);
    let whole = argument(4, 3, 0x11);
    all.extend((0..whole.len()).map(|length| whole[..length].to_vec()));
    all.push([&whole[..], &[1, 2, 3]].concat());
    all
}
