//! Mistakes in reading a target from its eight bytes: the sign, what is absent, which bytes are which field's.

use super::by;
use crate::model::ld2450::frames::{absent, data, signed, DATA, TARGET};
use crate::model::ld2450::{Rules, RULES};
use crate::mutants::Mutant;

pub fn mutants(op: u8) -> Vec<Mutant> {
    let mut all = Vec::new();
    all.extend(SIGNED.map(|(mistake, signed)| by(op, mistake, Rules { signed, ..RULES })));
    all.extend(ABSENT.map(|(mistake, absent)| by(op, mistake, Rules { absent, ..RULES })));
    all.extend(FIELDS.map(|(mistake, data)| by(op, mistake, Rules { data, ..RULES })));
    all.extend(TARGETS.map(|(mistake, data)| by(op, mistake, Rules { data, ..RULES })));
    all
}

type Signed = fn(u16) -> i16;

const SIGNED: [(&str, Signed); 12] = [
    ("a signed field is two's complement", |bits| bits as i16),
    ("the sign is turned", |bits| -signed(bits)),
    ("the sign is left out", |bits| signed(bits | 0x8000)),
    ("every number is negative", |bits| signed(bits & 0x7FFF)),
    ("a field counts from 8000 up", |bits| (bits ^ 0x8000) as i16),
    ("a negative field is one's complement", |bits| if bits < 0x8000 { !bits as i16 } else { signed(bits) }),
    ("00 00 is -32,768", |bits| if bits == 0 { i16::MIN } else { signed(bits) }),
    ("00 80 is -32,768", |bits| if bits == 0x8000 { i16::MIN } else { signed(bits) }),
    ("14 bits of a field are read", |bits| signed(bits & 0xBFFF)),
    ("seven bits of a field's low byte are read", |bits| signed(bits & 0xFF7F)),
    ("FF 7F is -32,766", |bits| signed(bits).max(-32_766)),
    ("FF FF is 32,766", |bits| signed(bits).min(32_766)),
];

type Absent = fn([u8; TARGET]) -> bool;

const ABSENT: [(&str, Absent); 21] = [
    ("absent: byte 1 is not looked at", zero_but::<0>),
    ("absent: byte 2 is not looked at", zero_but::<1>),
    ("absent: byte 3 is not looked at", zero_but::<2>),
    ("absent: byte 4 is not looked at", zero_but::<3>),
    ("absent: byte 5 is not looked at", zero_but::<4>),
    ("absent: byte 6 is not looked at", zero_but::<5>),
    ("absent: byte 7 is not looked at", zero_but::<6>),
    ("absent: byte 8 is not looked at", zero_but::<7>),
    ("absent: x alone is looked at", zero_at::<0>),
    ("absent: y alone is looked at", zero_at::<1>),
    ("absent: the speed alone is looked at", zero_at::<2>),
    ("absent: the resolution alone is looked at", zero_at::<3>),
    ("absent: the resolution is not looked at", |bytes| bytes.starts_with(&[0; 6])),
    ("absent: the speed and the resolution are not looked at", |bytes| bytes.starts_with(&[0; 4])),
    ("absent: 00 80 is zero in x", unsigned_zero::<0>),
    ("absent: 00 80 is zero in y", unsigned_zero::<1>),
    ("absent: 00 80 is zero in the speed", unsigned_zero::<2>),
    ("absent: 00 80 is zero in the resolution", unsigned_zero::<3>),
    ("absent: every field that is 0 will do", |bytes| {
        bytes.chunks(2).all(|field| field[0] == 0 && field[1] % 128 == 0)
    }),
    ("no target is absent", |_| false),
    ("eight bytes FF are absent", |bytes| absent(bytes) || bytes == [0xFF; TARGET]),
];

/// Whether all bytes but one are zero.
fn zero_but<const PLACE: usize>(mut bytes: [u8; TARGET]) -> bool {
    bytes[PLACE] = 0;
    absent(bytes)
}

/// Whether the two bytes of a field are zero.
fn zero_at<const FIELD: usize>(bytes: [u8; TARGET]) -> bool {
    bytes[2 * FIELD..][..2] == [0, 0]
}

/// Whether all bytes are zero, the top bit of a field left out.
fn unsigned_zero<const FIELD: usize>(mut bytes: [u8; TARGET]) -> bool {
    bytes[2 * FIELD + 1] &= 0x7F;
    absent(bytes)
}

type Data = fn(&[u8]) -> Option<[u8; DATA]>;

const FIELDS: [(&str, Data); 19] = [
    ("x and y are swapped", swapped::<0, 1>),
    ("x and the speed are swapped", swapped::<0, 2>),
    ("x and the resolution are swapped", swapped::<0, 3>),
    ("y and the speed are swapped", swapped::<1, 2>),
    ("y and the resolution are swapped", swapped::<1, 3>),
    ("the speed and the resolution are swapped", swapped::<2, 3>),
    ("x is big-endian", big_endian::<0>),
    ("y is big-endian", big_endian::<1>),
    ("the speed is big-endian", big_endian::<2>),
    ("the resolution is big-endian", big_endian::<3>),
    ("every field is big-endian", |bytes| changed(bytes, |target| target.chunks_mut(2).for_each(<[u8]>::reverse))),
    ("byte 1 of a target is not read", unread::<0>),
    ("byte 2 of a target is not read", unread::<1>),
    ("byte 3 of a target is not read", unread::<2>),
    ("byte 4 of a target is not read", unread::<3>),
    ("byte 5 of a target is not read", unread::<4>),
    ("byte 6 of a target is not read", unread::<5>),
    ("byte 7 of a target is not read", unread::<6>),
    ("byte 8 of a target is not read", unread::<7>),
];

/// The data of a frame, each target changed.
fn changed(bytes: &[u8], change: impl FnMut(&mut [u8])) -> Option<[u8; DATA]> {
    let mut data = data(bytes)?;
    data.chunks_mut(TARGET).for_each(change);
    Some(data)
}

fn swapped<const A: usize, const B: usize>(bytes: &[u8]) -> Option<[u8; DATA]> {
    changed(bytes, |target| [0, 1].into_iter().for_each(|byte| target.swap(2 * A + byte, 2 * B + byte)))
}

fn big_endian<const FIELD: usize>(bytes: &[u8]) -> Option<[u8; DATA]> {
    changed(bytes, |target| target.swap(2 * FIELD, 2 * FIELD + 1))
}

fn unread<const PLACE: usize>(bytes: &[u8]) -> Option<[u8; DATA]> {
    changed(bytes, |target| target[PLACE] = 0)
}

const TARGETS: [(&str, Data); 14] = [
    ("the first target stands for the second too", repeated::<0, 1>),
    ("the first target stands for the third too", repeated::<0, 2>),
    ("the second target stands for the first too", repeated::<1, 0>),
    ("the second target stands for the third too", repeated::<1, 2>),
    ("the third target stands for the first too", repeated::<2, 0>),
    ("the third target stands for the second too", repeated::<2, 1>),
    ("the first and the second target are swapped", exchanged::<0, 1>),
    ("the first and the third target are swapped", exchanged::<0, 2>),
    ("the second and the third target are swapped", exchanged::<1, 2>),
    ("the first target is dropped", |bytes| targets(bytes, |targets| targets[0].fill(0))),
    ("the second target is dropped", |bytes| targets(bytes, |targets| targets[1].fill(0))),
    ("the third target is dropped", |bytes| targets(bytes, |targets| targets[2].fill(0))),
    ("targets move up where one is absent", |bytes| {
        targets(bytes, |targets| targets.sort_by_key(|&target| absent(target)))
    }),
    ("there is none after an absent target", |bytes| {
        targets(bytes, |targets| {
            targets.iter_mut().skip_while(|target| !absent(**target)).for_each(|target| target.fill(0))
        })
    }),
];

/// The data of a frame, its targets changed.
fn targets(bytes: &[u8], change: impl FnOnce(&mut [[u8; TARGET]; 3])) -> Option<[u8; DATA]> {
    let data = data(bytes)?;
    let mut targets = std::array::from_fn(|place| std::array::from_fn(|byte| data[place * TARGET + byte]));
    change(&mut targets);
    targets.concat().try_into().ok()
}

fn repeated<const FROM: usize, const TO: usize>(bytes: &[u8]) -> Option<[u8; DATA]> {
    targets(bytes, |targets| targets[TO] = targets[FROM])
}

fn exchanged<const A: usize, const B: usize>(bytes: &[u8]) -> Option<[u8; DATA]> {
    targets(bytes, |targets| targets.swap(A, B))
}
