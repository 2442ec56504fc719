//! Mistakes in what the reader takes for a frame: bytes that are none, and frames that it does not know.

use super::{by, READ};
use crate::model::ld2450::division::SOME_FRAME;
use crate::model::ld2450::frames::{absent, data, DATA, DATA_END, FRAME, HEADER, TAIL, TARGET};
use crate::model::ld2450::{Rules, RULES};
use crate::mutants::Mutant;

pub fn mutants() -> Vec<Mutant> {
    let framed = |(mistake, data)| by(READ, mistake, Rules { data, ..RULES });
    PLACES.into_iter().chain(LENGTHS).chain(REFUSED).map(framed).collect()
}

type Data = fn(&[u8]) -> Option<[u8; DATA]>;

const PLACES: [(&str, Data); 14] = [
    ("any byte does for the header's first", lenient::<0, 0x00, 0xFF>),
    ("any byte does for the header's second", lenient::<1, 0x00, 0xFF>),
    ("any byte does for the header's third", lenient::<2, 0x00, 0xFF>),
    ("any byte does for the header's fourth", lenient::<3, 0x00, 0xFF>),
    ("any byte does for the tail's first", lenient::<28, 0x00, 0xFF>),
    ("any byte does for the tail's second", lenient::<29, 0x00, 0xFF>),
    ("AA does for the header's second byte", lenient::<1, 0xAA, 0xAA>),
    ("AA does for the header's third byte", lenient::<2, 0xAA, 0xAA>),
    ("AA does for the header's fourth byte", lenient::<3, 0xAA, 0xAA>),
    ("00 does for the tail's first byte", lenient::<28, 0x00, 0x00>),
    ("00 does for the tail's second byte", lenient::<29, 0x00, 0x00>),
    ("the header is not looked at", |bytes| data(&[&HEADER, bytes.get(HEADER.len()..)?].concat())),
    ("the tail is not looked at", |bytes| {
        data(&[bytes.get(..DATA_END)?, &TAIL].concat()).filter(|_| bytes.len() == FRAME)
    }),
    ("neither header nor tail is looked at", |bytes| {
        bytes.get(HEADER.len()..DATA_END)?.try_into().ok().filter(|_| bytes.len() == FRAME)
    }),
];

/// The data of a frame in which a byte of the range stands for that of the framing at a place.
pub fn lenient<const PLACE: usize, const LOW: u8, const HIGH: u8>(bytes: &[u8]) -> Option<[u8; DATA]> {
    let mut bytes = bytes.to_vec();
    if let Some(byte) = bytes.get_mut(PLACE).filter(|byte| (LOW..=HIGH).contains(*byte)) {
        *byte = SOME_FRAME[PLACE];
    }
    data(&bytes)
}

const LENGTHS: [(&str, Data); 10] = [
    ("29 bytes do, the tail's last missing", |bytes| data(bytes).or_else(|| data(&[bytes, &TAIL[1..]].concat()))),
    ("28 bytes do, the tail missing", |bytes| data(bytes).or_else(|| data(&[bytes, &TAIL].concat()))),
    ("29 bytes do, a data byte missing", resized::<23>),
    ("31 bytes do, with a data byte more", resized::<25>),
    ("two targets do", resized::<16>),
    ("31 bytes do, the last not looked at", |bytes| {
        data(bytes).or_else(|| data(bytes.get(..FRAME).filter(|_| bytes.len() == FRAME + 1)?))
    }),
    ("bytes after the frame are not looked at", |bytes| data(bytes.get(..FRAME)?)),
    ("bytes before the frame are not looked at", |bytes| data(bytes.get(bytes.len().checked_sub(FRAME)?..)?)),
    ("a frame is looked for in the bytes", |bytes| bytes.windows(FRAME).find_map(data)),
    ("no bytes are three absent targets", |bytes| if bytes.is_empty() { Some([0; DATA]) } else { data(bytes) }),
];

/// The data of a frame, or of one with so many data bytes: cut, or zeros after them.
fn resized<const LENGTH: usize>(bytes: &[u8]) -> Option<[u8; DATA]> {
    let other = |bytes: &[u8]| {
        let inner = bytes.strip_prefix(&HEADER)?.strip_suffix(&TAIL)?;
        let mut data = inner.to_vec();
        data.resize(DATA, 0);
        data.try_into().ok().filter(|_| inner.len() == LENGTH)
    };
    data(bytes).or_else(|| other(bytes))
}

const REFUSED: [(&str, Data); 14] = [
    ("1 is given to everything", |_| None),
    ("1 is given to three absent targets", |bytes| data(bytes).filter(|data| *data != [0; DATA])),
    ("1 is given to an absent target", |bytes| {
        filtered(bytes, |targets| !targets.iter().any(|target| absent(*target)))
    }),
    ("1 is given to an absent first target", |bytes| filtered(bytes, |targets| !absent(targets[0]))),
    ("1 is given to a target after an absent one", |bytes| {
        filtered(bytes, |targets| targets.is_sorted_by_key(|target| absent(*target)))
    }),
    ("1 is given to 00 00 in x of a target that is there", written::<0>),
    ("1 is given to 00 00 in y of a target that is there", written::<1>),
    ("1 is given to 00 00 in the speed of a target that is there", written::<2>),
    ("1 is given to a resolution of 0 in a target that is there", written::<3>),
    ("1 is given to a header in the data", |bytes| without(bytes, &HEADER)),
    ("1 is given to AA in the data", |bytes| without(bytes, &HEADER[..1])),
    ("1 is given to a tail in the data", |bytes| without(bytes, &TAIL)),
    ("1 is given to 55 in the data", |bytes| without(bytes, &TAIL[..1])),
    ("1 is given to FF in the data", |bytes| without(bytes, &[0xFF])),
];

/// The data of a frame whose targets are as told.
fn filtered(bytes: &[u8], allowed: impl Fn(&[[u8; TARGET]]) -> bool) -> Option<[u8; DATA]> {
    data(bytes).filter(|data| allowed(data.as_chunks().0))
}

/// The data of a frame in which a field is 00 00 in absent targets alone.
fn written<const FIELD: usize>(bytes: &[u8]) -> Option<[u8; DATA]> {
    let of_field = |target: &[u8; TARGET]| absent(*target) || target[2 * FIELD..][..2] != [0, 0];
    filtered(bytes, |targets| targets.iter().all(of_field))
}

/// The data of a frame that do not hold these bytes.
fn without(bytes: &[u8], string: &[u8]) -> Option<[u8; DATA]> {
    data(bytes).filter(|data| !data.windows(string.len()).any(|window| window == string))
}
