//! Op 31: targets to write, readable ones and others, into buffers of every length.

use super::{any_data, ENDS};
use crate::generate::commands::FILLS;
use crate::generate::random::Random;
use crate::generate::Cases;
use crate::model::ld2450::frames::{DATA, FRAME, TARGET};

/// Bytes of a target's value: whether it is there, and four fields of two.
pub const VALUE: usize = 1 + TARGET;

pub type TargetsValue = [u8; 3 * VALUE];

/// Three targets, present or absent, whose fields are these bytes.
pub fn value(present: [bool; 3], fields: [u8; DATA]) -> TargetsValue {
    let mut value = [0; 3 * VALUE];
    for (place, target) in value.chunks_mut(VALUE).enumerate() {
        target[0] = present[place].into();
        target[1..].copy_from_slice(&fields[place * TARGET..][..TARGET]);
    }
    value
}

/// Where a field of three targets stands in their value, of twelve.
pub fn field(place: usize) -> usize {
    place / 4 * VALUE + 1 + place % 4 * 2
}

/// A value with one of its twelve fields another.
pub fn with_field(mut value: TargetsValue, place: usize, bits: u16) -> TargetsValue {
    value[field(place)..][..2].copy_from_slice(&bits.to_le_bytes());
    value
}

/// An argument of op 31.
pub fn argument(length: u16, fill: u8, value: &TargetsValue) -> Vec<u8> {
    [&length.to_le_bytes()[..], &[fill], value].concat()
}

/// Every way to have three targets there or not.
pub fn presences() -> [[bool; 3]; 8] {
    std::array::from_fn(|bits| [0, 1, 2].map(|place| bits & (1 << place) != 0))
}

/// Values that are written, and values that get 6 for a number, or for a field of an absent target.
pub fn values() -> Vec<TargetsValue> {
    let fields = std::array::from_fn(|place| 0x10 + place as u8);
    let (none, all) = (value([false; 3], [0; DATA]), value([true; 3], [0; DATA]));
    let mut values = vec![none, all, value([true; 3], fields), value([true, false, true], [0; DATA])];
    values.extend([with_field(all, 0, 0x8000), with_field(all, 10, 0x8000), with_field(none, 3, 1)]);
    values.extend([with_field(none, 8, 0xFFFF), value([false, true, true], fields), with_field(all, 11, 0x8000)]);
    values
}

pub fn value_cases(cases: &mut Cases<'_>) {
    every_cut(cases);
    every_buffer_length(cases);
    every_flag(cases);
    every_field_of_an_absent_target(cases);
    every_two_fields(cases);
    every_number(cases);
    cases.draw_million(any_value);
}

/// Arguments cut short at every byte, and with more after them.
fn every_cut(cases: &mut Cases<'_>) {
    for value in values() {
        let whole = [&argument(30, 0xA5, &value)[..], &[0x5A; 9]].concat();
        for length in 0..=whole.len() {
            cases.add(&whole[..length]);
        }
    }
}

fn every_buffer_length(cases: &mut Cases<'_>) {
    for value in values() {
        for length in (0..=40).chain([255, 256, 286, 300, 65_535]) {
            for fill in FILLS {
                cases.add(&argument(length, fill, &value));
            }
        }
    }
}

/// Every byte for whether a target is there: a number above 1 counts as 1.
fn every_flag(cases: &mut Cases<'_>) {
    for value in values() {
        for place in [0, VALUE, 2 * VALUE] {
            for flag in 0..=255 {
                let mut changed = value;
                changed[place] = flag;
                cases.add(&argument(30, 0, &changed));
            }
        }
    }
}

/// Every field at its ends and around them, the others 0, and targets there and not, in each way, into a buffer that is
/// long enough and one that is not.
fn every_field_of_an_absent_target(cases: &mut Cases<'_>) {
    for present in presences() {
        for place in 0..12 {
            for bits in ENDS {
                let changed = with_field(value(present, [0; DATA]), place, bits);
                for length in [30, 29, 0] {
                    cases.add(&argument(length, 0x5A, &changed));
                }
            }
        }
    }
    for place in 0..4 {
        for bits in 0..=u16::MAX {
            cases.add(&argument(30, 0xA5, &with_field(value([true, false, true], [0; DATA]), 4 + place, bits)));
        }
    }
}

/// Every two fields at their ends, in targets that are all there: a wrong number is found wherever another one is.
fn every_two_fields(cases: &mut Cases<'_>) {
    for first in 0..12 {
        for second in 0..first {
            for a in ENDS {
                for b in ENDS {
                    let all = value([true; 3], [0x11; DATA]);
                    cases.add(&argument(31, 0xFF, &with_field(with_field(all, first, a), second, b)));
                }
            }
        }
    }
}

/// Every number in each field of each target, all of them there, the other fields 0, or any.
fn every_number(cases: &mut Cases<'_>) {
    for place in 0..12 {
        for bits in 0..=u16::MAX {
            let fields = if bits % 2 == 0 { [0; DATA] } else { readable_fields(&mut cases.random) };
            cases.add(&argument(32, 0xA5, &with_field(value([true; 3], fields), place, bits)));
        }
    }
}

/// Fields without -32,768, the resolution any.
fn readable_fields(random: &mut Random) -> [u8; DATA] {
    let mut fields = any_data(random);
    for field in fields.chunks_mut(2).filter(|field| *field == [0x00, 0x80]) {
        field.fill(0);
    }
    fields
}

fn any_value(random: &mut Random) -> Vec<u8> {
    let present = [0; 3].map(|_| !random.once_in(4));
    let mut fields = readable_fields(random);
    for place in (0..3).filter(|&place| !present[place]) {
        fields[place * TARGET..][..TARGET].fill(0);
    }
    let mut value = value(present, fields);
    if random.once_in(4) {
        let bits = random.pick(&[0x8000, 0x8000, 0x7FFF, 0x8001, 0x0001, 0x0000]);
        value = with_field(value, random.below(12), bits);
    }
    let needed = FRAME as u16;
    let length = match random.below(8) {
        0 => needed - 1,
        1 => random.below(70) as u16,
        2 => needed + 1,
        3 => needed + 9,
        _ => needed,
    };
    argument(length, random.byte(), &value)
}
