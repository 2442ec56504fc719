//! Damaged copies of good bytes: one byte changed, dropped, inserted or doubled, or the rest cut off.

use super::random::Random;

/// Bytes that take the place of a byte, or come in front of one.
const FOREIGN_BYTES: [u8; 8] = [0x00, 0x01, 0x55, 0xAA, 0xF4, 0xF8, 0xFD, 0xFF];

fn changed(good: &[u8], at: usize, byte: u8) -> Vec<u8> {
    let mut bytes = good.to_vec();
    bytes[at] = byte;
    bytes
}

fn dropped(good: &[u8], at: usize) -> Vec<u8> {
    [&good[..at], &good[at + 1..]].concat()
}

fn inserted(good: &[u8], at: usize, byte: u8) -> Vec<u8> {
    [&good[..at], &[byte], &good[at..]].concat()
}

/// One damage at a random place.
pub fn damaged(good: &[u8], random: &mut Random) -> Vec<u8> {
    if good.is_empty() {
        return vec![random.byte()];
    }
    let at = random.below(good.len());
    match random.below(6) {
        0 => changed(good, at, random.byte()),
        1 => changed(good, at, good[at] ^ (1 << random.below(8))),
        2 => dropped(good, at),
        3 => inserted(good, at, random.byte()),
        4 => inserted(good, at, good[at]),
        _ => good[..at].to_vec(),
    }
}

/// Every damage at every place: bits flipped, foreign bytes put in and in between, a byte dropped or doubled, the rest
/// cut.
pub fn every_damage(good: &[u8], emit: &mut dyn FnMut(&[u8])) {
    for at in 0..good.len() {
        for bit in 0..8 {
            emit(&changed(good, at, good[at] ^ (1 << bit)));
        }
        for foreign in FOREIGN_BYTES {
            emit(&changed(good, at, foreign));
            emit(&inserted(good, at, foreign));
        }
        for neighbour in [good[at].wrapping_add(1), good[at].wrapping_sub(1)] {
            emit(&changed(good, at, neighbour));
        }
        one_of_each(good, at, emit);
    }
    for foreign in FOREIGN_BYTES {
        emit(&inserted(good, good.len(), foreign));
    }
}

/// The damages at every place without the choice of bytes: one of each kind.
pub fn plain_damage(good: &[u8], emit: &mut dyn FnMut(&[u8])) {
    for at in 0..good.len() {
        emit(&changed(good, at, good[at] ^ 1));
        one_of_each(good, at, emit);
    }
    emit(&inserted(good, good.len(), 0));
}

fn one_of_each(good: &[u8], at: usize, emit: &mut dyn FnMut(&[u8])) {
    emit(&dropped(good, at));
    emit(&inserted(good, at, good[at]));
    emit(&good[..at]);
}
