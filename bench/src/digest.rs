//! The digest of bench/link over the original's frames: the same words of the same fields, in the same order.
use ld2410::{Ack, Engineering, Frame, Report, Stats};

pub fn mix(digest: u64, word: u64) -> u64 {
    digest.rotate_left(7) ^ word
}

/// The first eight bytes in one word.
pub fn eight(bytes: &[u8]) -> u64 {
    u64::from_le_bytes(bytes[..8].try_into().unwrap())
}

fn engineering(digest: u64, detection: u64, e: &Engineering) -> u64 {
    let counts = (e.moving_gates as u64) << 16 ^ (e.stationary_gates as u64) << 24 ^ (e.extra_len as u64) << 32;
    let last = (e.moving_energy[8] as u64) << 40 ^ (e.stationary_energy[8] as u64) << 48;
    let d = mix(digest, detection ^ counts ^ last);
    mix(mix(mix(d, eight(&e.moving_energy)), eight(&e.stationary_energy)), eight(&e.extra))
}

pub fn report(digest: u64, r: &Report) -> u64 {
    let moving = (r.moving_distance_cm as u64) << 8 ^ (r.moving_energy as u64) << 24;
    let stationary = (r.stationary_distance_cm as u64) << 32 ^ (r.stationary_energy as u64) << 48;
    let flag = (r.engineering.is_some() as u64) << 56;
    let d = mix(digest, (r.state.to_byte() % 4) as u64 ^ moving ^ stationary ^ flag);
    match &r.engineering {
        Some(e) => engineering(d, r.detection_distance_cm as u64, e),
        // Where ours has no block, its fields are there and all 0.
        None => mix(mix(mix(mix(d, r.detection_distance_cm as u64), 0), 0), 0),
    }
}

/// The payload begins after the word and the status.
fn ack(digest: u64, a: &Ack) -> u64 {
    let d = mix(digest, a.word as u64 ^ (a.status as u64) << 16 ^ (a.ok as u64) << 32);
    mix(d, 4 ^ (a.payload.len() as u64) << 32)
}

pub fn frame(digest: u64, frame: &Frame) -> u64 {
    match frame {
        Frame::Report(r) => report(mix(digest, 1), r),
        Frame::Ack(a) => ack(mix(digest, 2), a),
    }
}

pub fn stats(digest: u64, s: Stats) -> u64 {
    let d = mix(mix(digest, s.frames as u64), s.resyncs as u64);
    mix(mix(d, s.dropped as u64), s.malformed as u64)
}
