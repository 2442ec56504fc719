//! Listed cases of ops 30 to 32: each sentence of request 6, from both sides.

use crate::generate::calls::by_bytes;
use crate::generate::damage::{damaged, plain_damage};
use crate::generate::ld2450::frames::good_frames;
use crate::generate::ld2450::parts::any_script;
use crate::generate::ld2450::streams::{base_streams, by_slices};
use crate::generate::ld2450::values::{argument, presences, value, values as some_values, with_field, VALUE};
use crate::generate::ld2450::{any_frame, frame, holding, plain, printed, ENDS};
use crate::generate::random::Random;
use crate::generate::streams::long_slice;
use crate::model::ld2450::frames::{DATA, DATA_END, FRAME, HEADER, TAIL, TARGET};
use crate::published;
use crate::script::{script, Call};

pub fn frames(random: &mut Random) -> Vec<Vec<u8>> {
    let mut all = vec![vec![], HEADER.to_vec(), [&HEADER[..], &TAIL].concat(), published::bytes(published::B)];
    all.extend(good_frames());
    for bits in ENDS {
        for field in (0..DATA).step_by(6) {
            let mut data = [0; DATA];
            data[field..field + 2].copy_from_slice(&bits.to_le_bytes());
            all.push(frame(data));
        }
        all.push(frame([bits.to_le_bytes(); DATA / 2].concat().try_into().expect("twelve fields")));
    }
    for place in 0..DATA {
        let mut data = [0; DATA];
        data[place] = 0x01;
        all.push(frame(data));
    }
    plain_damage(&plain(), &mut |damaged| all.push(damaged.to_vec()));
    for place in (0..HEADER.len()).chain(DATA_END..FRAME) {
        for byte in [0x00, 0xAA, 0xFF, 0x55] {
            let mut bytes = plain();
            bytes[place] = byte;
            all.push(bytes);
        }
    }
    for length in [16, 23, 25, 26, 54] {
        all.push([&HEADER[..], &vec![0x55; length], &TAIL].concat());
    }
    all.extend([[&[0x00], &plain()[..]].concat(), [plain(), printed()].concat()]);
    for _ in 0..12 {
        let frame = any_frame(random);
        all.extend([damaged(&frame, random), frame]);
    }
    all
}

pub fn values(random: &mut Random) -> Vec<Vec<u8>> {
    let mut all = Vec::new();
    for value in some_values() {
        for length in [0, 1, 29, 30, 31, 40] {
            all.push(argument(length, 0xA5, &value));
        }
    }
    for place in 0..12 {
        for bits in [0x0001, 0x7FFF, 0x8000, 0x8001, 0xFFFF] {
            all.push(argument(30, 0x5A, &with_field(value([true; 3], [0; DATA]), place, bits)));
        }
        for bits in [0x0001, 0x8000] {
            all.push(argument(30, 0x5A, &with_field(value([false; 3], [0; DATA]), place, bits)));
        }
    }
    for present in presences() {
        all.push(argument(30, 0xFF, &value(present, [0; DATA])));
        all.push(argument(33, 0xFF, &value(present, [0x21; DATA])));
    }
    for flag in [2, 128, 255] {
        let mut changed = value([false; 3], [0; DATA]);
        for target in [1, 0, 2] {
            changed[target * VALUE] = flag;
            all.push(argument(30, 0, &changed));
        }
    }
    let whole = argument(30, 0, &value([true; 3], random.array()));
    all.extend([0, 1, 2, 3, 4, 29].map(|length| whole[..length].to_vec()));
    all.push([&whole[..], &[1, 2, 3]].concat());
    all
}

pub fn scripts(random: &mut Random) -> Vec<Vec<u8>> {
    let mut all = vec![vec![], by_bytes(&printed())];
    all.extend(broken());
    all.extend(begun_and_runs());
    all.extend(cut());
    all.extend(reset());
    all.extend(good_frames().map(|frame| script(&[Call::Slice(&frame), Call::Slice(&[]), Call::Slice(&frame)])));
    all.extend(bytes_alone());
    all.push(by_slices(&printed().repeat(257), || FRAME));
    all.push(script(&[Call::Slice(&long_slice(&printed()))]));
    let calls = [Call::Slice(&printed()[..9]), Call::Feed(0x00), Call::Reset, Call::Feed(0xAA), Call::Slice(&plain())];
    let whole = script(&calls);
    all.extend([1, 2, 20, 32, 33, 34, 35].map(|missing| whole[..whole.len() - missing].to_vec()));
    all.extend([3, 255].map(|number| [&whole[..], &[number, 2, 2]].concat()));
    all.extend((0..24).map(|_| any_script(random)));
    all
}

/// Frames with one byte that is not zero in a target, at every place of it; the targets around it are absent.
fn bytes_alone() -> Vec<Vec<u8>> {
    let mut all = Vec::new();
    for place in 0..TARGET {
        for byte in [0x01, 0x80] {
            let mut data = [0; DATA];
            data[TARGET + place] = byte;
            all.push(script(&[Call::Slice(&frame(data))]));
        }
    }
    all
}

/// A frame broken at every place of header and tail, by a stray byte and by a start, and then a frame; frames with the
/// framing in their data, whole and broken at the tail.
fn broken() -> Vec<Vec<u8>> {
    let mut all = Vec::new();
    let good = plain();
    for place in (0..HEADER.len()).chain(DATA_END..FRAME) {
        for byte in [0x00, 0xAA, 0xFF, 0x55] {
            all.push(by_slices(&[&good[..place], &[byte], &good[1..], &printed()].concat(), || 100));
        }
    }
    for string in [&HEADER[..], &TAIL, &[0xAA, 0xAA]] {
        for place in [4, 11, 20, 24, 26] {
            let held = holding(string, place);
            all.push(script(&[Call::Slice(&held)]));
            all.push(by_slices(&[&held[..DATA_END], &[0x55, 0x00], &held].concat(), || 100));
        }
    }
    all
}

/// Begun frames before a frame, and runs of AA.
fn begun_and_runs() -> Vec<Vec<u8>> {
    let good = plain();
    let begun = |length: usize| by_slices(&[&good[..length], &printed(), &good].concat(), || 100);
    let mut all: Vec<_> = [1, 2, 3, 4, 5, 11, 23, 26, 27, 28, 29].map(begun).to_vec();
    for length in [1, 2, 3, 4, 5, 29, 30, 31, 300] {
        let run = vec![0xAA; length];
        all.push(script(&[Call::Slice(&run)]));
        all.push(script(&[Call::Slice(&run), Call::Slice(&good[1..]), Call::Slice(&good)]));
        all.push(script(&[Call::Slice(&run), Call::Feed(0xFF), Call::Slice(&[0x55; 300])]));
    }
    for string in ["AA FF AA", "AA FF 03 AA", "AA FF 03 03 00", "AA FF FF", "FF FF 55", "AA AA FF 03 00"] {
        all.push(by_bytes(&published::bytes(string)));
    }
    all
}

/// Streams cut into slices of some lengths, empty ones between, and what a call leaves lost.
fn cut() -> Vec<Vec<u8>> {
    let mut all = Vec::new();
    for stream in base_streams() {
        for length in [17, 29, 31, 200] {
            all.push(by_slices(&stream, || length));
        }
        let mut empty_between = [0, 26].into_iter().cycle();
        all.push(by_slices(&stream, || empty_between.next().unwrap_or(0)));
        all.push(script(&stream.chunks(40).map(Call::Slice).collect::<Vec<_>>()));
    }
    all
}

/// A reset within a frame, and the frame's rest after it; a reset between two frames, and at the end.
fn reset() -> Vec<Vec<u8>> {
    let good = plain();
    let at = |place: usize| {
        let calls = [Call::Slice(&good[..place]), Call::Reset, Call::Slice(&good[place..]), Call::Slice(&good)];
        script(&calls)
    };
    let mut all: Vec<_> = [0, 1, 2, 3, 4, 5, 15, 27, 28, 29, 30].into_iter().map(at).collect();
    all.push(script(&[
        Call::Slice(&good),
        Call::Reset,
        Call::Reset,
        Call::Slice(&good),
        Call::Feed(0xAA),
        Call::Reset,
    ]));
    all.push(script(&[Call::Slice(&[0x00, 0xAA, 0xAA, 0xFF]), Call::Reset]));
    all
}
