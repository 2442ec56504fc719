//! The streams of the LD2450, each with what is in it: the targets that its frames were made of, and, by counting, what
//! breaks off and which bytes belong to no frame. No parser has a part in this.

/// A target; an absent one has every number 0.
#[derive(Clone, Copy, Default)]
pub struct Target {
    pub present: bool,
    pub x: i16,
    pub y: i16,
    pub speed: i16,
    pub resolution: u16,
}

pub struct Stream {
    pub bytes: Vec<u8>,
    pub frames: Vec<[Target; 3]>,
    pub resyncs: u64,
    pub dropped: u64,
}

/// A number with a sign: plus has the top bit.
fn signed(x: i16) -> [u8; 2] {
    let raw = if x < 0 { x.unsigned_abs() } else { 0x8000 + x as u16 };
    raw.to_le_bytes()
}

fn target_bytes(t: &Target) -> [u8; 8] {
    if !t.present {
        return [0; 8];
    }
    let numbers = [signed(t.x), signed(t.y), signed(t.speed), t.resolution.to_le_bytes()];
    numbers.concat().try_into().unwrap()
}

fn frame_bytes(targets: &[Target; 3]) -> Vec<u8> {
    let mut frame = vec![0xAA, 0xFF, 3, 0];
    frame.extend(targets.iter().flat_map(target_bytes));
    frame.extend([0x55, 0xCC]);
    frame
}

/// A target that moves: past the module, away from it, to and fro.
fn moving(k: usize) -> Target {
    let k = k as i16;
    Target { present: true, x: k - 1000, y: 500 + 2 * k, speed: k % 101 - 50, resolution: 360 }
}

/// What the module sees at a time: one target, three, none, in turn.
fn seen(k: usize) -> [Target; 3] {
    let none = Target::default();
    match k % 3 {
        0 => [moving(k), none, none],
        1 => [moving(k), Target { x: -700, ..moving(k) }, Target { speed: 0, ..moving(2000 - k % 2000) }],
        _ => [none; 3],
    }
}

/// As many frames as 64 KiB hold, back to back.
fn frames(times: usize) -> Stream {
    let frames: Vec<_> = (0..65_536 / 30).map(seen).collect();
    let bytes: Vec<_> = frames.iter().flat_map(frame_bytes).collect();
    Stream { bytes: bytes.repeat(times), frames: frames.repeat(times), resyncs: 0, dropped: 0 }
}

/// Bytes AA: each breaks off the frame that the one before it began; the last one's is unfinished.
fn starts(times: usize) -> Stream {
    let bytes = vec![0xAA; 65_536 * times];
    let broken = bytes.len() as u64 - 1;
    Stream { bytes, frames: vec![], resyncs: broken, dropped: broken }
}

/// A frame among what breaks off: before it two bytes of a frame; after it three stray bytes, three bytes of a frame
/// and a stray one, and a frame whose last byte is wrong, and so a stray one.
fn disturbed(targets: &[Target; 3]) -> Vec<u8> {
    let frame = frame_bytes(targets);
    let mut bytes = vec![0xAA, 0xFF];
    bytes.extend(&frame);
    bytes.extend([1, 2, 3]);
    bytes.extend([0xAA, 0xFF, 3, 0x11]);
    bytes.extend(&frame[..29]);
    bytes.push(0);
    bytes
}

/// As many of these as 64 KiB hold: each has a whole frame, three broken ones, and 2 + 3 + 4 + 30 bytes of no frame.
fn broken(times: usize) -> Stream {
    let frames: Vec<_> = (0..65_536 / 69).map(seen).collect();
    let bytes: Vec<_> = frames.iter().flat_map(disturbed).collect();
    let n = (frames.len() * times) as u64;
    Stream { bytes: bytes.repeat(times), frames: frames.repeat(times), resyncs: 3 * n, dropped: 39 * n }
}

/// The stream named `frames`, `aa` or `broken`, `times` over.
pub fn stream(name: &str, times: usize) -> Stream {
    match name {
        "frames" => frames(times),
        "aa" => starts(times),
        "broken" => broken(times),
        _ => panic!("no stream {name}"),
    }
}
