//! The LD2450's frame, its reader and its writer, in the words of request 6.

use super::Rules;

/// "Its frame is AA FF 03 00, three targets of eight bytes, 55 CC: 30 bytes."
pub const HEADER: [u8; 4] = [0xAA, 0xFF, 0x03, 0x00];
pub const TAIL: [u8; 2] = [0x55, 0xCC];
pub const TARGET: usize = 8;
pub const DATA: usize = 3 * TARGET;
/// Where a frame's data end and its tail begins.
pub const DATA_END: usize = HEADER.len() + DATA;
pub const FRAME: usize = 30;

/// "A target is x, y (millimetres), speed (cm/s) and resolution (millimetres)."
#[derive(Clone, Copy, Default, PartialEq, Eq)]
pub struct Target {
    pub present: bool,
    pub x: i16,
    pub y: i16,
    pub speed: i16,
    pub resolution: u16,
}

pub type Targets = [Target; 3];

/// What stands between header and tail; none for "all bytes but such a frame".
pub fn data(bytes: &[u8]) -> Option<[u8; DATA]> {
    bytes.strip_prefix(&HEADER)?.strip_suffix(&TAIL)?.try_into().ok()
}

/// The three targets of a frame; none for bytes that are not one.
pub fn read(bytes: &[u8], rules: &Rules) -> Option<Targets> {
    let data = (rules.data)(bytes)?;
    Some([0, 1, 2].map(|place| {
        let target = &data[place * TARGET..][..TARGET];
        read_target(target.try_into().expect("a target is eight bytes"), rules)
    }))
}

/// "Two bytes each, little-endian. The first three are signed."
fn read_target(bytes: [u8; TARGET], rules: &Rules) -> Target {
    if (rules.absent)(bytes) {
        return Target::default();
    }
    let field = |place: usize| u16::from_le_bytes([bytes[2 * place], bytes[2 * place + 1]]);
    Target {
        present: true,
        x: (rules.signed)(field(0)),
        y: (rules.signed)(field(1)),
        speed: (rules.signed)(field(2)),
        resolution: field(3),
    }
}

/// "Eight zero bytes mean no target, with all fields 0."
pub fn absent(bytes: [u8; TARGET]) -> bool {
    bytes == [0; TARGET]
}

/// "Top bit set means the low 15 bits, top bit clear means minus those bits."
pub fn signed(bits: u16) -> i16 {
    let low = (bits & 0x7FFF) as i16;
    if bits & 0x8000 != 0 {
        low
    } else {
        -low
    }
}

/// The frame of these targets; none for a value that gets 6.
pub fn frame(targets: &Targets, rules: &Rules) -> Option<Vec<u8>> {
    let mut frame = HEADER.to_vec();
    for target in targets {
        frame.extend(write_target(target, rules)?);
    }
    frame.extend(TAIL);
    Some(frame)
}

fn write_target(target: &Target, rules: &Rules) -> Option<Vec<u8>> {
    if !target.present {
        return (rules.all_zero)(target).then(|| vec![0; TARGET]);
    }
    let signed = [(rules.bits)(target.x)?, (rules.bits)(target.y)?, (rules.bits)(target.speed)?];
    Some(signed.into_iter().chain([target.resolution]).flat_map(u16::to_le_bytes).collect())
}

/// "A field not 0 in an absent target" gets 6.
pub fn all_zero(target: &Target) -> bool {
    [target.x, target.y, target.speed] == [0, 0, 0] && target.resolution == 0
}

/// "The writer puts zero of a present target as 00 80 in the signed fields"; -32,768 gets 6. "The reader gives each
/// written value again."
pub fn bits(number: i16) -> Option<u16> {
    let bits = match number {
        0.. => 0x8000 | number.unsigned_abs(),
        -32_767..0 => number.unsigned_abs(),
        -32_768 => return None,
    };
    assert_eq!(signed(bits), number, "the reader gives the number again");
    Some(bits)
}
