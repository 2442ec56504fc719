//! Frames that the documents print: case B of document 01, and the frames of the record of published ones.

use crate::oracle::readers::STATE_IN_FRAME;

pub const B: &str = "F4 F3 F2 F1 0D 00 02 AA 03 78 00 3C 96 00 2D C8 00 55 00 F8 F7 F6 F5";

pub const REPORTS: [&str; 3] = [
    B,
    "F4 F3 F2 F1 0D 00 02 AA 02 51 00 00 00 00 3B 00 00 55 00 F8 F7 F6 F5",
    "F4 F3 F2 F1 23 00 01 AA 03 1E 00 3C 00 00 39 00 00 08 08 3C 22 05 03 03 04 03 06 05 \
     00 00 39 10 13 06 06 08 04 03 05 55 00 F8 F7 F6 F5",
];

pub const COMMANDS: [&str; 14] = [
    "FD FC FB FA 04 00 FF 00 01 00 04 03 02 01",
    "FD FC FB FA 02 00 FE 00 04 03 02 01",
    "FD FC FB FA 14 00 60 00 00 00 08 00 00 00 01 00 08 00 00 00 02 00 05 00 00 00 04 03 02 01",
    "FD FC FB FA 02 00 61 00 04 03 02 01",
    "FD FC FB FA 02 00 62 00 04 03 02 01",
    "FD FC FB FA 02 00 63 00 04 03 02 01",
    "FD FC FB FA 14 00 64 00 00 00 03 00 00 00 01 00 28 00 00 00 02 00 28 00 00 00 04 03 02 01",
    "FD FC FB FA 14 00 64 00 00 00 FF FF 00 00 01 00 28 00 00 00 02 00 28 00 00 00 04 03 02 01",
    "FD FC FB FA 02 00 A0 00 04 03 02 01",
    "FD FC FB FA 04 00 A1 00 07 00 04 03 02 01",
    "FD FC FB FA 02 00 A2 00 04 03 02 01",
    "FD FC FB FA 02 00 A3 00 04 03 02 01",
    "FD FC FB FA 04 00 A4 00 01 00 04 03 02 01",
    "FD FC FB FA 04 00 A5 00 01 00 04 03 02 01",
];

/// The two of ReadFirmware differ in the firmware type: 0000, and 0100 of the LD2410C.
pub const ACKS: [&str; 14] = [
    "FD FC FB FA 08 00 FF 01 00 00 01 00 40 00 04 03 02 01",
    "FD FC FB FA 04 00 FE 01 00 00 04 03 02 01",
    "FD FC FB FA 04 00 60 01 00 00 04 03 02 01",
    "FD FC FB FA 1C 00 61 01 00 00 AA 08 08 08 14 14 14 14 14 14 14 14 14 19 19 19 19 19 19 19 19 19 05 00 \
     04 03 02 01",
    "FD FC FB FA 04 00 62 01 00 00 04 03 02 01",
    "FD FC FB FA 04 00 63 01 00 00 04 03 02 01",
    "FD FC FB FA 04 00 64 01 00 00 04 03 02 01",
    "FD FC FB FA 0C 00 A0 01 00 00 00 00 02 01 16 24 06 22 04 03 02 01",
    "FD FC FB FA 0C 00 A0 01 00 00 00 01 02 01 16 24 06 22 04 03 02 01",
    "FD FC FB FA 04 00 A1 01 00 00 04 03 02 01",
    "FD FC FB FA 04 00 A2 01 00 00 04 03 02 01",
    "FD FC FB FA 04 00 A3 01 00 00 04 03 02 01",
    "FD FC FB FA 04 00 A4 01 00 00 04 03 02 01",
    "FD FC FB FA 0A 00 A5 01 00 00 8F 27 2E B8 0F 65 04 03 02 01",
];

/// The printed frame of the LD2450, another radar: no frame of this link.
pub const LD2450: &str = "AA FF 03 00 0E 03 B1 86 10 00 40 01 00 00 00 00 00 00 00 00 00 00 00 00 00 00 00 00 55 CC";

pub fn bytes(hex: &str) -> Vec<u8> {
    let byte = |digits| u8::from_str_radix(digits, 16).expect("two hexadecimal digits");
    hex.split_whitespace().map(byte).collect()
}

/// The data of a frame: what stands between its length and its tail.
pub fn data(frame: &[u8]) -> &[u8] {
    &frame[6..frame.len() - 4]
}

/// B and the published engineering report, with another state byte.
pub fn with_state(state: u8) -> [Vec<u8>; 2] {
    [REPORTS[0], REPORTS[2]].map(|text| {
        let mut frame = bytes(text);
        frame[STATE_IN_FRAME] = state;
        frame
    })
}

/// Every printed frame.
pub fn all() -> Vec<Vec<u8>> {
    let texts = REPORTS.iter().chain(&COMMANDS).chain(&ACKS).chain([&LD2450]);
    texts.map(|text| bytes(text)).collect()
}
