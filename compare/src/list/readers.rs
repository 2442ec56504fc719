//! Listed cases of ops 1 to 5 and 14.

use crate::generate::acks::{ack_data, parameters_payload, REPLY_WORDS, WORDS};
use crate::generate::built_acks::{spans, BuiltAck};
use crate::generate::damage::plain_damage;
use crate::generate::random::Random;
use crate::generate::reports::{block, large_report_of, marked_data, report_data, STATES};
use crate::model::families::{Family, COMMAND, REPORT};
use crate::published;

/// Every kind of damage at every place of good bytes, and the good bytes.
pub fn damages(good: &[u8]) -> Vec<Vec<u8>> {
    let mut all = vec![good.to_vec()];
    plain_damage(good, &mut |bytes| all.push(bytes.to_vec()));
    all
}

fn data_of(frame: &str) -> Vec<u8> {
    published::data(&published::bytes(frame)).to_vec()
}

pub fn target_states() -> Vec<Vec<u8>> {
    let mut all: Vec<_> = (0..=255).map(|byte| vec![byte]).collect();
    all.extend([vec![], vec![6, 1]]);
    all
}

pub fn reports(random: &mut Random) -> Vec<Vec<u8>> {
    let mut all: Vec<_> = published::REPORTS.iter().map(|frame| data_of(frame)).collect();
    all.extend(damages(&data_of(published::B)));
    let small = report_data(1, random.array(), &block(1, 0, 2, random));
    all.extend(damages(&small));
    let basic = [3, 0x78, 0, 0x3C, 0x96, 0, 0x2D, 0xC8, 0];
    for data_type in [0, 1, 2, 3, 4, 255] {
        all.push(report_data(data_type, basic, &[]));
        all.push(report_data(data_type, basic, &[0]));
        let mut eight = report_data(data_type, basic, &[]);
        eight.remove(4);
        all.push(eight);
    }
    for length in 0..=14 {
        for data_type in [1, 2, 3] {
            for wrong in [0, 1, 2, 4] {
                all.push(marked_data(length, data_type, wrong, random));
            }
        }
    }
    for gates in [(0, 0), (0, 8), (8, 0), (8, 8), (7, 8), (9, 8), (8, 9), (9, 9), (10, 0), (255, 0), (0, 255)] {
        for reserved in [-1, 0, 1] {
            all.push(report_data(1, random.array(), &block(gates.0, gates.1, reserved, random)));
        }
    }
    for frame in STATES.into_iter().flat_map(published::with_state) {
        all.push(published::data(&frame).to_vec());
    }
    for reserved in [2, 3, 6, 7, 8, 9, 10, 254, 255, 256, 257, 300, 512] {
        all.push(report_data(1, random.array(), &block(4, 8, reserved, random)));
    }
    all
}

pub fn acks(random: &mut Random) -> Vec<Vec<u8>> {
    let mut all: Vec<_> = published::ACKS.iter().map(|frame| data_of(frame)).collect();
    all.extend(damages(&data_of(published::ACKS[0])));
    for word in WORDS.into_iter().chain([0x0000, 0x0100, 0xFEFF, 0xFFFF, 0xFF00, 0x0200]) {
        all.push(ack_data(word, 0, &[]));
    }
    for status in [0, 1, 2, 0x00FF, 0x0100, 0xFFFF] {
        all.push(ack_data(0x0161, status, &[9]));
    }
    for length in (0..=5).chain([49, 50, 51, 250, 251, 252, 256, 300]) {
        all.push(ack_data(0x01A0, 0, &random.bytes(length)));
    }
    all
}

pub fn replies(random: &mut Random) -> Vec<Vec<u8>> {
    let awaiting = |word: u16, data: &[u8]| [&word.to_le_bytes(), data].concat();
    let mut all = vec![vec![], vec![0xFF], vec![0xFF, 0x00]];
    for frame in published::ACKS {
        let data = data_of(frame);
        all.push(awaiting(data[0].into(), &data));
        all.push(awaiting(0x00FE, &data));
    }
    for awaited in [0x00FF, 0x0061, 0x01FF] {
        all.push(awaiting(awaited, &[0xFF, 0x01, 0x01, 0x00]));
        all.push(awaiting(awaited, &[0xFF, 0x01, 0x00, 0x00]));
    }
    for (word, needed) in [(0x00FF, 4), (0x00A0, 8), (0x00A5, 6)] {
        for length in 0..=needed + 2 {
            all.push(awaiting(word, &ack_data(word | 0x0100, 0, &random.bytes(length))));
        }
        all.push(awaiting(word, &ack_data(word | 0x0100, 2, &random.bytes(needed))));
    }
    for max_gate in (0..=10).chain([255]) {
        for surplus in [-2, -1, 0, 1] {
            let payload = parameters_payload(max_gate, surplus, random);
            all.push(awaiting(0x0061, &ack_data(0x0161, 0, &payload)));
        }
    }
    let good = parameters_payload(8, 0, random);
    for length in 0..=good.len() {
        all.push(awaiting(0x0061, &ack_data(0x0161, 0, &good[..length])));
    }
    for head in [0xAB, 0x00, 0x2A] {
        let wrong = [&[head], &good[1..]].concat();
        all.push(awaiting(0x0061, &ack_data(0x0161, 0, &wrong)));
    }
    for farthest in [[0, 0], [9, 8], [8, 9], [255, 255]] {
        let wide = [&good[..2], &farthest, &good[4..]].concat();
        all.push(awaiting(0x0061, &ack_data(0x0161, 0, &wide)));
    }
    all.push(awaiting(0x0061, &ack_data(0x0161, 1, &good)));
    for frame in [published::ACKS[0], published::ACKS[13]] {
        let data = data_of(frame);
        all.extend(damages(&data).iter().map(|damaged| awaiting(data[0].into(), damaged)));
    }
    all
}

pub fn frames(random: &mut Random) -> Vec<Vec<u8>> {
    let mut all = published::all();
    let b = published::bytes(published::B);
    all.extend(damages(&b));
    all.extend(damages(&published::bytes(published::ACKS[0])));
    let swapped = Family { header: REPORT.header, tail: COMMAND.tail };
    let swapped_too = Family { header: COMMAND.header, tail: REPORT.tail };
    for length in (0..=14).chain([53, 54, 55, 64, 255, 256, 257, 260, 300]) {
        let report = marked_data(length, 1 + (length % 3) as u8, 0, random);
        let ack = ack_data(0x01FF, 0, &random.bytes(length));
        all.push(REPORT.frame(&report));
        all.push(COMMAND.frame(&ack));
        all.push(COMMAND.frame(&ack[..length]));
    }
    for family in [swapped, swapped_too] {
        all.push(family.frame(published::data(&b)));
        all.push(family.frame(&[0xFF, 0x01, 0x00, 0x00]));
    }
    for told in [0, 1, 2, 12, 14, 17, 18, 0x0D00, 0x010D, 0xFFFF] {
        let mut bytes = b.clone();
        bytes[4..6].copy_from_slice(&u16::to_le_bytes(told));
        all.push(bytes);
    }
    all.extend(STATES.into_iter().flat_map(published::with_state));
    all.push(REPORT.frame(&large_report_of(65_535, random)));
    all.push(COMMAND.frame(&ack_data(0x0161, 0, &random.bytes(65_531))));
    all
}

pub fn built_acks(random: &mut Random) -> Vec<Vec<u8>> {
    let bytes = [&[0xAA, 0x00][..], &random.bytes(8)].concat();
    let good = BuiltAck { word: 0x0061, ok: 1, status: 0, span: (0, 10), awaited: 0x0061, bytes: &bytes };
    let mut all: Vec<_> = (0..=good.argument().len()).map(|length| good.argument()[..length].to_vec()).collect();
    for span in spans(10) {
        all.push(BuiltAck { span, ..good }.argument());
    }
    for word in REPLY_WORDS {
        for ok in [0, 1, 2, 255] {
            for (awaited, status) in [(word, 0), (word, 1), (0x00FE, 0)] {
                all.push(BuiltAck { word, ok, status, awaited, ..good }.argument());
            }
        }
        for span in [(0, 4), (2, 8), (4, 6), (4, 7), (6, 4), (7, 4), (u64::MAX, 2), (2, u64::MAX)] {
            all.push(BuiltAck { word, span, awaited: word, ..good }.argument());
        }
    }
    all
}
