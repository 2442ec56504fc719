//! The ways to disturb an input at a place.

/// At its place `left_out` bytes of the input are left out, and these are put in.
pub struct Disturbance {
    pub put_in: Vec<u8>,
    pub left_out: usize,
}

pub struct Way {
    pub name: &'static str,
    /// Its disturbances at a place that has this byte.
    pub disturbances: fn(u8) -> Vec<Disturbance>,
}

pub const WAYS: [Way; 4] = [
    Way { name: "changed", disturbances: changed },
    Way { name: "dropped", disturbances: dropped },
    Way { name: "inserted", disturbances: inserted },
    Way { name: "noise", disturbances: noise },
];

fn changed(byte: u8) -> Vec<Disturbance> {
    let others = (0..=255).filter(|&other| other != byte);
    others.map(|other| Disturbance { put_in: vec![other], left_out: 1 }).collect()
}

fn dropped(_: u8) -> Vec<Disturbance> {
    vec![Disturbance { put_in: Vec::new(), left_out: 1 }]
}

fn inserted(_: u8) -> Vec<Disturbance> {
    (0..=255).map(|byte| Disturbance { put_in: vec![byte], left_out: 0 }).collect()
}

fn noise(_: u8) -> Vec<Disturbance> {
    let begun = |front: [u8; 6]| [&[0; 48][..], &front].concat();
    let runs = [
        vec![0xF4; 54],
        vec![0x00; 54],
        begun([0xF4, 0xF3, 0xF2, 0xF1, 0x36, 0x00]),
        begun([0xFD, 0xFC, 0xFB, 0xFA, 0x36, 0x00]),
        (0..54_u32).map(|j| ((37 * j + 11) % 256) as u8).collect(),
    ];
    runs.map(|put_in| Disturbance { put_in, left_out: 0 }).into()
}
