//! The loads: the 64 KiB mixture of request 8 with the seed 2463534242, 65,536 bytes F4, and as many engineering
//! reports as 64 KiB hold. A fourth, with every kind of frame, is for the digests.

/// The writer of loads (bench/link/load.rt.txt), which takes a slice by its pointer and its length.
#[link(name = "bench_load", kind = "static")]
unsafe extern "C" {
    fn bench_load(out: *mut u8, len: usize, seed: u32) -> u64;
}

fn mixture() -> Vec<u8> {
    let mut out = [0; 65_536];
    let filled = unsafe { bench_load(out.as_mut_ptr(), out.len(), 2_463_534_242) };
    out[..filled as usize].to_vec()
}

/// An engineering report of nine gates each way with so many reserved bytes; no value in it is 0.
fn engineering_report(reserved: u8) -> Vec<u8> {
    let mut piece = vec![0xF4, 0xF3, 0xF2, 0xF1, 33 + reserved, 0, 1, 0xAA];
    piece.extend(1..10);
    piece.extend([8, 8]);
    piece.extend(11..29 + reserved);
    piece.extend([0x55, 0, 0xF8, 0xF7, 0xF6, 0xF5]);
    piece
}

fn engineering() -> Vec<u8> {
    let report = engineering_report(0);
    report.repeat(65_536 / report.len())
}

/// An engineering report with three reserved bytes, an acknowledgement, and a frame that does not decode.
fn kinds() -> Vec<u8> {
    let mut load = engineering_report(3);
    load.extend([0xFD, 0xFC, 0xFB, 0xFA, 6, 0, 0xA5, 1, 1, 2, 3, 4, 4, 3, 2, 1]);
    load.extend([0xFD, 0xFC, 0xFB, 0xFA, 2, 0, 0xFF, 0, 4, 3, 2, 1]);
    load
}

/// The load named `mix`, `f4`, `eng` or `kinds`, `times` over.
pub fn load(name: &str, times: usize) -> Vec<u8> {
    match name {
        "mix" => mixture().repeat(times),
        "f4" => vec![0xF4; 65_536 * times],
        "eng" => engineering().repeat(times),
        "kinds" => kinds().repeat(times),
        _ => panic!("no load {name}"),
    }
}
