//! Feeds loads to the proved parser (bench/link, linked as static libraries), by each engine, and to the original Rust
//! (bench/src/rust.rs), in one process. Every field of every frame delivered, and the final counters, go into a digest,
//! and all digests must agree.
//!
//! usage: bench                          nanoseconds a byte of every variant on every load: the least of the rounds
//!        bench VARIANT LOAD TIMES       feeds LOAD, TIMES over, once: for callgrind, which counts inside VARIANT
mod load;

use ld2410::{Ack, Frame, Parser};
use rust_link::{digest, rust_feed, rust_feed_slice};
use std::hint::black_box;
use std::time::Instant;

/// How a Rattle function takes a slice: its pointer and its length.
type Variant = unsafe extern "C" fn(*const u8, usize) -> u64;

#[link(name = "bench_link", kind = "static")]
unsafe extern "C" {
    fn ours_feed_slice(bytes: *const u8, len: usize) -> u64;
    fn ours_feed(bytes: *const u8, len: usize) -> u64;
}

#[link(name = "bench_apart", kind = "static")]
unsafe extern "C" {
    fn apart_feed_slice(bytes: *const u8, len: usize) -> u64;
    fn apart_feed(bytes: *const u8, len: usize) -> u64;
}

#[link(name = "bench_table", kind = "static")]
unsafe extern "C" {
    fn table_feed_slice(bytes: *const u8, len: usize) -> u64;
    fn table_feed(bytes: *const u8, len: usize) -> u64;
}

#[link(name = "bench_table_apart", kind = "static")]
unsafe extern "C" {
    fn table_apart_feed_slice(bytes: *const u8, len: usize) -> u64;
    fn table_apart_feed(bytes: *const u8, len: usize) -> u64;
}

const VARIANTS: [(&str, Variant); 10] = [
    ("rust_feed_slice", rust_feed_slice),
    ("ours_feed_slice", ours_feed_slice),
    ("apart_feed_slice", apart_feed_slice),
    ("table_feed_slice", table_feed_slice),
    ("table_apart_feed_slice", table_apart_feed_slice),
    ("rust_feed", rust_feed),
    ("ours_feed", ours_feed),
    ("apart_feed", apart_feed),
    ("table_feed", table_feed),
    ("table_apart_feed", table_apart_feed),
];

/// The frames of a load, a payload with as many bytes 0.
fn frames(bytes: &[u8]) -> Vec<Frame<'static>> {
    let mut parser = Parser::new();
    let mut kept = vec![];
    for &byte in bytes {
        match parser.feed(byte) {
            Some(Frame::Report(r)) => kept.push(Frame::Report(r)),
            Some(Frame::Ack(a)) => kept.push(Frame::Ack(Ack { payload: &[0; 64][..a.payload.len()], ..a })),
            None => {}
        }
    }
    kept
}

/// The digest of frames that are there already.
#[unsafe(no_mangle)]
#[inline(never)]
fn digest_alone(frames: &[Frame]) -> u64 {
    frames.iter().fold(0, |digest, frame| digest::frame(digest, frame))
}

fn nanoseconds(variant: Variant, bytes: &[u8]) -> (u64, u64) {
    let from = Instant::now();
    let digest = unsafe { variant(black_box(bytes.as_ptr()), bytes.len()) };
    (from.elapsed().as_nanos() as u64, digest)
}

/// The least nanoseconds of each variant in so many rounds, all in turn; their digests agree.
fn least(bytes: &[u8], rounds: usize) -> [u64; VARIANTS.len()] {
    let mut least = [u64::MAX; VARIANTS.len()];
    let mut first = None;
    for _ in 0..rounds {
        for (k, (variant, run)) in VARIANTS.iter().enumerate() {
            let (spent, digest) = nanoseconds(*run, bytes);
            assert_eq!(digest, *first.get_or_insert(digest), "{variant} has another digest");
            least[k] = least[k].min(spent);
        }
    }
    least
}

/// Prints the nanoseconds a byte: 1,024 rounds at 64 KiB, 10 at 16 MiB.
fn time(name: &str, times: usize) {
    let bytes = load::load(name, times);
    let least = least(&bytes, 10.max(1024 / times));
    for (k, (variant, _)) in VARIANTS.iter().enumerate() {
        println!("{name} {times} {variant} {:.3}", least[k] as f64 / bytes.len() as f64);
    }
}

fn main() {
    let args: Vec<String> = std::env::args().skip(1).collect();
    if args.is_empty() {
        least(&load::load("kinds", 2), 1);
        for name in ["mix", "f4", "eng"] {
            for times in [1, 256] {
                time(name, times);
            }
        }
        return;
    }
    let bytes = load::load(&args[1], args[2].parse().expect("TIMES is a number"));
    if args[0] == "digest_alone" {
        black_box(digest_alone(&frames(&bytes)));
    } else {
        let (_, run) = VARIANTS.iter().find(|(name, _)| *name == args[0]).expect("no such variant");
        black_box(nanoseconds(*run, &bytes));
    }
    println!("{}", bytes.len());
}
