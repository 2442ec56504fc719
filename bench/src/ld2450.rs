//! Feeds streams to the proved parser of the LD2450 (bench/link/ld2450, linked as a static library). There is no
//! original Rust of it. Every field of every frame delivered, and the final counters, go into a digest, which has to be
//! that of the targets which the stream was made of, and of the counters that its making tells.
//!
//! usage: bench                            feeds every stream in every way, and prints what is in it
//!        bench VARIANT STREAM TIMES       feeds STREAM, TIMES over, once: for callgrind, which counts inside VARIANT
mod streams;

use std::hint::black_box;
use streams::{Stream, Target};

/// How a Rattle function takes a slice: its pointer and its length.
type Variant = unsafe extern "C" fn(*const u8, usize) -> u64;

#[link(name = "bench_ld2450", kind = "static")]
unsafe extern "C" {
    fn ours_feed_slice(bytes: *const u8, len: usize) -> u64;
    fn ours_feed(bytes: *const u8, len: usize) -> u64;
}

#[link(name = "bench_ld2450_apart", kind = "static")]
unsafe extern "C" {
    fn apart_feed_slice(bytes: *const u8, len: usize) -> u64;
    fn apart_feed(bytes: *const u8, len: usize) -> u64;
}

const VARIANTS: [(&str, Variant); 4] = [
    ("ours_feed_slice", ours_feed_slice),
    ("apart_feed_slice", apart_feed_slice),
    ("ours_feed", ours_feed),
    ("apart_feed", apart_feed),
];

fn mix(digest: u64, word: u64) -> u64 {
    digest.rotate_left(7) ^ word
}

/// A number with a sign, counted from the lowest.
fn above_lowest(x: i16) -> u64 {
    (x as i32 + 32768) as u64
}

fn mix_target(digest: u64, t: &Target) -> u64 {
    let place = above_lowest(t.x) ^ above_lowest(t.y) << 16;
    let numbers = place ^ above_lowest(t.speed) << 32 ^ (t.resolution as u64) << 48;
    mix(mix(digest, t.present as u64), numbers)
}

/// The digest of frames that are there already.
#[unsafe(no_mangle)]
#[inline(never)]
fn digest_alone(frames: &[[Target; 3]]) -> u64 {
    frames.iter().flatten().fold(0, mix_target)
}

/// The digest that a stream has to have.
fn expected(stream: &Stream) -> u64 {
    let frames = stream.frames.len() as u64;
    let digest = digest_alone(&stream.frames);
    mix(mix(mix(digest, frames), stream.resyncs), stream.dropped)
}

/// Feeds a stream; the digest is the one that it has to be.
fn feed(variant: &str, stream: &Stream) {
    let (_, run) = VARIANTS.iter().find(|(name, _)| *name == variant).expect("no such variant");
    let digest = unsafe { run(black_box(stream.bytes.as_ptr()), stream.bytes.len()) };
    assert_eq!(digest, expected(stream), "{variant} has another digest");
}

/// Feeds a stream in every way, and prints what is in it.
fn check(name: &str, times: usize) {
    let stream = streams::stream(name, times);
    for (variant, _) in VARIANTS {
        feed(variant, &stream);
    }
    let Stream { bytes, frames, resyncs, dropped } = stream;
    println!("{name} {} {} {resyncs} {dropped}", bytes.len(), frames.len());
}

fn main() {
    let args: Vec<String> = std::env::args().skip(1).collect();
    if args.is_empty() {
        for name in ["frames", "aa", "broken"] {
            check(name, 1);
            check(name, 256);
        }
        return;
    }
    let stream = streams::stream(&args[1], args[2].parse().expect("TIMES is a number"));
    if args[0] == "digest_alone" {
        black_box(digest_alone(&stream.frames));
    } else {
        feed(&args[0], &stream);
    }
    println!("{}", stream.bytes.len());
}
