//! What a disturbance of the stream costs the original: the frames of an input are disturbed at each byte, in each way
//! of a small list, and those that are lost after it are counted. crates/recovery counts them for our parser, and must
//! print the same lines.

mod watch;
mod ways;

use std::fs;
use std::io;
use std::ops::Range;
use std::path::Path;

use ld2410::Frame;

use crate::model::division::LIMIT;
use crate::model::families::FRAMING;
use crate::published;
use watch::Watch;
use ways::{Disturbance, Way, WAYS};

/// Prints the lines for the input `directory`/stdin; true where `directory`/stdout has just these.
pub fn run(directory: &Path) -> io::Result<bool> {
    let input = Input::read(fs::read(directory.join("stdin"))?)?;
    let lines: String = WAYS.iter().map(|way| input.cost(way).line(way.name)).collect();
    let lines = format!("{lines}bound: none {LIMIT} or more bytes after the boundary\n");
    print!("{lines}");
    let stored = directory.join("stdout");
    let same = fs::read(&stored)? == lines.as_bytes();
    if !same {
        eprintln!("compare: {} has other lines", stored.display());
    }
    Ok(same)
}

/// What the disturbed streams of a way cost.
#[derive(Default)]
struct Cost {
    streams: usize,
    /// The frames that they lost.
    lost: usize,
    /// The most that one of them lost.
    most: usize,
    /// The largest distance at which a lost one began.
    farthest: usize,
}

impl Cost {
    /// Counts a stream, by the distances at which its lost frames began.
    fn add(&mut self, distances: &[usize]) {
        self.streams += 1;
        self.lost += distances.len();
        self.most = self.most.max(distances.len());
        self.farthest = distances.iter().copied().fold(self.farthest, usize::max);
    }

    fn line(&self, name: &str) -> String {
        let Self { streams, lost, most, farthest } = self;
        format!(
            "{name}: {streams} streams, {lost} whole frames lost, at most {most} in one, \
             the farthest {farthest} bytes after the boundary\n"
        )
    }
}

/// Whole frames, one after another.
struct Input {
    bytes: Vec<u8>,
    frames: Vec<Range<usize>>,
}

impl Input {
    /// The input with these bytes; each of its frames must be one of request 5, and decode.
    fn read(bytes: Vec<u8>) -> io::Result<Self> {
        let mut frames = Vec::new();
        let mut start = 0;
        while start < bytes.len() {
            let length =
                bytes[start..].get(4..6).map_or(0, |length| usize::from(length[0]) + 256 * usize::from(length[1]));
            let frame = start..start + FRAMING + length;
            if !bytes.get(frame.clone()).is_some_and(is_fit) {
                return Err(io::Error::other(format!("no frame of request 5 that decodes begins at byte {start}")));
            }
            start = frame.end;
            frames.push(frame);
        }
        Ok(Self { bytes, frames })
    }

    fn cost(&self, way: &Way) -> Cost {
        let mut cost = Cost::default();
        for (place, &byte) in self.bytes.iter().enumerate() {
            for disturbance in (way.disturbances)(byte) {
                cost.add(&self.lost(place, &disturbance));
            }
        }
        cost
    }

    /// The distances from the boundary at which the frames begin that a disturbance at a place loses after it.
    fn lost(&self, place: usize, disturbance: &Disturbance) -> Vec<usize> {
        let Self { bytes, frames } = self;
        let rest = place + disturbance.left_out;
        let first = frames.partition_point(|frame| frame.start < rest);
        let boundary = frames.get(first).map_or(bytes.len(), |frame| frame.start);
        let mut watch = Watch::new();
        watch.feed(&bytes[..place]);
        watch.feed(&disturbance.put_in);
        watch.feed(&bytes[rest..boundary]);
        let lost = frames[first..].iter().filter(|frame| !watch.finds(&bytes[frame.start..frame.end]));
        lost.map(|frame| frame.start - boundary).collect()
    }
}

/// Whether a whole frame decodes, has a length of 2 to 54, and neither F4 nor FD among its data.
fn is_fit(frame: &[u8]) -> bool {
    let data = published::data(frame);
    let begins_nothing = !data.iter().any(|byte| [0xF4, 0xFD].contains(byte));
    Frame::parse(frame).is_ok() && (2..=LIMIT).contains(&data.len()) && begins_nothing
}
