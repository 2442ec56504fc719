//! The command line.

use std::path::{Path, PathBuf};

use crate::programs::{self, PROGRAMS};

pub const USAGE: &str = "\
usage: compare/run [--original FILE] [options]
  without a mode          run the generated cases through our programs and hold their answers against the original's
  --self-check            hold wrong variants against the right answers: each must be noticed; and hold the stored lists
                          against what --write-list writes
  --write-list DIR        write the fixed list of cases and answers to DIR/stdin and DIR/stdout; DIR is named as the
                          program whose list it is, as in crates/replay
  --recovery DIR          disturb the frames of DIR/stdin, count those that the original loses after it, and hold the
                          lines against DIR/stdout, as in crates/recovery
  --answer                answer the cases on standard input, as our programs do
options
  --original FILE         the original Rust file
  --ours PROGRAM          our program (default crates/replay/out/replay)
  --station PROGRAM       our program of op 20 (default crates/replay_station/out/replay_station)
  --ld2450 PROGRAM        our program of ops 30 to 32 (default crates/replay_ld2450/out/replay_ld2450)
  --crates DIR            the folder of the stored lists (default crates)
  --ops 1,2,3             these ops alone (default: all)
  --seed N                seed of the random cases (default 1)
  --scale N               one random case for N at full scale (default 1, the self-check's 100)";

pub enum Mode {
    Compare,
    SelfCheck,
    WriteList(PathBuf),
    Recovery(PathBuf),
    Answer,
    Help,
}

pub struct Options {
    pub mode: Mode,
    /// Where each of PROGRAMS is.
    pub paths: [PathBuf; PROGRAMS.len()],
    /// The folder that has the stored list of each.
    pub crates: PathBuf,
    pub ops: Vec<u8>,
    pub seed: u64,
    pub scale: Option<u64>,
}

/// The options, or what is wrong with them.
pub fn parse(mut arguments: impl Iterator<Item = String>) -> Result<Options, String> {
    let mut options = Options {
        mode: Mode::Compare,
        paths: PROGRAMS.map(|program| Path::new("crates").join(program.name).join("out").join(program.name)),
        crates: "crates".into(),
        ops: programs::ops(),
        seed: 1,
        scale: None,
    };
    while let Some(name) = arguments.next() {
        let mut value = || arguments.next().ok_or(format!("{name} needs a value"));
        match name.as_str() {
            "--crates" => options.crates = value()?.into(),
            "--ops" => options.ops = ops(&value()?)?,
            "--seed" => options.seed = number(&value()?)?,
            "--scale" => options.scale = Some(number(&value()?)?.max(1)),
            "--self-check" => options.mode = Mode::SelfCheck,
            "--write-list" => options.mode = Mode::WriteList(value()?.into()),
            "--recovery" => options.mode = Mode::Recovery(value()?.into()),
            "--answer" => options.mode = Mode::Answer,
            "--help" => options.mode = Mode::Help,
            _ => {
                let place = PROGRAMS.iter().position(|program| program.option == name);
                let place = place.ok_or(format!("no option {name}; --help lists them"))?;
                options.paths[place] = value()?.into();
            }
        }
    }
    Ok(options)
}

fn number(text: &str) -> Result<u64, String> {
    text.parse().map_err(|_| format!("not a number: {text}"))
}

fn ops(text: &str) -> Result<Vec<u8>, String> {
    let op = |text: &str| {
        let op = text.parse().ok().filter(|op| programs::ops().contains(op));
        op.ok_or(format!("not an op: {text}"))
    };
    text.split(',').map(op).collect()
}
