//! The fixed list of each program: cases that reach every check from both sides, for the gate to replay.

mod ld2450;
mod loads;
mod matching;
mod parsers;
mod readers;
mod sessions;
mod streams;
mod writers;

use std::ffi::OsStr;
use std::fs;
use std::io;
use std::path::Path;

use crate::case::Case;
use crate::expected::{self, is_modelled};
use crate::generate::random::Random;
use crate::intended::{self, TABLE};
use crate::programs::{Program, PROGRAMS};

/// The listed arguments of an op, the same at every call.
pub fn arguments(op: u8) -> Vec<Vec<u8>> {
    let random = &mut Random::new(0, op);
    match op {
        1 => readers::target_states(),
        2 => readers::reports(random),
        3 => readers::acks(random),
        4 => readers::replies(random),
        5 => readers::frames(random),
        6 => writers::commands(),
        7 => writers::report_values(random),
        8 => writers::ack_values(random),
        9 => writers::command_frames(),
        10 => streams::scripts(random),
        11 => streams::lent_scripts(),
        12 => writers::rates(),
        13 => parsers::built_parsers(random),
        14 => readers::built_acks(random),
        15 => loads::loads(),
        16 => streams::table_scripts(),
        17 => parsers::table_parsers(random),
        20 => sessions::scripts(),
        30 => ld2450::frames(random),
        31 => ld2450::values(random),
        32 => ld2450::scripts(random),
        _ => Vec::new(),
    }
}

/// Writes the list of these ops to `stdin` and its answers to `stdout` in the directory of the program that has them.
pub fn write(directory: &Path, ops: &[u8]) -> io::Result<bool> {
    let (input, answers) = made(program_of(directory)?, ops)?;
    fs::create_dir_all(directory)?;
    fs::write(directory.join("stdin"), &input)?;
    fs::write(directory.join("stdout"), &answers)?;
    let lines = answers.iter().filter(|&&byte| byte == b'\n').count();
    println!("{} bytes of cases, {lines} lines of answers", input.len());
    Ok(true)
}

/// Prints for each program whether its stored list is the one that `write` writes; true where all are.
pub fn stored(crates: &Path) -> io::Result<bool> {
    let mut all = true;
    for program in &PROGRAMS {
        let (input, answers) = made(program, program.ops)?;
        let directory = crates.join(program.name);
        let same = fs::read(directory.join("stdin"))? == input && fs::read(directory.join("stdout"))? == answers;
        println!("stored list of {}: {}as --write-list writes it", program.name, if same { "" } else { "NOT " });
        all &= same;
    }
    Ok(all)
}

/// The list of these ops of a program, and its answers. The last case is cut short, and that before it has an op that
/// the program has not. There is none where an answer does not agree with what it is held against.
fn made(program: &Program, ops: &[u8]) -> io::Result<(Vec<u8>, Vec<u8>)> {
    let mut input = Vec::new();
    for &op in ops.iter().filter(|op| program.ops.contains(op)) {
        for argument in arguments(op) {
            let case = Case { op, argument: &argument };
            if !agreed(case) {
                let message = "is not as the table of intended differences says, or not as the division";
                return Err(io::Error::other(format!("a case of op {op} {message}")));
            }
            case.write(&mut input);
        }
    }
    Case { op: program.no_ops[0], argument: &[] }.write(&mut input);
    input.extend(program.cut);
    let answers = expected::answers(&input, program.ops);
    Ok((input, answers))
}

/// The program that a directory has its name from.
fn program_of(directory: &Path) -> io::Result<&'static Program> {
    let named = |program: &&Program| directory.file_name() == Some(OsStr::new(program.name));
    let message = || format!("no program has the name of the directory {}", directory.display());
    PROGRAMS.iter().find(named).ok_or_else(|| io::Error::other(message()))
}

/// Whether the expected answer is the original's but for what is intended; one of the table engine the division's too.
fn agreed(case: Case<'_>) -> bool {
    let mut answer = Vec::new();
    expected::answer(case, &mut answer);
    let divided = expected::divided(case).is_none_or(|divided| divided == answer);
    divided && (!is_modelled(case.op) || intended::hold(&TABLE, case, &answer).is_ok())
}
