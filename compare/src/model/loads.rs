//! The load of request 8: what op 15 answers.

use crate::case::Fields;
use crate::line::Line;

/// The longest buffer of op 15.
pub const LONGEST: usize = 70_000;

/// "or 65,536 bytes"
pub const MOST: usize = 65_536;

/// Refusal: "9, seed zero".
const SEED_ZERO: u8 = 9;

/// "3, FD FC FB FA 08 00 FF 01 00 00 01 00 40 00 04 03 02 01"
pub const PRINTED: [u8; 18] =
    [0xFD, 0xFC, 0xFB, 0xFA, 0x08, 0x00, 0xFF, 0x01, 0x00, 0x00, 0x01, 0x00, 0x40, 0x00, 0x04, 0x03, 0x02, 0x01];

/// The rules of request 8, each one replaceable, so that the self-check can put a wrong one in its place.
#[derive(Clone, Copy)]
pub struct Rules {
    /// The number after this one.
    pub next: fn(u64) -> u64,
    /// The byte of a draw.
    pub byte: fn(u64) -> u8,
    /// The next piece, after the bytes laid down so far.
    pub piece: fn(&mut Generator, &[u8]) -> Vec<u8>,
    /// The bytes that a load may take in a buffer of this length.
    pub room: fn(usize) -> usize,
    /// What is laid down in place of a piece that does not fit into the bytes left.
    pub misfit: fn(&mut Generator, &[u8], usize) -> Vec<u8>,
    /// Whether a seed is refused.
    pub refused: fn(u32) -> bool,
    /// What a byte after the load becomes.
    pub after: fn(u8) -> u8,
}

pub const RULES: Rules = Rules {
    next,
    byte,
    piece,
    room: |length| length.min(MOST),
    misfit: |_, _, _| Vec::new(),
    refused: |seed| seed == 0,
    after: |byte| byte,
};

/// "A generator holds one 32-bit number"
pub struct Generator {
    pub number: u64,
    next: fn(u64) -> u64,
    byte: fn(u64) -> u8,
}

impl Generator {
    /// "each result is a draw"
    pub fn draw(&mut self) -> u64 {
        self.number = (self.next)(self.number);
        self.number
    }

    /// The byte of the next draw.
    pub fn byte(&mut self) -> u8 {
        (self.byte)(self.draw())
    }
}

/// "draws modulo 256"
fn byte(draw: u64) -> u8 {
    (draw % 256) as u8
}

/// A number xor itself shifted left, on numbers that could hold more than 32 bits.
pub fn xor_left(number: u64, by: u32) -> u64 {
    number ^ ((number << by) % (1 << 32))
}

/// A number xor itself shifted right.
pub fn xor_right(number: u64, by: u32) -> u64 {
    number ^ (number >> by)
}

/// "xor with itself shifted left 13 (low 32 bits kept), then right 17, then left 5"
fn next(number: u64) -> u64 {
    let number = xor_left(number, 13);
    let number = xor_right(number, 17);
    xor_left(number, 5)
}

/// What stands before the nine basic bytes of a report: header, length 13, type 02, AA.
pub const BEFORE: [u8; 8] = [0xF4, 0xF3, 0xF2, 0xF1, 0x0D, 0x00, 0x02, 0xAA];

/// What stands after them: 55, 00, tail.
pub const AFTER: [u8; 6] = [0x55, 0x00, 0xF8, 0xF7, 0xF6, 0xF5];

/// A basic report: "the nine basic bytes of a report, are draws".
pub fn report(generator: &mut Generator) -> Vec<u8> {
    let mut frame = BEFORE.to_vec();
    for _ in 0..9 {
        frame.push(generator.byte());
    }
    frame.extend(AFTER);
    frame
}

/// "0, one byte; 1, a basic report; 2, the same without its last byte; 3, .."
pub fn chosen(by: u64, generator: &mut Generator) -> Vec<u8> {
    match by {
        0 => vec![generator.byte()],
        1 => report(generator),
        2 => {
            let mut cut = report(generator);
            cut.pop();
            cut
        }
        _ => PRINTED.to_vec(),
    }
}

/// "A piece is chosen by a draw's remainder by 4"
pub fn piece(generator: &mut Generator, _: &[u8]) -> Vec<u8> {
    let by = generator.draw() % 4;
    chosen(by, generator)
}

/// "Pieces are laid down until the next would pass the buffer's end or 65,536 bytes."
fn load(seed: u32, length: usize, rules: &Rules) -> Vec<u8> {
    let mut generator = Generator { number: seed.into(), next: rules.next, byte: rules.byte };
    let mut load = Vec::new();
    loop {
        let piece = (rules.piece)(&mut generator, &load);
        let left = (rules.room)(length) - load.len();
        if piece.len() > left {
            load.extend((rules.misfit)(&mut generator, &piece, left));
            return load;
        }
        load.extend(piece);
    }
}

/// Appends the answer line of op 15; none for an argument that is too short, or a buffer that is too long.
pub fn answer(argument: &[u8], rules: &Rules, out: &mut Vec<u8>) -> Option<()> {
    let mut fields = Fields(argument);
    let (seed, length, fill) = (fields.u32()?, fields.u32()? as usize, fields.u8()?);
    if length > LONGEST {
        return None;
    }
    let mut buffer = vec![fill; length];
    let mut filled = 0;
    let refusal = (rules.refused)(seed);
    if !refusal {
        let load = load(seed, length, rules);
        filled = load.len();
        buffer[..filled].copy_from_slice(&load);
        buffer[filled..].iter_mut().for_each(|byte| *byte = (rules.after)(*byte));
    }
    let mut line = Line::new(out, 15);
    line.number(if refusal { SEED_ZERO } else { 0 });
    line.count(filled);
    line.bytes(&buffer);
    line.end();
    Some(())
}
