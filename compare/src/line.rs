//! An answer line of docs/REPLAY.md: the op, then decimal numbers, one space between, a line feed after.

pub struct Line<'a>(&'a mut Vec<u8>);

impl<'a> Line<'a> {
    pub fn new(out: &'a mut Vec<u8>, op: u8) -> Self {
        push_decimal(out, op.into());
        Self(out)
    }

    pub fn number(&mut self, n: impl Into<u64>) {
        self.0.push(b' ');
        push_decimal(self.0, n.into());
    }

    pub fn signed(&mut self, n: i16) {
        self.0.extend(if n < 0 { &b" -"[..] } else { b" " });
        push_decimal(self.0, n.unsigned_abs().into());
    }

    pub fn count(&mut self, n: usize) {
        self.number(n as u64);
    }

    pub fn bytes(&mut self, bytes: &[u8]) {
        for &byte in bytes {
            self.number(byte);
        }
    }

    pub fn zeros(&mut self, n: usize) {
        for _ in 0..n {
            self.number(0u8);
        }
    }

    pub fn end(self) {
        self.0.push(b'\n');
    }
}

/// The line of an op or an argument that has no answer.
pub fn none(out: &mut Vec<u8>, op: u8) {
    push_decimal(out, op.into());
    out.extend(b" none\n");
}

/// The lines of an answer, each with its line feed.
pub fn lines(answer: &[u8]) -> impl Iterator<Item = &[u8]> {
    answer.split_inclusive(|&byte| byte == b'\n')
}

/// A line as it is shown, also where there is none.
pub fn text_of(line: Option<&[u8]>) -> &str {
    line.map_or("nothing", |line| std::str::from_utf8(line).unwrap_or("bytes that are not text"))
}

fn push_decimal(out: &mut Vec<u8>, mut n: u64) {
    const MOST_DIGITS: usize = 20;
    let mut digits = [0; MOST_DIGITS];
    let mut first = MOST_DIGITS;
    loop {
        first -= 1;
        digits[first] = b'0' + (n % 10) as u8;
        n /= 10;
        if n == 0 {
            break;
        }
    }
    out.extend(&digits[first..]);
}
