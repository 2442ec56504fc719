//! A case of docs/REPLAY.md: op (1 byte), n (4 bytes, little-endian), n argument bytes; and the fields of an argument.

/// The most argument bytes that a case may have.
pub const LONGEST: usize = 70_000;

/// Bytes of a case before its argument.
const PREAMBLE: usize = 5;

#[derive(Clone, Copy)]
pub struct Case<'a> {
    pub op: u8,
    pub argument: &'a [u8],
}

impl Case<'_> {
    pub fn write(&self, out: &mut Vec<u8>) {
        let n = u32::try_from(self.argument.len()).expect("an argument is at most LONGEST bytes");
        out.push(self.op);
        out.extend(n.to_le_bytes());
        out.extend(self.argument);
    }
}

/// What stands at the front of an input.
pub enum Next<'a> {
    /// A case, and the input after it.
    Case(Case<'a>, &'a [u8]),
    End,
    Short,
    Long,
}

pub fn next(input: &[u8]) -> Next<'_> {
    if input.is_empty() {
        return Next::End;
    }
    let Some((&[op, a, b, c, d], rest)) = input.split_first_chunk::<PREAMBLE>() else {
        return Next::Short;
    };
    let n = u32::from_le_bytes([a, b, c, d]) as usize;
    if n > LONGEST {
        return Next::Long;
    }
    match rest.split_at_checked(n) {
        Some((argument, rest)) => Next::Case(Case { op, argument }, rest),
        None => Next::Short,
    }
}

/// Little-endian fields, taken from the front of an argument; none where it is too short.
pub struct Fields<'a>(pub &'a [u8]);

impl<'a> Fields<'a> {
    pub fn take(&mut self, n: usize) -> Option<&'a [u8]> {
        let (front, rest) = self.0.split_at_checked(n)?;
        self.0 = rest;
        Some(front)
    }

    pub fn array<const N: usize>(&mut self) -> Option<[u8; N]> {
        self.take(N)?.try_into().ok()
    }

    pub fn u8(&mut self) -> Option<u8> {
        self.array().map(u8::from_le_bytes)
    }

    /// A truth value: any number but 0 counts as 1.
    pub fn flag(&mut self) -> Option<bool> {
        Some(self.u8()? != 0)
    }

    pub fn u16(&mut self) -> Option<u16> {
        self.array().map(u16::from_le_bytes)
    }

    /// A number in two's complement.
    pub fn i16(&mut self) -> Option<i16> {
        self.array().map(i16::from_le_bytes)
    }

    pub fn u32(&mut self) -> Option<u32> {
        self.array().map(u32::from_le_bytes)
    }

    pub fn u64(&mut self) -> Option<u64> {
        self.array().map(u64::from_le_bytes)
    }

    pub fn usize(&mut self) -> Option<usize> {
        usize::try_from(self.u64()?).ok()
    }

    pub fn rest(self) -> &'a [u8] {
        self.0
    }
}
