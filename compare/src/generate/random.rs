//! A small seeded generator (SplitMix64), and the draws that the cases are made of.

/// Bytes that mean something on the link, or stand next to one that does.
const MEANINGFUL_BYTES: [u8; 40] = [
    0x00, 0x01, 0x02, 0x03, 0x04, 0x05, 0x07, 0x08, 0x09, 0x0A, 0x0D, 0x23, 0x35, 0x36, 0x37, 0x54, 0x55, 0x56, 0x60,
    0x61, 0x64, 0x65, 0x7F, 0x80, 0xA0, 0xA5, 0xA9, 0xAA, 0xAB, 0xF1, 0xF2, 0xF3, 0xF4, 0xF5, 0xF8, 0xFA, 0xFB, 0xFC,
    0xFD, 0xFF,
];

pub struct Random(u64);

impl Random {
    /// Each op has its own row of numbers, whichever ops are compared.
    pub fn new(seed: u64, op: u8) -> Self {
        let mut random = Self(seed);
        random.0 = random.next() ^ u64::from(op);
        random
    }

    pub fn next(&mut self) -> u64 {
        self.0 = self.0.wrapping_add(0x9E37_79B9_7F4A_7C15);
        let mut mixed = self.0;
        mixed = (mixed ^ (mixed >> 30)).wrapping_mul(0xBF58_476D_1CE4_E5B9);
        mixed = (mixed ^ (mixed >> 27)).wrapping_mul(0x94D0_49BB_1331_11EB);
        mixed ^ (mixed >> 31)
    }

    /// A number below `limit`, which is not 0.
    pub fn below(&mut self, limit: usize) -> usize {
        ((u128::from(self.next()) * limit as u128) >> 64) as usize
    }

    pub fn between(&mut self, least: usize, most: usize) -> usize {
        least + self.below(most - least + 1)
    }

    /// True once in so many draws.
    pub fn once_in(&mut self, draws: usize) -> bool {
        self.below(draws) == 0
    }

    pub fn pick<T: Copy>(&mut self, choices: &[T]) -> T {
        choices[self.below(choices.len())]
    }

    pub fn any_byte(&mut self) -> u8 {
        self.next() as u8
    }

    /// Half the time a byte that means something.
    pub fn byte(&mut self) -> u8 {
        if self.once_in(2) {
            self.pick(&MEANINGFUL_BYTES)
        } else {
            self.any_byte()
        }
    }

    pub fn bytes(&mut self, count: usize) -> Vec<u8> {
        (0..count).map(|_| self.byte()).collect()
    }

    pub fn array<const N: usize>(&mut self) -> [u8; N] {
        std::array::from_fn(|_| self.byte())
    }

    pub fn u16(&mut self) -> u16 {
        u16::from_le_bytes(self.array())
    }

    /// A number of bytes from 300 up to `most`, small ones more often than large ones.
    pub fn large_length(&mut self, most: usize) -> usize {
        let bits = self.between(9, 16);
        self.between(300, (1 << bits).clamp(300, most))
    }
}
