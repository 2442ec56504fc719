//! The two frame families of document 01, and a frame around data.

pub struct Family {
    pub header: [u8; 4],
    pub tail: [u8; 4],
}

pub const REPORT: Family = Family { header: [0xF4, 0xF3, 0xF2, 0xF1], tail: [0xF8, 0xF7, 0xF6, 0xF5] };

pub const COMMAND: Family = Family { header: [0xFD, 0xFC, 0xFB, 0xFA], tail: [0x04, 0x03, 0x02, 0x01] };

/// Bytes of a frame that are not data: header, length, tail.
pub const FRAMING: usize = 4 + 2 + 4;

/// The bit that an acknowledgement sets in the word.
pub const ACK_BIT: u16 = 0x0100;

impl Family {
    /// The whole frame of these data.
    pub fn frame(&self, data: &[u8]) -> Vec<u8> {
        let length = u16::try_from(data.len()).expect("data are at most 65,535 bytes");
        [&self.header[..], &length.to_le_bytes(), data, &self.tail].concat()
    }

    /// The data of a whole frame by F1 to F4; none where one of them fails.
    pub fn data<'a>(&self, bytes: &'a [u8]) -> Option<&'a [u8]> {
        let after_header = bytes.strip_prefix(&self.header)?;
        let (&length, rest) = after_header.split_first_chunk::<2>()?;
        let (data, tail) = rest.split_at_checked(u16::from_le_bytes(length).into())?;
        (tail == self.tail).then_some(data)
    }
}
