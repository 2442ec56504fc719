//! The two added writers of document 01, point 7: a value's frame, or refusal 6 where the reader cannot give it;
//! then refusal 4 where the buffer is too short.

use super::families::{ACK_BIT, COMMAND, REPORT};

/// Refusal: a value that the reader can't give.
const UNREADABLE: u8 = 6;
/// Refusal: the output is shorter than the frame.
const TOO_SMALL: u8 = 4;

/// A writer's answer: the refusal (0 for none), and the bytes written or needed.
pub struct Written {
    pub refusal: u8,
    pub count: usize,
}

/// Puts a value's frame at the front of the buffer; the bytes after it, and a buffer that is refused, stay.
pub fn put(frame: Option<Vec<u8>>, buffer: &mut [u8]) -> Written {
    let Some(frame) = frame else {
        return Written { refusal: UNREADABLE, count: 0 };
    };
    let count = frame.len();
    match buffer.get_mut(..count) {
        Some(front) => {
            front.copy_from_slice(&frame);
            Written { refusal: 0, count }
        }
        None => Written { refusal: TOO_SMALL, count },
    }
}

pub struct ReportValue {
    pub state: u8,
    pub moving_distance_cm: u16,
    pub moving_energy: u8,
    pub stationary_distance_cm: u16,
    pub stationary_energy: u8,
    pub detection_distance_cm: u16,
    pub engineering: bool,
    pub moving_gates: u8,
    pub stationary_gates: u8,
    pub moving_energies: [u8; 9],
    pub stationary_energies: [u8; 9],
    pub extra: [u8; 8],
    pub extra_len: u8,
}

impl ReportValue {
    /// The report frame, or none for a value that the reader can't give.
    pub fn frame(&self) -> Option<Vec<u8>> {
        let (data_type, block) = if self.engineering { (1, self.block()?) } else { (2, self.no_block()?) };
        let mut data = vec![data_type, 0xAA, self.state];
        data.extend(self.moving_distance_cm.to_le_bytes());
        data.push(self.moving_energy);
        data.extend(self.stationary_distance_cm.to_le_bytes());
        data.push(self.stationary_energy);
        data.extend(self.detection_distance_cm.to_le_bytes());
        data.extend(block);
        data.extend([0x55, 0x00]);
        Some(REPORT.frame(&data))
    }

    fn block(&self) -> Option<Vec<u8>> {
        let moving = counted(&self.moving_energies, self.moving_gates)?;
        let stationary = counted(&self.stationary_energies, self.stationary_gates)?;
        let reserved = counted(&self.extra, self.extra_len)?;
        let max_moving = self.moving_gates.checked_sub(1)?;
        let max_stationary = self.stationary_gates.checked_sub(1)?;
        Some([&[max_moving, max_stationary], moving, stationary, reserved].concat())
    }

    /// With the flag off each per-gate field is 0, and nothing is written.
    fn no_block(&self) -> Option<Vec<u8>> {
        let numbers = [self.moving_gates, self.stationary_gates, self.extra_len];
        let arrays = [&self.moving_energies[..], &self.stationary_energies, &self.extra];
        (all_zero(&numbers) && arrays.into_iter().all(all_zero)).then(Vec::new)
    }
}

/// The first `count` entries; none where there are not so many, or an entry past them is not 0.
fn counted(entries: &[u8], count: u8) -> Option<&[u8]> {
    let (used, past) = entries.split_at_checked(count.into())?;
    all_zero(past).then_some(used)
}

fn all_zero(bytes: &[u8]) -> bool {
    bytes.iter().all(|&byte| byte == 0)
}

pub struct AckValue<'a> {
    pub word: u16,
    pub ok: bool,
    pub status: u16,
    pub payload: &'a [u8],
}

impl AckValue<'_> {
    /// The acknowledgement frame, or none for a value that the reader can't give or a payload above 50 bytes.
    pub fn frame(&self) -> Option<Vec<u8>> {
        let readable = self.ok == (self.status == 0) && self.word & ACK_BIT == 0;
        if !readable || self.payload.len() > 50 {
            return None;
        }
        let mut data = (self.word | ACK_BIT).to_le_bytes().to_vec();
        data.extend(self.status.to_le_bytes());
        data.extend(self.payload);
        Some(COMMAND.frame(&data))
    }
}
