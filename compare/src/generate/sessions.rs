//! What station scripts are made of: every session, reached by right events from closed, and every kind of bytes that a
//! station may get in it.

use super::acks::ack_data;
use crate::model::families::{ACK_BIT, COMMAND};
use crate::oracle::commands::command;
use crate::published;
use crate::station::Script;

pub const ENABLE: [u8; 6] = [0, 0, 0, 0, 0, 0];
pub const END: [u8; 6] = [1, 0, 0, 0, 0, 0];
pub const RESTART: [u8; 6] = [9, 0, 0, 0, 0, 0];
pub const ENGINEERING_ON: [u8; 6] = [4, 1, 0, 0, 0, 0];

/// Commands of every word that a session waits for, on and off, of one gate and of all; each is one of COMMANDS.
pub const ASKED: [[u8; 6]; 13] = [
    [2, 8, 8, 5, 0, 0],
    [3, 0, 0, 0, 0, 0],
    ENGINEERING_ON,
    [4, 0, 0, 0, 0, 0],
    [5, 0, 3, 40, 41, 0],
    [5, 1, 0, 40, 40, 0],
    [6, 0, 0, 0, 0, 0],
    [7, 8, 0, 0, 0, 0],
    [8, 0, 0, 0, 0, 0],
    RESTART,
    [10, 0, 0, 0, 0, 0],
    [10, 1, 0, 0, 0, 0],
    [11, 0, 0, 0, 0, 0],
];

pub const ENABLE_WORD: u16 = 0x00FF;
pub const END_WORD: u16 = 0x00FE;
pub const RESTART_WORD: u16 = 0x00A3;
pub const ENGINEERING_ON_WORD: u16 = 0x0062;

/// Enough for every command.
const ENOUGH: u8 = 30;

/// The frame of an acknowledgement.
pub fn ack(word: u16, status: u16, payload: &[u8]) -> Vec<u8> {
    COMMAND.frame(&ack_data(word | ACK_BIT, status, payload))
}

/// The acknowledgement of success that is published for a word; for another word one without a payload.
pub fn success(word: u16) -> Vec<u8> {
    let sent = (word | ACK_BIT).to_le_bytes();
    let mut published = published::ACKS.iter().map(|text| published::bytes(text));
    published.find(|frame| frame[6..8] == sent).unwrap_or(ack(word, 0, &[]))
}

pub fn failure(word: u16) -> Vec<u8> {
    ack(word, 1, &[])
}

impl Script {
    /// Sends a command into a buffer that is long enough.
    pub fn ask(self, command: [u8; 6]) -> Self {
        self.send(command, ENOUGH, 0xA5)
    }

    pub fn succeed(self, word: u16) -> Self {
        self.hand(&success(word))
    }

    pub fn fail(self, word: u16) -> Self {
        self.hand(&failure(word))
    }
}

pub fn opening() -> Script {
    Script::default().ask(ENABLE)
}

pub fn open() -> Script {
    opening().succeed(ENABLE_WORD)
}

pub fn waiting(command: [u8; 6]) -> Script {
    open().ask(command)
}

pub fn closing() -> Script {
    open().ask(END)
}

/// Every session: every wait, and closed and open ones reached in every manner.
pub fn sessions() -> Vec<Script> {
    [waits(), closed_sessions(), open_sessions()].concat()
}

/// Sessions that are opening, from closed and from open, waiting for every word, and closing.
pub fn waits() -> Vec<Script> {
    let mut all = vec![opening(), open().ask(ENABLE), closing()];
    all.extend(ASKED.map(waiting));
    all
}

pub fn closed_sessions() -> Vec<Script> {
    vec![
        Script::default(),
        opening().fail(ENABLE_WORD),
        open().ask(ENABLE).fail(ENABLE_WORD),
        closing().succeed(END_WORD),
        waiting(RESTART).succeed(RESTART_WORD),
        opening().give_up(),
        waiting(ENGINEERING_ON).give_up(),
        closing().give_up(),
    ]
}

pub fn open_sessions() -> Vec<Script> {
    vec![
        open(),
        open().ask(ENABLE).succeed(ENABLE_WORD),
        closing().fail(END_WORD),
        waiting(RESTART).fail(RESTART_WORD),
        waiting(ENGINEERING_ON).succeed(ENGINEERING_ON_WORD),
        waiting(ENGINEERING_ON).fail(ENGINEERING_ON_WORD),
    ]
}

/// Every kind of bytes that a station may get while a word is awaited.
pub fn kinds_of_bytes(word: u16) -> Vec<Vec<u8>> {
    let mut all = awaited_acks(word);
    all.extend(other_frames(word));
    all.extend(no_frames(word));
    all
}

/// Acknowledgements with the word: success and failure, payloads published, empty, short and with surplus.
pub fn awaited_acks(word: u16) -> Vec<Vec<u8>> {
    let right = success(word);
    let payload = &published::data(&right)[4..];
    vec![
        right.clone(),
        ack(word, 0, &[]),
        ack(word, 0, &[1]),
        ack(word, 0, &[payload, &[0; 3]].concat()),
        failure(word),
        ack(word, 0x0100, payload),
    ]
}

/// Acknowledgements with another word, and reports.
pub fn other_frames(word: u16) -> Vec<Vec<u8>> {
    // Engineering mode on and off, and EnableConfig and EndConfig, have words that differ in this bit.
    let other = word ^ 1;
    let [basic, _, engineering] = published::REPORTS.map(published::bytes);
    vec![success(other), failure(other), ack(word ^ 0x8000, 0, &[]), basic, engineering]
}

/// Bytes that are no frame: cut, with a bad tail, with flipped bits, empty, and with the ACK bit clear.
pub fn no_frames(word: u16) -> Vec<Vec<u8>> {
    let right = success(word);
    let flipped = |at: usize| {
        let mut bytes = right.clone();
        bytes[at] ^= 0x10;
        bytes
    };
    let cut = right[..right.len() - 1].to_vec();
    let host = COMMAND.frame(&word.to_le_bytes());
    let host_with_status = COMMAND.frame(&ack_data(word, 0, &[]));
    vec![cut, flipped(right.len() - 1), flipped(0), flipped(4), Vec::new(), host, host_with_status]
}

/// Lengths of a buffer around the frame's.
pub fn lengths_around(numbers: [u8; 6]) -> [u8; 5] {
    let frame = command(numbers).map_or(12, |command| command.encoded_len() as u8);
    [0, frame - 1, frame, frame + 1, 255]
}
