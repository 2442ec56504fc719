//! A script of docs/REPLAY.md: a row of calls on one parser.

use crate::case::Fields;

#[derive(Clone, Copy)]
pub enum Call<'a> {
    Feed(u8),
    Slice(&'a [u8]),
    Reset,
}

impl Call<'_> {
    pub fn write(&self, script: &mut Vec<u8>) {
        match *self {
            Self::Feed(byte) => script.extend([0, byte]),
            Self::Slice(bytes) => {
                let length = u16::try_from(bytes.len()).expect("a slice is at most 65,535 bytes");
                script.push(1);
                script.extend(length.to_le_bytes());
                script.extend(bytes);
            }
            Self::Reset => script.push(2),
        }
    }
}

/// The calls of a script, up to one that it cuts short.
pub fn calls(script: &[u8]) -> impl Iterator<Item = Call<'_>> {
    let mut fields = Fields(script);
    std::iter::from_fn(move || match fields.u8()? {
        0 => fields.u8().map(Call::Feed),
        1 => {
            let length = fields.u16()?;
            fields.take(length.into()).map(Call::Slice)
        }
        2 => Some(Call::Reset),
        _ => None,
    })
    .fuse()
}

/// The script of these calls.
pub fn script(calls: &[Call<'_>]) -> Vec<u8> {
    let mut bytes = Vec::new();
    for call in calls {
        call.write(&mut bytes);
    }
    bytes
}
