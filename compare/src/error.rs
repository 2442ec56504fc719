//! Stand-in for the crate `rusty_esp_core` that the original imports and that is not given: `Error` with the four
//! meanings of document 01's table, and `Result`.

pub mod prelude {
    /// Why a call was refused.
    #[derive(Debug, Clone, Copy, PartialEq, Eq)]
    pub enum Error {
        InvalidFormat,
        Unsupported,
        Hardware,
        BufferTooSmall { needed: usize },
    }

    pub type Result<T> = core::result::Result<T, Error>;
}
