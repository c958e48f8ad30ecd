//! The error of a call that reads a text.
use alloc::collections::TryReserveError;
use alloc::string::String;
use core::fmt;

use crate::ffi::{Reading, REJECTED};

/// The reason why a text could not be read.
#[derive(Clone, Debug, PartialEq, Eq)]
#[non_exhaustive]
pub enum Error {
    /// The grammar rejects the text.
    #[non_exhaustive]
    Rejected {
        /// The number of the grammar rule that rejects the text, such as 1 for rule L1.
        rule: u32,
        /// The offset of the byte at which the token, comment or group that can't be read begins.
        at: usize,
        /// The text of the error.
        words: String,
    },
    /// An allocation failed.
    Memory,
    /// The linked library has another version, whose structs have a different layout.
    Version,
}

impl Error {
    pub(crate) fn new(reading: Reading, words: &str) -> Self {
        let mut copy = String::new();
        if reading.status != REJECTED || copy.try_reserve_exact(words.len()).is_err() {
            return Error::Memory;
        }
        copy.push_str(words);
        Error::Rejected { rule: reading.rule, at: reading.at, words: copy }
    }
}

impl From<TryReserveError> for Error {
    fn from(_: TryReserveError) -> Self {
        Error::Memory
    }
}

impl fmt::Display for Error {
    fn fmt(&self, f: &mut fmt::Formatter<'_>) -> fmt::Result {
        match self {
            Error::Rejected { rule, at, words } => write!(f, "{words} (L{rule}) at byte {at}"),
            Error::Memory => f.write_str("an allocation failed"),
            Error::Version => f.write_str("libsyn_tokens_c.a is of another version"),
        }
    }
}

#[cfg(feature = "std")]
impl std::error::Error for Error {}
