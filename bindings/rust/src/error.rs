//! Why a call is refused.

use std::fmt;

/// Why a call was refused. The map is as it was before.
#[derive(Clone, Copy, Debug, PartialEq, Eq)]
pub enum Error {
    /// The key is new, and the map has as many pairs as it may.
    Full,
    /// Memory was refused.
    NoMemory,
}

impl fmt::Display for Error {
    fn fmt(&self, f: &mut fmt::Formatter<'_>) -> fmt::Result {
        f.write_str(match self {
            Error::Full => "the key is new and the map is full",
            Error::NoMemory => "out of memory",
        })
    }
}

impl std::error::Error for Error {}
