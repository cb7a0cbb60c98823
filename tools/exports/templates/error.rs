//! The errors of the archive. Written by tools/exports/declarations.py.

/// Why a file, or a part of it, can't be read.
#[derive(Clone, Copy, Debug, PartialEq, Eq, Hash)]
#[non_exhaustive]
pub enum Error {
@VARIANTS@
    /// A status that this crate doesn't know: the archive is of another version.
    Unknown(u32),
}

impl Error {
    /// The error with this number, which isn't 0.
    pub(crate) fn of(status: u32) -> Error {
        match status {
@ERRORS@
            other => Error::Unknown(other),
        }
    }

    /// The number of the error.
    pub fn status(&self) -> u32 {
        match self {
@NUMBERS@
            Error::Unknown(status) => *status,
        }
    }
}

// How many bytes the longest text has.
pub(crate) const LONGEST: usize = @LONGEST@;
