//! The text of an error, which the archive has.

use crate::error::LONGEST;
use crate::{ffi, Error};
use core::fmt;
use core::ops::Deref;

/// The text of an error.
#[derive(Clone, Copy)]
pub struct Message {
    bytes: [u8; LONGEST],
    size: usize,
}

impl Error {
    /// The text of the error.
    pub fn message(&self) -> Message {
        let mut bytes = [0; LONGEST];
        let size = ffi::message(self.status(), &mut bytes);
        Message { bytes, size }
    }
}

impl Deref for Message {
    type Target = str;

    fn deref(&self) -> &str {
        let text = self.bytes.get(..self.size).and_then(|bytes| core::str::from_utf8(bytes).ok());
        text.filter(|text| !text.is_empty()).unwrap_or("Unknown status")
    }
}

impl fmt::Display for Message {
    fn fmt(&self, f: &mut fmt::Formatter<'_>) -> fmt::Result {
        f.pad(self)
    }
}

impl fmt::Debug for Message {
    fn fmt(&self, f: &mut fmt::Formatter<'_>) -> fmt::Result {
        fmt::Debug::fmt(&**self, f)
    }
}

impl fmt::Display for Error {
    fn fmt(&self, f: &mut fmt::Formatter<'_>) -> fmt::Result {
        f.pad(&self.message())
    }
}

impl core::error::Error for Error {}
