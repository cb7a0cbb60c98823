//! What the structs of the archive contain: ranges, and the names and look-ups that have a status of their own.

use crate::{Answer, ByteRange, Error, Name, SymbolTable};

/// The result of a look-up.
#[derive(Clone, Copy, Debug, Default, PartialEq, Eq)]
pub struct LookUp {
    /// 1 where a symbol is found, and else 0.
    pub found: u32,
    /// The index of the symbol, or 0.
    pub index: u32,
    /// The number of chain entries that the look-up read.
    pub looked_at: u32,
}

impl From<core::ops::Range<usize>> for ByteRange {
    fn from(range: core::ops::Range<usize>) -> ByteRange {
        ByteRange { offset: range.start as u64, size: range.len() as u64 }
    }
}

impl ByteRange {
    // The bytes of a range that the archive returned, which lies in the input.
    pub(crate) fn bytes_in(self, input: &[u8]) -> &[u8] {
        let start = self.offset as usize;
        input.get(start..start.saturating_add(self.size as usize)).unwrap_or_default()
    }

    // The text of a range that the archive returned as one.
    pub(crate) fn text_in(self, input: &[u8]) -> &str {
        core::str::from_utf8(self.bytes_in(input)).unwrap_or_default()
    }
}

pub(crate) fn checked(status: u32) -> Result<(), Error> {
    match status {
        0 => Ok(()),
        status => Err(Error::of(status)),
    }
}

impl Name {
    /// The range of the name in the file, without the zero byte that ends it, or its error.
    pub fn range(&self) -> Result<ByteRange, Error> {
        checked(self.status).map(|()| self.range)
    }
}

impl SymbolTable {
    /// The number of symbols.
    pub fn len(&self) -> u64 {
        self.count
    }

    /// Whether there are none.
    pub fn is_empty(&self) -> bool {
        self.count == 0
    }
}

impl Answer {
    /// The result of the look-up, or its error.
    pub fn look_up(&self) -> Result<LookUp, Error> {
        let Answer { status, found, index, looked_at } = *self;
        checked(status).map(|()| LookUp { found, index, looked_at })
    }

    /// The index of the symbol that the look-up found, or none.
    pub fn index(&self) -> Result<Option<u32>, Error> {
        self.look_up().map(|said| (said.found != 0).then_some(said.index))
    }
}
