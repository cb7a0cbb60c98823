//! The symbols of a section.

use crate::batch::Batch;
use crate::items::unless_other;
use crate::ranges::checked;
use crate::{ffi, ByteRange, ElfFile, Entry, Error, SymbolTable};
use core::fmt;
use core::ops::Deref;

// The bytes of the string table of symbols that were found.
fn strings_of<'a>(file: &ElfFile<'a>, table: &SymbolTable) -> Result<&'a [u8], Error> {
    checked(table.strings_status).map(|()| file.bytes(table.strings))
}

/// A symbol; its numbers are its own.
#[derive(Clone, Copy)]
pub struct Symbol<'a> {
    strings: Result<&'a [u8], Error>,
    index: u64,
    entry: Entry,
}

impl fmt::Debug for Symbol<'_> {
    fn fmt(&self, f: &mut fmt::Formatter<'_>) -> fmt::Result {
        f.debug_struct("Symbol").field("index", &self.index).field("name", &self.name()).field("entry", &self.entry).finish_non_exhaustive()
    }
}

impl Deref for Symbol<'_> {
    type Target = Entry;

    fn deref(&self) -> &Entry {
        &self.entry
    }
}

impl<'a> Symbol<'a> {
    // The symbol at an index of a table.
    pub(crate) fn of_table(file: &ElfFile<'a>, table: &SymbolTable, index: u64) -> Result<Symbol<'a>, Error> {
        Ok(Symbol::of_entry(file, table, index, file.symbol_of(table, index)?))
    }

    // The symbol at an index of a table, with its numbers.
    pub(crate) fn of_entry(file: &ElfFile<'a>, table: &SymbolTable, index: u64, entry: Entry) -> Symbol<'a> {
        Symbol { strings: strings_of(file, table), index, entry }
    }

    /// The index of the symbol in its table.
    pub fn index(&self) -> u64 {
        self.index
    }

    /// The name of the symbol, in the string table that its section is linked to.
    pub fn name(&self) -> Result<&'a str, Error> {
        Ok(core::str::from_utf8(self.name_bytes()?).unwrap_or_default())
    }

    /// The bytes of the name, which are UTF-8; the errors are those of `name`. Rust doesn't test them again.
    pub fn name_bytes(&self) -> Result<&'a [u8], Error> {
        let (strings, range) = (self.strings?, self.name_range()?);
        Ok(range.bytes_in(strings))
    }

    /// Where the name is in the string table that the symbol's section is linked to; the errors are those of `name`.
    pub fn name_range(&self) -> Result<ByteRange, Error> {
        let strings = self.strings?;
        let whole = ByteRange { offset: 0, size: strings.len() as u64 };
        ffi::text(strings, &whole, u64::from(self.entry.name))
    }
}

/// The symbols of a section in order, which it asks the archive for by many at once.
#[derive(Clone)]
pub struct Symbols<'f, 'a> {
    file: &'f ElfFile<'a>,
    table: SymbolTable,
    strings: Result<&'a [u8], Error>,
    batch: Batch<Entry, 64>,
}

impl<'f, 'a> Symbols<'f, 'a> {
    pub(crate) fn new(file: &'f ElfFile<'a>, section: u64) -> Result<Symbols<'f, 'a>, Error> {
        let table = unless_other(ffi::symbols_open(file.input, &file.header, section))?.unwrap_or_default();
        Ok(Symbols { file, table, strings: strings_of(file, &table), batch: Batch::new() })
    }
}

impl fmt::Debug for Symbols<'_, '_> {
    fn fmt(&self, f: &mut fmt::Formatter<'_>) -> fmt::Result {
        f.debug_struct("Symbols").field("left", &self.len()).finish_non_exhaustive()
    }
}

impl ExactSizeIterator for Symbols<'_, '_> {}

impl<'a> Iterator for Symbols<'_, 'a> {
    type Item = Symbol<'a>;

    #[inline]
    fn next(&mut self) -> Option<Symbol<'a>> {
        let (file, table) = (self.file, &self.table);
        let (index, entry) = self.batch.next(|first, out| ffi::symbols(file.input, table, first, out))?;
        Some(Symbol { strings: self.strings, index, entry })
    }

    fn size_hint(&self) -> (usize, Option<usize>) {
        self.batch.left(self.table.count)
    }
}
