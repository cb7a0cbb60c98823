//! The symbols of addresses.

use crate::constants::*;
use crate::dynamic::no_dynamic;
use crate::ranges::checked;
use crate::records::{AddressIndex, FoundAt};
use crate::{ffi, ByteRange, ElfFile, Error, Section, Symbol, SymbolTable};
use alloc::vec;
use alloc::vec::Vec;
use core::ops::Deref;

/// The symbol of an address, which it dereferences to.
#[derive(Clone, Copy, Debug)]
pub struct SymbolAt<'a> {
    symbol: Symbol<'a>,
    offset: u64,
}

impl<'a> Deref for SymbolAt<'a> {
    type Target = Symbol<'a>;

    fn deref(&self) -> &Symbol<'a> {
        &self.symbol
    }
}

impl SymbolAt<'_> {
    /// The address less the value of the symbol.
    pub fn offset(&self) -> u64 {
        self.offset
    }
}

/// The symbols of a file by their addresses: the index of the archive, and its words and numbers.
///
/// It has the symbols of the section of type SHT_SYMTAB, or else of SHT_DYNSYM, or else of the dynamic segment, that name
/// addresses: they are in a section, are functions, objects or of no type, and have a name; labels that assemblers make
/// and mapping symbols are left out. A symbol covers the addresses `value .. value + size`, and one of size 0 its value.
#[derive(Clone)]
pub struct SymbolMap<'f, 'a> {
    file: &'f ElfFile<'a>,
    index: AddressIndex,
    words: Vec<u32>,
    numbers: Vec<u64>,
}

impl core::fmt::Debug for SymbolMap<'_, '_> {
    fn fmt(&self, f: &mut core::fmt::Formatter<'_>) -> core::fmt::Result {
        f.debug_struct("SymbolMap").field("len", &self.len()).finish_non_exhaustive()
    }
}

// The section with the symbols of a file, if there is one.
fn section_with_symbols<'f, 'a>(file: &'f ElfFile<'a>) -> Result<Option<Section<'f, 'a>>, Error> {
    let sections = file.sections()?;
    let of_type = |type_| sections.clone().find(|section| section.type_ == type_);
    Ok(of_type(SHT_SYMTAB).or_else(|| of_type(SHT_DYNSYM)))
}

// The table of the symbols of a section, or else of the dynamic segment; none if the file has neither.
fn table_of(file: &ElfFile<'_>, section: Option<Section<'_, '_>>) -> Result<Option<SymbolTable>, Error> {
    match section.map_or_else(|| file.dynamic_symbol_table(), |section| section.symbol_table()) {
        // A symbol without a name names no address.
        Ok(table) => checked(table.strings_status).map(|()| Some(table)),
        Err(error) => no_dynamic(file, error).map(|()| None),
    }
}

// The range of the section indices that need more than 16 bits.
fn indices_of(file: &ElfFile<'_>, section: Option<Section<'_, '_>>) -> ByteRange {
    let is_of = |one: &Section<'_, '_>, symbols: &Section<'_, '_>| one.type_ == SHT_SYMTAB_SHNDX && u64::from(one.link) == symbols.index();
    let found = section.and_then(|symbols| file.readable_sections().find(|one| is_of(one, &symbols)));
    found.map_or(ByteRange::default(), |indices| ByteRange { offset: indices.offset, size: indices.size })
}

// The symbols of a file, and the range of their section indices that need more than 16 bits; none if the file has no symbols.
pub(crate) fn address_symbols(file: &ElfFile<'_>) -> Result<Option<(SymbolTable, ByteRange)>, Error> {
    let section = section_with_symbols(file)?;
    Ok(table_of(file, section)?.map(|table| (table, indices_of(file, section))))
}

// The symbols of a file, or of one of its sections alone, and how many words and numbers an index of them takes; none if the
// file has no symbols.
pub(crate) fn asked_index(file: &ElfFile<'_>, within: u32) -> Result<AddressIndex, Error> {
    match address_symbols(file)? {
        Some((table, indices)) => ffi::address_index(file.input(), file.header(), &table, &indices, within, &mut [], &mut []),
        None => Ok(AddressIndex::default()),
    }
}

// The index of these symbols, with its words and numbers.
fn index_of(file: &ElfFile<'_>, within: u32) -> Result<(AddressIndex, Vec<u32>, Vec<u64>), Error> {
    let asked = asked_index(file, within)?;
    if asked == AddressIndex::default() {
        return Ok((asked, Vec::new(), Vec::new()));
    }
    let (mut words, mut numbers) = (vec![0; asked.words as usize], vec![0; asked.numbers as usize]);
    let index = ffi::address_index(file.input(), file.header(), &asked.table, &asked.indices, within, &mut words, &mut numbers)?;
    Ok((index, words, numbers))
}

impl<'f, 'a> SymbolMap<'f, 'a> {
    pub(crate) fn new(file: &'f ElfFile<'a>, within: u32) -> Result<SymbolMap<'f, 'a>, Error> {
        let (index, words, numbers) = index_of(file, within)?;
        Ok(SymbolMap { file, index, words, numbers })
    }

    /// The number of symbols in the map.
    pub fn len(&self) -> usize {
        (self.index.sized_count + self.index.open_count) as usize
    }

    /// Whether the map has no symbol.
    pub fn is_empty(&self) -> bool {
        self.len() == 0
    }

    /// The innermost symbol that covers an address: one with a size before others, then the one that begins last, the
    /// smallest, a function before an object, a global one before a weak one before a local one, and the first of the
    /// table.
    pub fn symbol_at(&self, address: u64) -> Option<SymbolAt<'a>> {
        let mut found = [FoundAt::default()];
        ffi::symbols_at(self.file.input(), &self.index, &self.words, &self.numbers, &[address], &mut found).ok()?;
        self.of(&found[0])
    }

    /// The symbols of many addresses, in their order, by one call of the archive.
    pub fn symbols_at(&self, addresses: &[u64]) -> Vec<Option<SymbolAt<'a>>> {
        let mut found = vec![FoundAt::default(); addresses.len()];
        // The ranges were found in this input, so there is no error.
        let _ = ffi::symbols_at(self.file.input(), &self.index, &self.words, &self.numbers, addresses, &mut found);
        found.iter().map(|one| self.of(one)).collect()
    }

    /// The symbol of `symbol_at`.
    pub fn get(&self, address: u64) -> Option<Symbol<'a>> {
        self.symbol_at(address).map(|found| found.symbol)
    }

    fn of(&self, found: &FoundAt) -> Option<SymbolAt<'a>> {
        let symbol = Symbol::of_entry(self.file, &self.index.table, found.index, found.symbol);
        (found.found != 0).then_some(SymbolAt { symbol, offset: found.offset })
    }
}
