//! The symbols of a file by section, for the pieces of many sections.

use crate::constants::ET_REL;
use crate::pieces::{stored, SymbolPiece, SYMBOL};
use crate::records::{AddressIndex, Piece};
use crate::symbol_map::address_symbols;
use crate::{ffi, ByteRange, ElfFile, Error, Section, Symbol, SymbolTable};
use alloc::vec;
use alloc::vec::Vec;

// The section of the symbol is the word at its index in another section (SHN_XINDEX).
const WIDE_INDEX: u32 = 0xffff;

/// The symbols of a file by section: a copy of their table in which those of each section lie one after the other, so that the
/// pieces of a section take no pass over the symbols of others.
#[derive(Clone)]
pub struct SectionSymbols<'f, 'a> {
    file: &'f ElfFile<'a>,
    table: SymbolTable,
    input: Vec<u8>,
    // The section and the index of each symbol of the copy.
    order: Vec<(u32, u32)>,
    has_indices: bool,
    strings: ByteRange,
}

impl core::fmt::Debug for SectionSymbols<'_, '_> {
    fn fmt(&self, f: &mut core::fmt::Formatter<'_>) -> core::fmt::Result {
        f.debug_struct("SectionSymbols").field("len", &self.order.len()).finish_non_exhaustive()
    }
}

// The number in 2 or 4 bytes.
fn number(bytes: &[u8], big: bool) -> u32 {
    crate::dynamic::number(bytes, big) as u32
}

// The bytes in a range of the input.
fn part<'a>(input: &'a [u8], range: &ByteRange) -> Result<&'a [u8], Error> {
    let (start, size) = (range.offset as usize, range.size as usize);
    input.get(start..).and_then(|rest| rest.get(..size)).ok_or(Error::DataRange)
}

impl<'f, 'a> SectionSymbols<'f, 'a> {
    pub(crate) fn new(file: &'f ElfFile<'a>) -> Result<SectionSymbols<'f, 'a>, Error> {
        let (table, indices) = address_symbols(file)?.unwrap_or_default();
        let (symbols, words) = (part(file.input, &table.symbols)?, part(file.input, &indices)?);
        if words.len() % 4 != 0 {
            return Err(Error::NotMultiple);
        }
        let (size, place, big) = if table.class == 1 { (16, 14, table.encoding == 2) } else { (24, 6, table.encoding == 2) };
        let section_of = |(index, symbol): (usize, &[u8])| {
            let section = number(&symbol[place..place + 2], big);
            let wide = words.chunks_exact(4).nth(index).map_or(0, |word| number(word, big));
            (if section == WIDE_INDEX { wide } else { section }, index as u32)
        };
        let mut order: Vec<_> = symbols.chunks_exact(size).enumerate().map(section_of).collect();
        order.sort_unstable();
        let at = |from: &'a [u8], size: usize, index: u32| from.chunks_exact(size).nth(index as usize);
        let mut input: Vec<u8> = order.iter().flat_map(|one| at(symbols, size, one.1).unwrap_or(&[])).copied().collect();
        if !words.is_empty() {
            input.extend(order.iter().flat_map(|one| at(words, 4, one.1).unwrap_or(&[0; 4])));
        }
        let strings = ByteRange { offset: input.len() as u64, size: table.strings.size };
        input.extend(part(file.input, &table.strings)?);
        Ok(SectionSymbols { file, table, input, order, has_indices: !words.is_empty(), strings })
    }

    // The bytes of the string table of the symbols.
    pub(crate) fn strings(&self) -> &'a [u8] {
        self.file.bytes(self.table.strings)
    }

    /// Which addresses of a section of the file belong to which symbol, as in [`Section::symbol_pieces`].
    pub fn pieces(&self, section: &Section<'_, '_>) -> Result<Vec<SymbolPiece<'a>>, Error> {
        let begin = if self.file.header.type_ == ET_REL { 0 } else { section.header.address };
        let end = begin.saturating_add(section.header.size);
        let found = self.found(section.within(), begin, end);
        let symbol_of = |symbol: (u64, u32)| Symbol::of_table(self.file, &self.table, symbol.0).ok();
        Ok(found.iter().map(|(piece, symbol)| SymbolPiece { begin: piece.begin, end: piece.end, symbol: symbol.and_then(symbol_of) }).collect())
    }

    // The pieces of addresses of a section, with the index of each symbol in the table and that of its name.
    pub(crate) fn found(&self, within: u32, begin: u64, end: u64) -> Vec<(Piece, Option<(u64, u32)>)> {
        let first = self.order.partition_point(|one| one.0 < within);
        let count = self.order[first..].partition_point(|one| one.0 == within);
        let size = if self.table.class == 1 { 16 } else { 24 };
        let range = |start: usize, size: usize| ByteRange { offset: (start + first * size) as u64, size: (count * size) as u64 };
        let index = AddressIndex {
            table: SymbolTable { symbols: range(0, size), strings: self.strings, count: count as u64, ..self.table },
            indices: if self.has_indices { range(self.order.len() * size, 4) } else { ByteRange::default() },
            within,
            machine: self.file.header.machine,
            ..AddressIndex::default()
        };
        let (mut words, mut numbers) = (vec![0; 2 * count], vec![0; 2 * count]);
        let found = stored(2 * count + 1, |out| ffi::symbol_pieces(&self.input, &index, begin, end, 0, &mut words, &mut numbers, out));
        let symbol_of = |piece: &Piece| {
            let place = first + piece.index as usize;
            let index = self.order.get(place).filter(|_| piece.owner == SYMBOL)?.1;
            let name = number(self.input.get(place * size..place * size + 4)?, self.table.encoding == 2);
            Some((u64::from(index), name))
        };
        found.into_iter().map(|piece| (piece, symbol_of(&piece))).collect()
    }
}
