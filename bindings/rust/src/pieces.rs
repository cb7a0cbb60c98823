//! Which bytes of a file belong to what, and which addresses of a section to which symbol.

use crate::constants::ET_REL;
use crate::records;
use crate::symbol_map::asked_index;
use crate::{ffi, ElfFile, Error, Section, Symbol};
use alloc::vec;
use alloc::vec::Vec;

/// What a piece of a file belongs to.
#[derive(Clone, Copy, Debug, PartialEq, Eq, Hash)]
pub enum Owner {
    /// The ELF header.
    ElfHeader,
    /// The program header table.
    ProgramHeaders,
    /// The section header table.
    SectionHeaders,
    /// The section at this index.
    Section(u64),
    /// The segment at this index, and no section.
    Segment(u64),
    /// Nothing, and a part begins after it.
    Between,
    /// Nothing, and no part begins after it.
    Behind,
}

/// A longest run of bytes of a file that belong to one part.
#[derive(Clone, Copy, Debug, PartialEq, Eq, Hash)]
pub struct Piece {
    /// The offset of the first byte.
    pub begin: u64,
    /// The offset after the last byte.
    pub end: u64,
    /// What the bytes belong to.
    pub owner: Owner,
}

/// A longest run of addresses of a section in one symbol, or in none.
#[derive(Clone, Copy, Debug)]
pub struct SymbolPiece<'a> {
    /// The first address; in an object file the offset in the section.
    pub begin: u64,
    /// The address after the last.
    pub end: u64,
    /// The symbol.
    pub symbol: Option<Symbol<'a>>,
}

// The number of a symbol among the owners of the archive.
pub(crate) const SYMBOL: u32 = 7;

impl Piece {
    fn of(piece: records::Piece) -> Piece {
        let owner = match piece.owner {
            0 => Owner::ElfHeader,
            1 => Owner::ProgramHeaders,
            2 => Owner::SectionHeaders,
            3 => Owner::Section(piece.index),
            4 => Owner::Segment(piece.index),
            5 => Owner::Between,
            _ => Owner::Behind,
        };
        Piece { begin: piece.begin, end: piece.end, owner }
    }
}

// The pieces that a call stores, which returns their number: it is asked again if there was too little room.
pub(crate) fn stored(room: usize, mut ask: impl FnMut(&mut [records::Piece]) -> Result<u64, Error>) -> Vec<records::Piece> {
    let mut pieces = vec![records::Piece::default(); room];
    // Of words that the archive has counted there are not too few.
    let mut count = ask(&mut pieces).unwrap_or(0) as usize;
    if count > room {
        pieces.resize(count, records::Piece::default());
        count = ask(&mut pieces).unwrap_or(0) as usize;
    }
    pieces.truncate(count);
    pieces
}

impl<'a> ElfFile<'a> {
    /// Which bytes belong to what, in the order of their offsets. Every byte is in exactly one piece, so the sizes sum to the
    /// size of the file. A byte that several parts cover belongs to a header before a section before a segment, and of
    /// several sections or segments to the one that begins last, then the smallest, then the first. It allocates 24 bytes
    /// for each section and segment, and 32 for each piece.
    pub fn pieces(&self) -> impl ExactSizeIterator<Item = Piece> {
        let needed = ffi::pieces(self.input, &self.header, 0, &mut [], &mut [], &mut []).map_or((0, 0), |sizes| (sizes.words, sizes.numbers));
        let (mut words, mut numbers) = (vec![0; needed.0 as usize], vec![0; needed.1 as usize]);
        let found = stored(words.len() + 7, |out| Ok(ffi::pieces(self.input, &self.header, 0, &mut words, &mut numbers, out)?.count));
        found.into_iter().map(Piece::of)
    }
}

impl<'f, 'a> Section<'f, 'a> {
    /// Which addresses of the section belong to which symbol: that of [`crate::SymbolMap::symbol_at`], of the symbols of the
    /// section, if its size is not 0. Every address is in exactly one piece. It allocates 24 bytes for each symbol of the
    /// section, and 32 for each piece. An error if the symbols can't be read; of a file without symbols all is in none. It
    /// passes over all symbols of the file: for many sections use [`ElfFile::section_symbols`].
    pub fn symbol_pieces(&self) -> Result<impl ExactSizeIterator<Item = SymbolPiece<'a>> + 'f, Error> {
        let file = self.file;
        let begin = if file.header.type_ == ET_REL { 0 } else { self.header.address };
        let end = begin.saturating_add(self.header.size);
        let index = asked_index(file, self.within())?;
        let (mut words, mut numbers) = (vec![0; index.words as usize], vec![0; index.numbers as usize]);
        let found = stored(words.len() + 1, |out| ffi::symbol_pieces(file.input, &index, begin, end, 0, &mut words, &mut numbers, out));
        Ok(found.into_iter().map(move |piece| {
            let symbol = if piece.owner == SYMBOL { Symbol::of_table(file, &index.table, piece.index).ok() } else { None };
            SymbolPiece { begin: piece.begin, end: piece.end, symbol }
        }))
    }
}
