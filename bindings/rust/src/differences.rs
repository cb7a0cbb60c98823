//! The difference of the sizes of two files.

use crate::constants::{ET_REL, SHT_SYMTAB};
use crate::pieces::{Owner, Piece, SYMBOL};
use crate::records::{SizeChange, SizePart};
use crate::{ffi, ElfFile, Error, SectionSymbols};
use alloc::collections::BTreeMap;
use alloc::vec;
use alloc::vec::Vec;

/// A part of a file.
#[derive(Clone, Copy, Debug, PartialEq, Eq, Hash)]
pub enum Part {
    /// What a piece of the file belongs to.
    Owner(Owner),
    /// The symbol at this index of the symbol table.
    Symbol(u64),
}

/// A part whose size differs in two files.
#[derive(Clone, Copy, Debug, PartialEq, Eq, Hash)]
pub struct PartChange<'a> {
    /// The bytes of the name of the section or the symbol; else none.
    pub name: &'a [u8],
    /// The part of the old file, if it is there.
    pub old: Option<Part>,
    /// The part of the new file, if it is there.
    pub new: Option<Part>,
    /// The number of bytes in the old file.
    pub old_size: u64,
    /// The number of bytes in the new file.
    pub new_size: u64,
}

impl<'a> SizePart<'a> {
    /// A part of a kind, as the caller numbers kinds, with its name, its place in the file and its number of bytes.
    pub fn new(kind: u64, name: &'a [u8], place: u64, size: u64) -> SizePart<'a> {
        SizePart { name: name.into(), kind, place, size }
    }

    /// The place of the part.
    pub fn place(&self) -> u64 {
        self.place
    }
}

/// The differences of the parts of two files, the greatest first; each part is in exactly one. The n-th part of a kind and a
/// name of the old file, by the places, is matched with the n-th of the new one. Both lists are sorted by kind, name and
/// place, and the indices in the changes are those of the sorted lists. It allocates 40 bytes for each part.
pub fn size_changes(old: &mut [SizePart<'_>], new: &mut [SizePart<'_>]) -> Vec<SizeChange> {
    let mut changes = vec![SizeChange::default(); old.len() + new.len()];
    // There is room for all.
    let count = ffi::size_changes(old, new, &mut changes).unwrap_or(0);
    changes.truncate(count as usize);
    changes
}

// The number of a part among those of a file, and of its kind: as `elfsize` has them.
fn place_of(part: &Part) -> u64 {
    match part {
        Part::Owner(Owner::Section(index)) => 4 * index,
        Part::Owner(Owner::Segment(index)) => 4 * index + 1,
        Part::Symbol(index) => 4 * index + 2,
        Part::Owner(Owner::ElfHeader) => 3,
        Part::Owner(Owner::ProgramHeaders) => 7,
        Part::Owner(Owner::SectionHeaders) => 11,
        Part::Owner(Owner::Between) => 15,
        Part::Owner(Owner::Behind) => 19,
    }
}

fn part_at(place: u64) -> Part {
    match (place % 4, place / 4) {
        (0, index) => Part::Owner(Owner::Section(index)),
        (1, index) => Part::Owner(Owner::Segment(index)),
        (2, index) => Part::Symbol(index),
        (_, 0) => Part::Owner(Owner::ElfHeader),
        (_, 1) => Part::Owner(Owner::ProgramHeaders),
        (_, 2) => Part::Owner(Owner::SectionHeaders),
        (_, 3) => Part::Owner(Owner::Between),
        _ => Part::Owner(Owner::Behind),
    }
}

fn kind_at(place: u64) -> u64 {
    if place % 4 == 3 { 3 + place / 4 } else { place % 4 }
}

// The bytes up to a zero, or a question mark.
fn text_at(strings: &[u8], index: u32) -> &[u8] {
    let rest = strings.get(index as usize..).unwrap_or(&[]);
    rest.iter().position(|byte| *byte == 0).map_or(b"?", |end| &rest[..end])
}

// The parts of a file by their places: their sizes and their names.
type Sized<'a> = BTreeMap<u64, (u64, &'a [u8])>;

struct Parts<'f, 'a> {
    file: &'f ElfFile<'a>,
    symbols: Option<SectionSymbols<'f, 'a>>,
    strings: &'a [u8],
    sized: Sized<'a>,
}

impl<'f, 'a> Parts<'f, 'a> {
    fn of(file: &'f ElfFile<'a>, with_symbols: bool) -> Result<Sized<'a>, Error> {
        // A section header table that is cut off has no symbols.
        let has_symtab = with_symbols && file.sections().is_ok_and(|mut all| all.any(|one| one.type_ == SHT_SYMTAB));
        let symbols = if has_symtab { Some(file.section_symbols()?) } else { None };
        let names = ffi::names(file.input, &file.header);
        let strings = names.map_or(&file.input[..0], |range| range.bytes_in(file.input));
        let mut parts = Parts { file, symbols, strings, sized: Sized::new() };
        for piece in file.pieces() {
            parts.add_piece(&piece)?;
        }
        Ok(parts.sized)
    }

    fn add(&mut self, part: Part, size: u64, name: &'a [u8]) {
        if size != 0 {
            self.sized.entry(place_of(&part)).or_insert((0, name)).0 += size;
        }
    }

    // The bytes of a piece; those of a section by symbol.
    fn add_piece(&mut self, piece: &Piece) -> Result<(), Error> {
        let (own, size) = (Part::Owner(piece.owner), piece.end - piece.begin);
        let Owner::Section(index) = piece.owner else {
            self.add(own, size, b"");
            return Ok(());
        };
        let header = ffi::section(self.file.input, &self.file.header, index)?;
        let name = text_at(self.strings, header.name);
        let Some(symbols) = &self.symbols else {
            self.add(own, size, name);
            return Ok(());
        };
        let start = if self.file.header.type_ == ET_REL { 0 } else { header.address };
        let at = |offset: u64| start.saturating_add(offset.saturating_sub(header.offset));
        let (begin, end) = (at(piece.begin), at(piece.end));
        let (found, strings) = (symbols.found(index as u32, begin, end), symbols.strings());
        for (one, symbol) in &found {
            match symbol {
                Some(symbol) if one.owner == SYMBOL => self.add(Part::Symbol(symbol.0), one.end - one.begin, text_at(strings, symbol.1)),
                _ => self.add(own, one.end - one.begin, name),
            }
        }
        self.add(own, size - (end - begin), name);
        Ok(())
    }
}

fn rows<'a>(sized: &Sized<'a>) -> Vec<SizePart<'a>> {
    sized.iter().map(|(place, (size, name))| SizePart::new(kind_at(*place), name, *place, *size)).collect()
}

/// The parts of two files whose sizes differ, the greatest difference first: sections, segments, the headers and what is in no
/// part, and with `with_symbols` the symbols of `.symtab`. Parts are matched by kind and name, as in [`size_changes`]; segments
/// have no names. A file whose section headers can't all be read has no sections and no symbols there. The differences sum to
/// the difference of the sizes of the files.
pub fn size_diff<'a>(old: &ElfFile<'a>, new: &ElfFile<'a>, with_symbols: bool) -> Result<Vec<PartChange<'a>>, Error> {
    let (old, new) = (Parts::of(old, with_symbols)?, Parts::of(new, with_symbols)?);
    let (mut olds, mut news) = (rows(&old), rows(&new));
    let changes = size_changes(&mut olds, &mut news);
    let change_of = |row: &SizeChange| {
        let before = olds.get(row.old_index as usize).filter(|_| row.files != 1).map(SizePart::place);
        let after = news.get(row.new_index as usize).filter(|_| row.files != 0).map(SizePart::place);
        let name = after.map_or_else(|| before.and_then(|place| old.get(&place)), |place| new.get(&place)).map_or(&b""[..], |it| it.1);
        PartChange { name, old: before.map(part_at), new: after.map(part_at), old_size: row.old_size, new_size: row.new_size }
    };
    Ok(changes.iter().filter(|row| row.old_size != row.new_size).map(change_of).collect())
}
