//! Sections and segments, each with the file that it belongs to.

use crate::batch::{one, Batch};
use crate::ffi;
#[cfg(feature = "alloc")]
use crate::SymbolMap;
use crate::constants::{SHT_NOBITS, SHT_NULL, SHT_RELA};
use crate::{ByteRange, Dynamic, ElfFile, Entry, Error, HashTable, Name, Notes, ProgramHeader, Relocation, SectionHeader, Symbol, SymbolTable, Symbols};
use core::fmt;
use core::ops::Deref;

/// A section; the fields of its header are its own.
#[derive(Clone, Copy)]
pub struct Section<'f, 'a> {
    pub(crate) file: &'f ElfFile<'a>,
    pub(crate) index: u64,
    pub(crate) header: SectionHeader,
}

impl fmt::Debug for Section<'_, '_> {
    fn fmt(&self, f: &mut fmt::Formatter<'_>) -> fmt::Result {
        let name = self.name().unwrap_or_default();
        f.debug_struct("Section").field("index", &self.index).field("name", &name).field("header", &self.header).finish_non_exhaustive()
    }
}

impl Deref for Section<'_, '_> {
    type Target = SectionHeader;

    fn deref(&self) -> &SectionHeader {
        &self.header
    }
}

impl<'f, 'a> Section<'f, 'a> {
    /// The index of the section.
    pub fn index(&self) -> u64 {
        self.index
    }

    /// Whether the header makes sense: whether the reader knows its type.
    pub fn check(&self) -> Result<(), Error> {
        ffi::check_section(self.file.input, &self.file.header, self.index)
    }

    /// The name of the section, whatever its type.
    pub fn name(&self) -> Result<&'a str, Error> {
        let names = ffi::names(self.file.input, &self.file.header)?;
        Ok(self.file.text(ffi::text(self.file.input, &names, u64::from(self.header.name))?))
    }

    /// The bytes of the section in the file: none for types NoBits and Null. An error for types that the reader doesn't know.
    pub fn data(&self) -> Result<&'a [u8], Error> {
        Ok(self.file.bytes(self.data_range()?))
    }

    fn data_range(&self) -> Result<ByteRange, Error> {
        if [SHT_NULL, SHT_NOBITS].contains(&self.header.type_) {
            return Ok(ByteRange::default());
        }
        ffi::section_data(self.file.input, &self.file.header, self.index)
    }

    /// The symbols of the section, from index 0 on; none if it has other data. An error if the table can't be read.
    pub fn symbols(&self) -> Result<Symbols<'f, 'a>, Error> {
        Symbols::new(self.file, self.index)
    }

    /// The symbol at an index; an error if the section has none there.
    pub fn symbol(&self, index: u64) -> Result<Symbol<'a>, Error> {
        Symbol::of_table(self.file, &self.symbol_table()?, index)
    }

    /// Puts the symbols from an index on to the front of `out`, as many as it has room for or all that follow, and
    /// says how many. An error if there is none at that index. It costs less than the iterator.
    pub fn symbols_from(&self, first: u64, out: &mut [Entry]) -> Result<usize, Error> {
        ffi::symbols(self.file.input, &self.symbol_table()?, first, out).map(|count| count as usize)
    }

    /// Puts the places of the names of the symbols from an index on to the front of `out`, as many as `symbols_from` gives,
    /// and says how many. It costs less than a call of `name` for each.
    pub fn symbol_names_from(&self, first: u64, out: &mut [Name]) -> Result<usize, Error> {
        ffi::symbol_names(self.file.input, &self.symbol_table()?, first, out).map(|count| count as usize)
    }

    /// The symbols of the section, found once for many calls of [`ElfFile::symbol_of`] and [`ElfFile::symbol_name_of`].
    pub fn symbol_table(&self) -> Result<SymbolTable, Error> {
        ffi::symbols_open(self.file.input, &self.file.header, self.index)
    }

    /// The symbols that name addresses in this section of an object file (ET_REL), whose values are offsets in it.
    #[cfg(feature = "alloc")]
    pub fn symbol_map(&self) -> Result<SymbolMap<'f, 'a>, Error> {
        SymbolMap::new(self.file, self.within())
    }

    // The section, as an index of symbols takes it. Index 0 would ask for the symbols of all sections; none is in this one,
    // nor in one with the index u32::MAX.
    #[cfg(feature = "alloc")]
    pub(crate) fn within(&self) -> u32 {
        u32::try_from(self.index).ok().filter(|index| *index != 0).unwrap_or(u32::MAX)
    }

    /// The hash table that the section is by its type.
    pub fn hash_table(&self) -> Option<HashTable<'f, 'a>> {
        HashTable::new(self.file, self.index, &self.header)
    }

    // How many records of so many bytes the data of the section is, by what a call for none of them returned; none of other
    // data. In class 32 each number has half its size.
    fn count_of(&self, said: Result<usize, Error>, size: u64) -> Result<u64, Error> {
        let size = if self.file.is_64() { size } else { size / 2 };
        if unless_other(said)?.is_none() {
            return Ok(0);
        }
        Ok(self.data_range()?.size / size)
    }

    /// The relocations of the section; none if it has other data. An error if the table can't be read.
    pub fn relocations(&self) -> Result<impl ExactSizeIterator<Item = Relocation> + 'f, Error> {
        let (file, section) = (self.file, self.index);
        let count = self.count_of(self.relocations_from(0, &mut []), if self.header.type_ == SHT_RELA { 24 } else { 16 })?;
        Ok(Batch::<Relocation, 64>::counted(count, move |first, out| ffi::relocations(file.input, &file.header, section, first, out)))
    }

    /// The relocation at an index; an error if the section has none there.
    pub fn relocation(&self, index: u64) -> Result<Relocation, Error> {
        one(|out| ffi::relocations(self.file.input, &self.file.header, self.index, index, out))
    }

    /// Puts the relocations from an index on to the front of `out`, as many as it has room for or all that follow, and
    /// says how many. An error if there is none at that index.
    pub fn relocations_from(&self, first: u64, out: &mut [Relocation]) -> Result<usize, Error> {
        ffi::relocations(self.file.input, &self.file.header, self.index, first, out).map(|count| count as usize)
    }

    /// The addresses in the packed relative relocations of the section; none if it is of another type than SHT_RELR (19). An
    /// error if they can't be read.
    pub fn packed_relocations(&self) -> Result<impl Iterator<Item = u64> + 'f, Error> {
        let (file, section) = (self.file, self.index);
        unless_other(ffi::packed_relocations(file.input, &file.header, section, 0, &mut []))?;
        Ok(Batch::<u64, 64>::items(move |first, out| ffi::packed_relocations(file.input, &file.header, section, first, out)))
    }

    /// The dynamic entries of the section, those after the entry of tag 0 too; none if it has other data. An error if the
    /// table can't be read.
    pub fn dynamic(&self) -> Result<impl ExactSizeIterator<Item = Dynamic> + 'f, Error> {
        let (file, section) = (self.file, self.index);
        let count = self.count_of(self.dynamic_from(0, &mut []), 16)?;
        Ok(Batch::<Dynamic, 32>::counted(count, move |first, out| ffi::dynamics(file.input, &file.header, section, first, out)))
    }

    /// The dynamic entry at an index; an error if the section has none there.
    pub fn dynamic_entry(&self, index: u64) -> Result<Dynamic, Error> {
        one(|out| ffi::dynamics(self.file.input, &self.file.header, self.index, index, out))
    }

    /// Puts the dynamic entries from an index on to the front of `out`, as many as it has room for or all that follow,
    /// and says how many. An error if there is none at that index.
    pub fn dynamic_from(&self, first: u64, out: &mut [Dynamic]) -> Result<usize, Error> {
        ffi::dynamics(self.file.input, &self.file.header, self.index, first, out).map(|count| count as usize)
    }

    /// The text that begins at an index of the data of the section, in bytes, as of a string table.
    pub fn text(&self, index: u64) -> Result<&'a str, Error> {
        Ok(self.file.text(ffi::text(self.file.input, &self.data_range()?, index)?))
    }

    /// The notes that the data of the section is.
    pub fn notes(&self) -> Result<Notes<'f, 'a>, Error> {
        Ok(Notes::new(self.file, self.data_range()?, self.header.align))
    }
}

// What a call for records of a section returned; none if the section has other data, by its type.
pub(crate) fn unless_other<T>(said: Result<T, Error>) -> Result<Option<T>, Error> {
    match said {
        Ok(found) => Ok(Some(found)),
        Err(Error::OtherData | Error::InvalidShType | Error::Note32 | Error::NoRecord) => Ok(None),
        Err(error) => Err(error),
    }
}

// How many of `count` records can be read, of a table that is cut off somewhere: all up to one.
fn readable(count: u64, is_read: impl Fn(u64) -> bool) -> u64 {
    if count == 0 || is_read(count - 1) {
        return count;
    }
    let (mut read, mut unread) = (0, count - 1);
    while read < unread {
        let middle = read + (unread - read) / 2;
        if is_read(middle) {
            read = middle + 1;
        } else {
            unread = middle;
        }
    }
    read
}

/// The sections of a file in order, which it asks the archive for by many at once.
#[derive(Clone)]
pub struct Sections<'f, 'a> {
    file: &'f ElfFile<'a>,
    count: u64,
    batch: Batch<SectionHeader, 16>,
}

impl fmt::Debug for Sections<'_, '_> {
    fn fmt(&self, f: &mut fmt::Formatter<'_>) -> fmt::Result {
        f.debug_struct("Sections").field("left", &self.len()).finish_non_exhaustive()
    }
}

impl<'f, 'a> Sections<'f, 'a> {
    pub(crate) fn new(file: &'f ElfFile<'a>) -> Sections<'f, 'a> {
        let count = readable(file.section_count().unwrap_or(0), |index| file.section(index).is_ok());
        Sections { file, count, batch: Batch::new() }
    }
}

impl ExactSizeIterator for Sections<'_, '_> {}

impl<'f, 'a> Iterator for Sections<'f, 'a> {
    type Item = Section<'f, 'a>;

    #[inline]
    fn next(&mut self) -> Option<Section<'f, 'a>> {
        let file = self.file;
        let (index, header) = self.batch.next(|first, out| ffi::sections(file.input, &file.header, first, out))?;
        Some(Section { file, index, header })
    }

    fn size_hint(&self) -> (usize, Option<usize>) {
        self.batch.left(self.count)
    }
}

/// The segments of a file in order, which it asks the archive for by many at once.
#[derive(Clone)]
pub struct Segments<'f, 'a> {
    file: &'f ElfFile<'a>,
    count: u64,
    batch: Batch<ProgramHeader, 8>,
}

impl fmt::Debug for Segments<'_, '_> {
    fn fmt(&self, f: &mut fmt::Formatter<'_>) -> fmt::Result {
        f.debug_struct("Segments").field("left", &self.len()).finish_non_exhaustive()
    }
}

impl<'f, 'a> Segments<'f, 'a> {
    pub(crate) fn new(file: &'f ElfFile<'a>) -> Segments<'f, 'a> {
        let count = readable(file.segment_count().unwrap_or(0).into(), |index| file.segment(index as u32).is_ok());
        Segments { file, count, batch: Batch::new() }
    }
}

impl ExactSizeIterator for Segments<'_, '_> {}

impl<'f, 'a> Iterator for Segments<'f, 'a> {
    type Item = Segment<'f, 'a>;

    #[inline]
    fn next(&mut self) -> Option<Segment<'f, 'a>> {
        let file = self.file;
        let (index, header) = self.batch.next(|first, out| ffi::segments(file.input, &file.header, first, out))?;
        Some(Segment { file, index: index as u32, header })
    }

    fn size_hint(&self) -> (usize, Option<usize>) {
        self.batch.left(self.count)
    }
}

/// A segment; the fields of its header are its own.
#[derive(Clone, Copy)]
pub struct Segment<'f, 'a> {
    pub(crate) file: &'f ElfFile<'a>,
    pub(crate) index: u32,
    pub(crate) header: ProgramHeader,
}

impl fmt::Debug for Segment<'_, '_> {
    fn fmt(&self, f: &mut fmt::Formatter<'_>) -> fmt::Result {
        f.debug_struct("Segment").field("index", &self.index).field("header", &self.header).finish_non_exhaustive()
    }
}

impl Deref for Segment<'_, '_> {
    type Target = ProgramHeader;

    fn deref(&self) -> &ProgramHeader {
        &self.header
    }
}

impl<'f, 'a> Segment<'f, 'a> {
    /// The index of the segment.
    pub fn index(&self) -> u32 {
        self.index
    }

    /// Whether the header makes sense over the input: `PhSizeMismatch`, `EntryPointRange` where the segment doesn't end before
    /// the input does, `InvalidPhType`, `ShLibUsed`, and `BadAlign` where address and offset differ modulo the alignment.
    pub fn check(&self) -> Result<(), Error> {
        ffi::check_segment(self.file.input, &self.file.header, self.index)
    }

    /// The data of the segment.
    pub fn data(&self) -> Result<&'a [u8], Error> {
        Ok(self.file.bytes(self.data_range()?))
    }

    fn data_range(&self) -> Result<ByteRange, Error> {
        ffi::segment_data(self.file.input, &self.file.header, self.index)
    }

    /// The notes that the data of the segment is.
    pub fn notes(&self) -> Result<Notes<'f, 'a>, Error> {
        Ok(Notes::new(self.file, self.data_range()?, self.header.align))
    }
}
