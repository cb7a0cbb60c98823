//! A reader of ELF files that lie in a byte slice, over the proved static library `elf_c`.
//!
//! Every slice and text is a part of the input. No call panics or fails otherwise, whatever the bytes are, and none but
//! `symbol_map`, `pieces`, `symbol_pieces`, `section_symbols`, `debug_paths` and `fortified` of [`ElfFile`] and [`Section`],
//! [`size_changes`] and [`size_diff`] allocate. Every result of the archive is proved;
//! this crate, which slices the input at the ranges that the archive returns, is tested.
//!
//! Numbers of headers, symbols and entries are fields, with the names of the standard in [`constants`]; `get_type` and
//! its like give them as enums.
//!
//! ```
//! # fn main() -> Result<(), xmas_elf_proved::Error> {
//! let bytes = std::fs::read("/proc/self/exe").unwrap_or_default();
//! let file = xmas_elf_proved::ElfFile::new(&bytes)?;
//! for section in file.sections()? {
//!     for symbol in section.symbols()? {
//!         println!("{:016x} {}", symbol.value, symbol.name()?);
//!     }
//! }
//! if let Some(symbol) = file.find_symbol("main", None)? {
//!     println!("{:#x}", symbol.value);
//! }
//! # Ok(())
//! # }
//! ```
#![no_std]
#![deny(unsafe_code)]
#![deny(unsafe_op_in_unsafe_fn)]
#![warn(missing_docs)]

#[cfg(feature = "alloc")]
extern crate alloc;

mod batch;
#[cfg(test)]
mod calls;
pub mod constants;
mod debug_files;
#[cfg(feature = "alloc")]
mod differences;
mod dynamic;
mod error;
// The calls of the archive, and nothing else: slices and texts are taken by safe code. Some serve tests alone.
#[allow(unsafe_code, dead_code)]
mod ffi;
mod hardening;
mod hash;
pub mod header;
mod items;
mod borrowed;
mod load_plan;
mod message;
mod notes;
#[cfg(feature = "alloc")]
mod pieces;
pub mod program;
mod process;
mod ranges;
mod records;
mod relocations;
pub mod search;
pub mod sections;
#[cfg(feature = "alloc")]
mod section_symbols;
#[cfg(feature = "alloc")]
mod symbol_map;
pub mod symbol_table;
mod symbols;
#[cfg(test)]
mod tests;
mod versions;

use batch::one;

pub use debug_files::{debug_crc, DebugHow};
#[cfg(feature = "alloc")]
pub use differences::{size_changes, size_diff, Part, PartChange};
pub use error::Error;
pub use hardening::{Hardening, Pie, Relro};
#[cfg(feature = "alloc")]
pub use hardening::Fortified;
pub use hash::HashTable;
pub use items::{Section, Sections, Segment, Segments};
pub use load_plan::{Contents, LoadPlan, Loader};
pub use message::Message;
pub use notes::{Note, Notes};
pub use process::{check_image, relocate, relocate_all, Binding, ObjectError};
pub use records::Range as ByteRange;
pub use ranges::LookUp;
pub use records::{Answer, Dynamic, Entry, Header, LoadObject, Mapping, Name, ProgramHeader, Relocation, SectionHeader, SizeChange, SizePart, Span, SymbolTable, TlsTemplate, Version};
#[cfg(feature = "alloc")]
pub use pieces::{Owner, Piece, SymbolPiece};
#[cfg(feature = "alloc")]
pub use section_symbols::SectionSymbols;
#[cfg(feature = "alloc")]
pub use symbol_map::{SymbolAt, SymbolMap};
pub use dynamic::{DynamicSymbol, DynamicSymbols};
pub use symbols::{Symbol, Symbols};
pub use versions::{SymbolVersion, VersionKind};

/// An ELF file: its bytes, and its header.
#[derive(Clone, Copy)]
pub struct ElfFile<'a> {
    input: &'a [u8],
    header: Header,
}

impl core::fmt::Debug for ElfFile<'_> {
    fn fmt(&self, f: &mut core::fmt::Formatter<'_>) -> core::fmt::Result {
        f.debug_struct("ElfFile").field("size", &self.input.len()).field("header", &self.header).finish_non_exhaustive()
    }
}

impl<'a> ElfFile<'a> {
    /// The file that these bytes are.
    pub fn new(input: &'a [u8]) -> Result<ElfFile<'a>, Error> {
        Ok(ElfFile { input, header: ffi::open(input)? })
    }

    /// The bytes of the file.
    pub fn input(&self) -> &'a [u8] {
        self.input
    }

    /// The ELF header.
    pub fn header(&self) -> &Header {
        &self.header
    }

    /// Whether the header makes sense over the input: its size, class, version and byte order, and whether the tables of
    /// headers end inside the input. It doesn't read the tables.
    pub fn check_header(&self) -> Result<(), Error> {
        ffi::check_header(self.input, &self.header)
    }

    /// Whether the file is of class 64.
    pub fn is_64(&self) -> bool {
        self.header.class == 2
    }

    /// How many sections the file says that it has.
    pub fn section_count(&self) -> Result<u64, Error> {
        Ok(ffi::counts(self.input, &self.header)?.sections)
    }

    /// How many segments the file says that it has.
    pub fn segment_count(&self) -> Result<u32, Error> {
        Ok(ffi::counts(self.input, &self.header)?.segments)
    }

    /// The section at an index.
    pub fn section(&self, index: u64) -> Result<Section<'_, 'a>, Error> {
        Ok(Section { file: self, index, header: ffi::section(self.input, &self.header, index)? })
    }

    /// The sections in order. An error if one of them can't be read.
    pub fn sections(&self) -> Result<Sections<'_, 'a>, Error> {
        let (count, sections) = (self.section_count()?, self.readable_sections());
        let first_cut = sections.len() as u64;
        // A count that needs more than 16 bits is in the header of section 0, which may be missing.
        let is_whole = first_cut == count && (count > 0 || self.header.sh_offset == 0);
        if is_whole { Ok(sections) } else { self.section(first_cut).map(|_| sections) }
    }

    /// The sections in order, up to the first that can't be read: of a damaged file, fewer than `section_count` says.
    pub fn readable_sections(&self) -> Sections<'_, 'a> {
        Sections::new(self)
    }

    /// Puts the section headers from an index on to the front of `out`, as many as it has room for or all that follow, and
    /// says how many. An error if `sections` has none at that index.
    pub fn sections_from(&self, first: u64, out: &mut [SectionHeader]) -> Result<usize, Error> {
        ffi::sections(self.input, &self.header, first, out).map(|count| count as usize)
    }

    /// Puts the places of the names of the sections from an index on to the front of `out`, as many as it has room for or
    /// all that follow, and says how many. An error if `sections` has none at that index. It costs less than a call
    /// of `name` for each.
    pub fn section_names_from(&self, first: u64, out: &mut [Name]) -> Result<usize, Error> {
        ffi::section_names(self.input, &self.header, first, out).map(|count| count as usize)
    }

    /// The text at a name's place.
    pub fn name_of(&self, name: &Name) -> Result<&'a str, Error> {
        Ok(self.text(name.range()?))
    }

    /// The first section with this name, if there is one. An error if there is none and a section can't be read.
    pub fn section_by_name(&self, name: &str) -> Result<Option<Section<'_, 'a>>, Error> {
        self.section_index_by_name(name)?.map(|index| self.section(index)).transpose()
    }

    /// The index of the first section with this name, whatever its type but Null, if there is one.
    pub fn section_index_by_name(&self, name: &str) -> Result<Option<u64>, Error> {
        let known = ffi::find_section_index(self.input, &self.header, name.as_bytes()).ok();
        // The archive finds no section of a type that it doesn't know.
        let of_other_type = |section: &Section<'_, 'a>| !matches!(section.get_type(), Ok(known) if known != sections::ShType::Relr);
        let is_named = |section: &Section<'_, 'a>| of_other_type(section) && section.name() == Ok(name);
        let other = self.readable_sections().find(is_named).map(|section| section.index());
        match known.into_iter().chain(other).min() {
            Some(index) => Ok(Some(index)),
            None if self.sections()?.len() == 0 => Ok(None),
            None => ffi::names(self.input, &self.header).map(|_| None),
        }
    }

    /// The header of the first section with this name; the error is `NotFound` if there is none.
    pub fn section_header_by_name(&self, name: &str) -> Result<SectionHeader, Error> {
        self.section_by_name(name)?.map(|section| *section).ok_or(Error::NotFound)
    }

    /// The index of the section with the names of sections; an error if the file names none.
    pub fn names_index(&self) -> Result<u32, Error> {
        ffi::names_index(self.input, &self.header)
    }

    /// The segment at an index.
    pub fn segment(&self, index: u32) -> Result<Segment<'_, 'a>, Error> {
        Ok(Segment { file: self, index, header: ffi::segment(self.input, &self.header, index)? })
    }

    /// The segments in order. An error if one of them can't be read.
    pub fn segments(&self) -> Result<Segments<'_, 'a>, Error> {
        let (count, segments) = (self.segment_count()?, self.readable_segments());
        let first_cut = segments.len() as u32;
        if first_cut == count { Ok(segments) } else { self.segment(first_cut).map(|_| segments) }
    }

    /// The segments in order, up to the first that can't be read: of a damaged file, fewer than `segment_count` says.
    pub fn readable_segments(&self) -> Segments<'_, 'a> {
        Segments::new(self)
    }

    /// Puts the program headers from an index on to the front of `out`, as many as it has room for or all that follow, and
    /// says how many. An error if `segments` has none at that index.
    pub fn segments_from(&self, first: u64, out: &mut [ProgramHeader]) -> Result<usize, Error> {
        ffi::segments(self.input, &self.header, first, out).map(|count| count as usize)
    }

    /// The symbol at an index of a table that [`Section::symbol_table`] or [`ElfFile::dynamic_symbol_table`] found in this
    /// file. It costs less than [`Section::symbol`], which finds the table in each call.
    pub fn symbol_of(&self, table: &SymbolTable, index: u64) -> Result<Entry, Error> {
        one(|out| ffi::symbols(self.input, table, index, out))
    }

    /// The name of the symbol at an index of such a table.
    pub fn symbol_name_of(&self, table: &SymbolTable, index: u64) -> Result<&'a str, Error> {
        self.name_of(&one(|out| ffi::symbol_names(self.input, table, index, out))?)
    }

    /// The bytes that the file has for so many addresses from one on: those of the last segment of type PT_LOAD that has
    /// them all. It needs no section header.
    pub fn bytes_at(&self, address: u64, count: u64) -> Result<&'a [u8], Error> {
        Ok(self.bytes(ffi::bytes_at(self.input, &self.header, address, count)?))
    }

    /// The first hash table of symbols among the sections: GNU's, or else the gABI's.
    pub fn hash_table(&self) -> Result<Option<HashTable<'_, 'a>>, Error> {
        let sections = self.sections()?;
        let first = |gnu| sections.clone().filter_map(|section| section.hash_table()).find(|table| table.is_gnu() == gnu);
        Ok(first(true).or_else(|| first(false)))
    }

    /// The symbols of the file by their addresses: an index that is built once for many addresses. It allocates 8 bytes for
    /// each of them. In an object file (ET_REL) values are offsets in sections: see [`Section::symbol_map`].
    #[cfg(feature = "alloc")]
    pub fn symbol_map(&self) -> Result<SymbolMap<'_, 'a>, Error> {
        SymbolMap::new(self, 0)
    }

    /// The symbols of the file by section, for the pieces of many sections. It allocates the sizes of the symbol table and its
    /// string table, and 8 bytes for each symbol.
    #[cfg(feature = "alloc")]
    pub fn section_symbols(&self) -> Result<SectionSymbols<'_, 'a>, Error> {
        SectionSymbols::new(self)
    }

    /// The plan of a load: what Linux and glibc put where, or why there is none, as of some files that they load
    /// ([`ElfFile::loads`]). Pages have 4096 bytes, and the addresses that a loader may use end where those of Linux end: on
    /// x86-64, on AArch64 for its files, and on 386 for a file of class 32.
    pub fn load_plan(&self) -> Result<LoadPlan<'_, 'a>, Error> {
        self.load_plan_with(0, 0)
    }

    /// The plan of a load with another size of a page, a power of two, and another end of the addresses; 0 means those
    /// of [`ElfFile::load_plan`].
    pub fn load_plan_with(&self, page: u64, limit: u64) -> Result<LoadPlan<'_, 'a>, Error> {
        LoadPlan::new(self, page, limit)
    }

    pub(crate) fn bytes(&self, range: ByteRange) -> &'a [u8] {
        range.bytes_in(self.input)
    }

    pub(crate) fn text(&self, range: ByteRange) -> &'a str {
        range.text_in(self.input)
    }
}

// The program of the README is built and run as a test.
#[cfg(all(doctest, feature = "alloc"))]
#[doc = include_str!("../README.md")]
struct Readme;
