//! What the dynamic segment says: needed libraries, symbols and versions. None of it needs section headers.

use crate::batch::{one, Batch};
use crate::constants::{DT_NEEDED, DT_NULL, DT_RPATH, DT_RUNPATH, DT_SONAME, SHT_DYNAMIC};
use crate::{ffi, Dynamic, ElfFile, Entry, Error, Name, SymbolTable, SymbolVersion, Version};
use core::fmt;
use core::ops::Deref;

// Whether a list can be read, by what a call for none of its records returned. A file without it has an empty list.
pub(crate) fn begun(file: &ElfFile<'_>, said: Result<u64, Error>) -> Result<(), Error> {
    match said {
        Ok(_) | Err(Error::NoRecord | Error::NotFound) => Ok(()),
        Err(error) => no_dynamic(file, error),
    }
}

// An error that is none if it says that there is no dynamic segment, and all program headers can be read.
pub(crate) fn no_dynamic(file: &ElfFile<'_>, error: Error) -> Result<(), Error> {
    match error {
        Error::LinkNoDynamic => file.segments().map(|_| ()),
        error => Err(error),
    }
}

impl<'a> ElfFile<'a> {
    /// The names of the libraries that the file needs, in the order of the dynamic entries (DT_NEEDED); none if it has no
    /// dynamic segment. They are read 64 at a time, each time from the first entry on: the time grows with the square of the
    /// number of entries.
    pub fn needed(&self) -> Result<impl Iterator<Item = Result<&'a str, Error>> + '_, Error> {
        begun(self, ffi::dynamic_texts(self.input, &self.header, DT_NEEDED, 0, &mut []))?;
        let names = Batch::<Name, 64>::items(|first, out| ffi::dynamic_texts(self.input, &self.header, DT_NEEDED, first, out));
        Ok(names.map(|name| self.name_of(&name)))
    }

    /// The name of the file as a library (DT_SONAME), if it has one.
    pub fn soname(&self) -> Result<Option<&'a str>, Error> {
        self.dynamic_text(DT_SONAME)
    }

    /// The folders where the dynamic linker looks for the libraries that the file needs (DT_RUNPATH, or else DT_RPATH), if
    /// it names any.
    pub fn run_path(&self) -> Result<Option<&'a str>, Error> {
        match self.dynamic_text(DT_RUNPATH)? {
            Some(folders) => Ok(Some(folders)),
            None => self.dynamic_text(DT_RPATH),
        }
    }

    // The text that the first dynamic entry with a tag names, if there is one.
    pub(crate) fn dynamic_text(&self, tag: u64) -> Result<Option<&'a str>, Error> {
        match one(|out| ffi::dynamic_texts(self.input, &self.header, tag, 0, out)) {
            Ok(name) => self.name_of(&name).map(Some),
            Err(Error::NoRecord) => Ok(None),
            Err(error) => no_dynamic(self, error).map(|()| None),
        }
    }

    /// The dynamic entries up to that of tag 0 (DT_NULL), which is the last: those of the section of type SHT_DYNAMIC, or
    /// else of the segment of type PT_DYNAMIC. None if the file has neither.
    pub fn dynamic(&self) -> Result<impl Iterator<Item = Dynamic> + '_, Error> {
        let section = self.sections()?.find(|section| section.type_ == SHT_DYNAMIC);
        let of_segment = if section.is_none() { Some(self.entries_of_segment()?) } else { None };
        let of_section = section.map(|section| section.dynamic()).transpose()?;
        Ok(up_to_null(of_section.into_iter().flatten().chain(of_segment.into_iter().flatten())))
    }

    // The entries of the segment of type PT_DYNAMIC, those after the entry with tag 0 too.
    pub(crate) fn entries_of_segment(&self) -> Result<impl Iterator<Item = Dynamic> + '_, Error> {
        begun(self, ffi::dynamic_entries(self.input, &self.header, 0, &mut []))?;
        Ok(Batch::<Dynamic, 64>::items(|first, out| ffi::dynamic_entries(self.input, &self.header, first, out)))
    }

    /// The symbols of the dynamic segment (DT_SYMTAB), from index 0 on, as many as `dynamic_symbol_count` says; none if
    /// the file has no such segment. Versions are read 128 at a time, as by `dynamic_symbol_versions`.
    pub fn dynamic_symbols(&self) -> Result<DynamicSymbols<'_, 'a>, Error> {
        DynamicSymbols::new(self)
    }

    /// How many symbols the dynamic segment has, by the hash tables that it names: GNU's alone does not count symbols
    /// after the last exported one.
    pub fn dynamic_symbol_count(&self) -> Result<u64, Error> {
        self.dynamic_symbol_table().map(|table| table.count)
    }

    /// Puts the symbols of the dynamic segment from an index on to the front of `out`, as many as it has room for or all
    /// that follow, and says how many. An error if there is none at that index. Each call counts the symbols anew:
    /// for many calls find them once, with [`ElfFile::dynamic_symbol_table`].
    pub fn dynamic_symbols_from(&self, first: u64, out: &mut [Entry]) -> Result<usize, Error> {
        ffi::symbols(self.input, &self.dynamic_symbol_table()?, first, out).map(|count| count as usize)
    }

    /// Puts the places of the names of the symbols of the dynamic segment from an index on to the front of `out`, as many
    /// as `dynamic_symbols_from` gives, and says how many.
    pub fn dynamic_symbol_names_from(&self, first: u64, out: &mut [Name]) -> Result<usize, Error> {
        ffi::symbol_names(self.input, &self.dynamic_symbol_table()?, first, out).map(|count| count as usize)
    }

    /// The symbols of the dynamic segment, found once for many calls of [`ElfFile::symbol_of`].
    pub fn dynamic_symbol_table(&self) -> Result<SymbolTable, Error> {
        ffi::dynamic_symbols_open(self.input, &self.header)
    }

    /// The symbol of the dynamic segment that `dlsym` gets by a name, or `dlvsym` by a name and a version; none if there is
    /// none, or no dynamic segment. Of several with the name it is the first without a version (of number 0 or 1), and else
    /// that of the default version. Each call counts the symbols anew; with a version a file made to be slow takes time by its
    /// symbols times its versions.
    pub fn find_symbol(&self, name: &str, version: Option<&str>) -> Result<Option<DynamicSymbol<'a>>, Error> {
        let version = version.unwrap_or_default();
        let said = match ffi::find_symbol(self.input, &self.header, name.as_bytes(), version.as_bytes()) {
            Err(error) => return no_dynamic(self, error).map(|()| None),
            Ok(said) => said,
        };
        if said.found == 0 {
            return Ok(None);
        }
        let index = u64::from(said.index);
        let named = self.dynamic_symbol_table().and_then(|table| one(|out| ffi::symbol_names(self.input, &table, index, out)));
        Ok(Some(DynamicSymbol {
            name: named.and_then(|name| name.range()).map(|range| self.bytes(range)),
            version: version_in(self, one(|out| ffi::dynamic_symbol_versions(self.input, &self.header, index, out))),
            index,
            entry: said.symbol,
        }))
    }

    /// The versions of the symbols of the dynamic segment (DT_VERSYM), as many and in the order of `dynamic_symbols`; none
    /// if the file has none. They are read 256 at a time, and each time the symbols are counted again by the hash table: with
    /// GNU's alone the time grows with the number of symbols times that of its buckets.
    pub fn dynamic_symbol_versions(&self) -> Result<impl Iterator<Item = Result<SymbolVersion<'a>, Error>> + '_, Error> {
        begun(self, ffi::dynamic_symbol_versions(self.input, &self.header, 0, &mut []))?;
        let versions = Batch::<Version, 256>::items(|first, out| ffi::dynamic_symbol_versions(self.input, &self.header, first, out));
        Ok(versions.map(|version| self.version_of(&version)))
    }

    /// Puts the versions of the symbols of the dynamic segment from an index on to the front of `out`, as many as
    /// `dynamic_symbols_from` gives, and says how many; `version_of` reads them. The error is `NotFound` if the file
    /// has no versions of symbols.
    pub fn dynamic_symbol_versions_from(&self, first: u64, out: &mut [Version]) -> Result<usize, Error> {
        ffi::dynamic_symbol_versions(self.input, &self.header, first, out).map(|count| count as usize)
    }

    /// The versions that the file defines (DT_VERDEF), in their order, that of the file itself included. A record that is
    /// cut off is the last item. They are read 64 at a time, each time from the first on: the time grows with the square of
    /// their number.
    pub fn version_definitions(&self) -> Result<impl Iterator<Item = Result<SymbolVersion<'a>, Error>> + '_, Error> {
        begun(self, ffi::version_definitions(self.input, &self.header, 0, &mut []))?;
        let versions = Batch::<Version, 64>::items(|first, out| ffi::version_definitions(self.input, &self.header, first, out));
        Ok(versions.map(|version| self.version_of(&version)))
    }

    /// Puts the versions that the file defines from an index on to the front of `out`, as many as it has room for or all
    /// that follow, and says how many; `version_of` reads them. An error if there is none at that index.
    pub fn version_definitions_from(&self, first: u64, out: &mut [Version]) -> Result<usize, Error> {
        ffi::version_definitions(self.input, &self.header, first, out).map(|count| count as usize)
    }

    /// The versions that the file needs of libraries (DT_VERNEED), in their order; else as `version_definitions`.
    pub fn version_needs(&self) -> Result<impl Iterator<Item = Result<SymbolVersion<'a>, Error>> + '_, Error> {
        begun(self, ffi::version_needs(self.input, &self.header, 0, &mut []))?;
        let versions = Batch::<Version, 64>::items(|first, out| ffi::version_needs(self.input, &self.header, first, out));
        Ok(versions.map(|version| self.version_of(&version)))
    }

    /// Puts the versions that the file needs from an index on to the front of `out`, as `version_definitions_from` does.
    pub fn version_needs_from(&self, first: u64, out: &mut [Version]) -> Result<usize, Error> {
        ffi::version_needs(self.input, &self.header, first, out).map(|count| count as usize)
    }
}

// The entries up to that of tag 0 (DT_NULL), which is the last.
pub(crate) fn up_to_null(mut entries: impl Iterator<Item = Dynamic>) -> impl Iterator<Item = Dynamic> {
    let mut is_last = false;
    core::iter::from_fn(move || {
        let entry = if is_last { None } else { entries.next() };
        is_last = entry.is_some_and(|entry| entry.tag == DT_NULL);
        entry
    })
}

// The number that bytes are.
pub(crate) fn number(bytes: &[u8], big: bool) -> u64 {
    let place = |value: u64, byte: &u8| value << 8 | u64::from(*byte);
    if big { bytes.iter().fold(0, place) } else { bytes.iter().rev().fold(0, place) }
}

/// A symbol of the dynamic segment; its numbers are its own.
#[derive(Clone, Copy, PartialEq, Eq)]
pub struct DynamicSymbol<'a> {
    name: Result<&'a [u8], Error>,
    version: Result<Option<SymbolVersion<'a>>, Error>,
    index: u64,
    entry: Entry,
}

impl Deref for DynamicSymbol<'_> {
    type Target = Entry;

    fn deref(&self) -> &Entry {
        &self.entry
    }
}

impl fmt::Debug for DynamicSymbol<'_> {
    fn fmt(&self, f: &mut fmt::Formatter<'_>) -> fmt::Result {
        let mut shown = f.debug_struct("DynamicSymbol");
        shown.field("index", &self.index).field("name", &self.name()).field("version", &self.version);
        shown.field("entry", &self.entry).finish()
    }
}

impl<'a> DynamicSymbol<'a> {
    /// The index of the symbol among those of the dynamic segment.
    pub fn index(&self) -> u64 {
        self.index
    }

    /// The name of the symbol, in the string table of the dynamic segment.
    pub fn name(&self) -> Result<&'a str, Error> {
        Ok(core::str::from_utf8(self.name?).unwrap_or_default())
    }

    /// The bytes of the name, which are UTF-8; the errors are those of `name`. Rust doesn't test them again.
    pub fn name_bytes(&self) -> Result<&'a [u8], Error> {
        self.name
    }

    /// The version of the symbol; none if the symbols of the file have none.
    pub fn version(&self) -> Result<Option<SymbolVersion<'a>>, Error> {
        self.version
    }
}

// The version that a call has given; none where the file has none.
fn version_in<'a>(file: &ElfFile<'a>, version: Result<Version, Error>) -> Result<Option<SymbolVersion<'a>>, Error> {
    match version {
        Ok(version) => file.version_of(&version).map(Some),
        Err(Error::NotFound) => Ok(None),
        Err(error) => Err(error),
    }
}

// Each call for versions counts the symbols anew, so many are asked for at once.
const ROOM: usize = 128;

/// The symbols of the dynamic segment in order, which it asks the archive for by many at once.
#[derive(Clone)]
pub struct DynamicSymbols<'f, 'a> {
    file: &'f ElfFile<'a>,
    table: SymbolTable,
    entries: Batch<Entry, ROOM>,
    names: Batch<Name, ROOM>,
    // Why the symbols have no versions.
    unversioned: Option<Error>,
    versions: Batch<Version, ROOM>,
}

impl<'f, 'a> DynamicSymbols<'f, 'a> {
    fn new(file: &'f ElfFile<'a>) -> Result<DynamicSymbols<'f, 'a>, Error> {
        let found = file.dynamic_symbol_table();
        begun(file, found.map(|table| table.count))?;
        let unversioned = ffi::dynamic_symbol_versions(file.input, &file.header, 0, &mut []).err();
        Ok(DynamicSymbols { file, table: found.unwrap_or_default(), entries: Batch::new(), names: Batch::new(), unversioned, versions: Batch::new() })
    }

    fn next_version(&mut self) -> Result<Version, Error> {
        if let Some(error) = self.unversioned {
            return Err(error);
        }
        let file = self.file;
        let version = self.versions.next(|first, out| ffi::dynamic_symbol_versions(file.input, &file.header, first, out));
        version.map(|(_, version)| version).ok_or(Error::NoRecord)
    }
}

impl fmt::Debug for DynamicSymbols<'_, '_> {
    fn fmt(&self, f: &mut fmt::Formatter<'_>) -> fmt::Result {
        f.debug_struct("DynamicSymbols").field("left", &self.len()).finish_non_exhaustive()
    }
}

impl ExactSizeIterator for DynamicSymbols<'_, '_> {}

impl<'a> Iterator for DynamicSymbols<'_, 'a> {
    type Item = DynamicSymbol<'a>;

    #[inline]
    fn next(&mut self) -> Option<DynamicSymbol<'a>> {
        let (file, table) = (self.file, self.table);
        let (index, entry) = self.entries.next(|first, out| ffi::symbols(file.input, &table, first, out))?;
        let (_, name) = self.names.next(|first, out| ffi::symbol_names(file.input, &table, first, out))?;
        let version = version_in(file, self.next_version());
        Some(DynamicSymbol { name: name.range().map(|range| file.bytes(range)), version, index, entry })
    }

    fn size_hint(&self) -> (usize, Option<usize>) {
        self.entries.left(self.table.count)
    }
}
