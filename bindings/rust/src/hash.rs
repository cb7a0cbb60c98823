//! Look-ups of symbols by their names.

use crate::constants::{SHT_GNU_HASH, SHT_HASH};
use crate::records::FoundTable;
use crate::{ffi, Answer, ByteRange, ElfFile, Error, LookUp, SectionHeader, Symbol};

/// A section that is a hash table of symbols, the gABI's or GNU's, found once for many look-ups.
///
/// It goes by the names in the string table that the section of its symbols is linked to.
#[derive(Clone, Copy)]
pub struct HashTable<'f, 'a> {
    file: &'f ElfFile<'a>,
    section: u64,
    gnu: bool,
    // Or why it can't be read.
    table: Result<FoundTable, Error>,
}

impl core::fmt::Debug for HashTable<'_, '_> {
    fn fmt(&self, f: &mut core::fmt::Formatter<'_>) -> core::fmt::Result {
        f.debug_struct("HashTable").field("section", &self.section).field("is_gnu", &self.gnu).finish_non_exhaustive()
    }
}

impl<'f, 'a> HashTable<'f, 'a> {
    pub(crate) fn new(file: &'f ElfFile<'a>, section: u64, header: &SectionHeader) -> Option<HashTable<'f, 'a>> {
        let gnu = header.type_ == SHT_GNU_HASH;
        let table = ffi::hash_open(file.input, &file.header, section);
        (gnu || header.type_ == SHT_HASH).then_some(HashTable { file, section, gnu, table })
    }

    /// Whether it is GNU's.
    pub fn is_gnu(&self) -> bool {
        self.gnu
    }

    /// Whether look-ups can be relied on: then none returns an error for the table, and each finds a symbol if one that
    /// isn't local has the name; in GNU's table one from its first on that is defined. Call it once for many look-ups.
    pub fn check(&self) -> Result<(), Error> {
        ffi::check_hash(self.file.input, &self.table?)
    }

    /// What a look-up for a name says, in numbers.
    pub fn look_up_counted(&self, name: &str) -> Result<LookUp, Error> {
        let mut results = [Answer::default()];
        self.look_ups(name.as_bytes(), &[ByteRange::from(0..name.len())], &mut results)?;
        results[0].look_up()
    }

    /// Many look-ups by one call, each for the name that is a range of `names`: as many as there are ranges and as
    /// `out` has room for, and returns their number, or the error if the table or its symbols can't be read. Each result is that of `look_up_counted`; `DataRange` if the range
    /// passes the end of `names`, and `TextUtf8` where it isn't UTF-8. `names` may be the data of a string table of
    /// another file, and the ranges those that `Symbol::name_range` gives.
    pub fn look_ups(&self, names: &[u8], ranges: &[ByteRange], out: &mut [Answer]) -> Result<usize, Error> {
        ffi::look_ups(self.file.input, &self.table?, names, ranges, out);
        Ok(ranges.len().min(out.len()))
    }

    /// The symbol with a name, defined or not, or none.
    pub fn look_up(&self, name: &str) -> Result<Option<Symbol<'a>>, Error> {
        let (table, said) = (self.table?, self.look_up_counted(name)?);
        if said.found == 0 {
            return Ok(None);
        }
        Symbol::of_table(self.file, &table.symbols, u64::from(said.index)).map(Some)
    }
}
