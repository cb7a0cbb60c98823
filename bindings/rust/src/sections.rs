//! What the numbers of sections mean (gABI, "Sections").

use crate::constants::*;
use crate::{Error, SectionHeader};

/// The type of a section (sh_type).
#[derive(Clone, Copy, Debug, PartialEq, Eq, Hash)]
pub enum ShType {
    /// `SHT_NULL`: no section.
    Null,
    /// `SHT_PROGBITS`: data whose meaning the program defines.
    ProgBits,
    /// `SHT_SYMTAB`: symbols, for a linker.
    SymTab,
    /// `SHT_STRTAB`: a string table.
    StrTab,
    /// `SHT_RELA`: relocations with addends.
    Rela,
    /// `SHT_HASH`: the gABI's hash table of symbols.
    Hash,
    /// `SHT_DYNAMIC`: dynamic entries.
    Dynamic,
    /// `SHT_NOTE`: notes.
    Note,
    /// `SHT_NOBITS`: no data in the file.
    NoBits,
    /// `SHT_REL`: relocations without addends.
    Rel,
    /// `SHT_SHLIB`: reserved.
    ShLib,
    /// `SHT_DYNSYM`: symbols, for the dynamic linker.
    DynSym,
    /// `SHT_INIT_ARRAY`: addresses of functions that run first.
    InitArray,
    /// `SHT_FINI_ARRAY`: addresses of functions that run last.
    FiniArray,
    /// `SHT_PREINIT_ARRAY`: addresses of functions that run before the first.
    PreInitArray,
    /// `SHT_GROUP`: a group of sections.
    Group,
    /// `SHT_SYMTAB_SHNDX`: section indices that need more than 16 bits.
    SymTabShIndex,
    /// `SHT_RELR`: relative relocations.
    Relr,
    /// `SHT_LOOS` to `SHT_HIOS` (0x60000000 to 0x6fffffff), `SHT_GNU_HASH` among them.
    OsSpecific(u32),
    /// `SHT_LOPROC` to `SHT_HIPROC` (0x70000000 to 0x7fffffff).
    ProcessorSpecific(u32),
    /// `SHT_LOUSER` (0x80000000) and above.
    User(u32),
}

impl SectionHeader {
    /// The type of the section; `InvalidShType` for a number that has no meaning.
    pub fn get_type(&self) -> Result<ShType, Error> {
        Ok(match self.type_ {
            SHT_NULL => ShType::Null,
            SHT_PROGBITS => ShType::ProgBits,
            SHT_SYMTAB => ShType::SymTab,
            SHT_STRTAB => ShType::StrTab,
            SHT_RELA => ShType::Rela,
            SHT_HASH => ShType::Hash,
            SHT_DYNAMIC => ShType::Dynamic,
            SHT_NOTE => ShType::Note,
            SHT_NOBITS => ShType::NoBits,
            SHT_REL => ShType::Rel,
            10 => ShType::ShLib,
            SHT_DYNSYM => ShType::DynSym,
            SHT_INIT_ARRAY => ShType::InitArray,
            SHT_FINI_ARRAY => ShType::FiniArray,
            SHT_PREINIT_ARRAY => ShType::PreInitArray,
            SHT_GROUP => ShType::Group,
            SHT_SYMTAB_SHNDX => ShType::SymTabShIndex,
            SHT_RELR => ShType::Relr,
            other @ 0x6000_0000..=0x6fff_ffff => ShType::OsSpecific(other),
            other @ 0x7000_0000..=0x7fff_ffff => ShType::ProcessorSpecific(other),
            other @ 0x8000_0000.. => ShType::User(other),
            _ => return Err(Error::InvalidShType),
        })
    }
}
