//! What the numbers of segments mean (gABI, "Program Header").

use crate::constants::*;
use crate::{Error, ProgramHeader};

/// The type of a segment (p_type).
#[derive(Clone, Copy, Debug, PartialEq, Eq, Hash)]
pub enum Type {
    /// `PT_NULL`: no segment.
    Null,
    /// `PT_LOAD`: loaded into memory.
    Load,
    /// `PT_DYNAMIC`: dynamic entries.
    Dynamic,
    /// `PT_INTERP`: the path of the interpreter.
    Interp,
    /// `PT_NOTE`: notes.
    Note,
    /// `PT_SHLIB`: reserved.
    ShLib,
    /// `PT_PHDR`: the program header table.
    Phdr,
    /// `PT_TLS`: the template of thread-local data.
    Tls,
    /// `PT_GNU_RELRO`: read-only after relocation.
    GnuRelro,
    /// `PT_LOOS` to `PT_HIOS` (0x60000000 to 0x6fffffff).
    OsSpecific(u32),
    /// `PT_LOPROC` to `PT_HIPROC` (0x70000000 to 0x7fffffff).
    ProcessorSpecific(u32),
}

impl ProgramHeader {
    /// The type of the segment; `InvalidPhType` for a number that has no meaning.
    pub fn get_type(&self) -> Result<Type, Error> {
        Ok(match self.type_ {
            PT_NULL => Type::Null,
            PT_LOAD => Type::Load,
            PT_DYNAMIC => Type::Dynamic,
            PT_INTERP => Type::Interp,
            PT_NOTE => Type::Note,
            5 => Type::ShLib,
            PT_PHDR => Type::Phdr,
            PT_TLS => Type::Tls,
            PT_GNU_RELRO => Type::GnuRelro,
            other @ 0x6000_0000..=0x6fff_ffff => Type::OsSpecific(other),
            other @ 0x7000_0000..=0x7fff_ffff => Type::ProcessorSpecific(other),
            _ => return Err(Error::InvalidPhType),
        })
    }

    /// Whether the memory of the segment is readable (`PF_R`).
    pub fn is_read(&self) -> bool {
        self.flags & PF_R != 0
    }

    /// Whether the memory of the segment is writable (`PF_W`).
    pub fn is_write(&self) -> bool {
        self.flags & PF_W != 0
    }

    /// Whether the memory of the segment is executable (`PF_X`).
    pub fn is_execute(&self) -> bool {
        self.flags & PF_X != 0
    }
}
