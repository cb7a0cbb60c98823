//! What the numbers of symbols mean (gABI, "Symbol Table").

use crate::constants::*;
use crate::{Entry, Error};

/// The type of a symbol (the low four bits of st_info).
#[derive(Clone, Copy, Debug, PartialEq, Eq, Hash)]
pub enum Type {
    /// `STT_NOTYPE`: no type.
    NoType,
    /// `STT_OBJECT`: a data object.
    Object,
    /// `STT_FUNC`: a function.
    Func,
    /// `STT_SECTION`: a section.
    Section,
    /// `STT_FILE`: the name of a source file.
    File,
    /// `STT_COMMON`: a common block.
    Common,
    /// `STT_TLS`: a thread-local object.
    Tls,
    /// `STT_LOOS` to `STT_HIOS` (10 to 12), `STT_GNU_IFUNC` among them.
    OsSpecific(u8),
    /// `STT_LOPROC` to `STT_HIPROC` (13 to 15).
    ProcessorSpecific(u8),
}

/// The binding of a symbol (the high four bits of st_info).
#[derive(Clone, Copy, Debug, PartialEq, Eq, Hash)]
pub enum Binding {
    /// `STB_LOCAL`: seen in its own object file.
    Local,
    /// `STB_GLOBAL`: seen in all files.
    Global,
    /// `STB_WEAK`: seen in all files, after global ones.
    Weak,
    /// `STB_LOOS` to `STB_HIOS` (10 to 12), `STB_GNU_UNIQUE` among them.
    OsSpecific(u8),
    /// `STB_LOPROC` to `STB_HIPROC` (13 to 15).
    ProcessorSpecific(u8),
}

/// The visibility of a symbol (the low two bits of st_other).
#[derive(Clone, Copy, Debug, PartialEq, Eq, Hash)]
pub enum Visibility {
    /// `STV_DEFAULT`: as the binding says.
    Default,
    /// `STV_INTERNAL`: hidden, with a meaning by the processor.
    Internal,
    /// `STV_HIDDEN`: not seen by other components.
    Hidden,
    /// `STV_PROTECTED`: seen, and not replaced, by other components.
    Protected,
}

impl Entry {
    /// The number of the binding (`STB_`).
    pub fn binding(&self) -> u8 {
        self.info / 16
    }

    /// The number of the type (`STT_`).
    pub fn kind(&self) -> u8 {
        self.info % 16
    }

    /// The type of the symbol; `InvalidSymbolType` for 7 to 9.
    pub fn get_type(&self) -> Result<Type, Error> {
        Ok(match self.kind() {
            STT_NOTYPE => Type::NoType,
            STT_OBJECT => Type::Object,
            STT_FUNC => Type::Func,
            STT_SECTION => Type::Section,
            STT_FILE => Type::File,
            STT_COMMON => Type::Common,
            STT_TLS => Type::Tls,
            other @ 10..=12 => Type::OsSpecific(other),
            other @ 13.. => Type::ProcessorSpecific(other),
            _ => return Err(Error::InvalidSymbolType),
        })
    }

    /// The binding of the symbol; `InvalidBinding` for 3 to 9.
    pub fn get_binding(&self) -> Result<Binding, Error> {
        Ok(match self.binding() {
            STB_LOCAL => Binding::Local,
            STB_GLOBAL => Binding::Global,
            STB_WEAK => Binding::Weak,
            other @ 10..=12 => Binding::OsSpecific(other),
            other @ 13.. => Binding::ProcessorSpecific(other),
            _ => return Err(Error::InvalidBinding),
        })
    }

    /// The visibility of the symbol.
    pub fn get_other(&self) -> Visibility {
        match self.other % 4 {
            STV_INTERNAL => Visibility::Internal,
            STV_HIDDEN => Visibility::Hidden,
            STV_PROTECTED => Visibility::Protected,
            _ => Visibility::Default,
        }
    }

    /// Whether the symbol is defined in this file: its section index is not `SHN_UNDEF`.
    pub fn is_defined(&self) -> bool {
        self.shndx != SHN_UNDEF
    }
}
