//! What the numbers of the ELF header mean (gABI, "ELF Header").

use crate::constants::{ET_CORE, ET_DYN, ET_EXEC, ET_NONE, ET_REL};
use crate::Header;

/// The kind of a file (e_type).
#[derive(Clone, Copy, Debug, PartialEq, Eq, Hash)]
pub enum Type {
    /// `ET_NONE`: no type.
    None,
    /// `ET_REL`: an object file.
    Relocatable,
    /// `ET_EXEC`: a program at fixed addresses.
    Executable,
    /// `ET_DYN`: a shared object, or a program at any address.
    SharedObject,
    /// `ET_CORE`: a core dump.
    Core,
    /// Any other number, those of operating systems and processors among them.
    ProcessorSpecific(u16),
}

impl Header {
    /// The kind of the file.
    pub fn get_type(&self) -> Type {
        match self.type_ {
            ET_NONE => Type::None,
            ET_REL => Type::Relocatable,
            ET_EXEC => Type::Executable,
            ET_DYN => Type::SharedObject,
            ET_CORE => Type::Core,
            other => Type::ProcessorSpecific(other),
        }
    }
}
