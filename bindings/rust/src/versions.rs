//! The versions of symbols, and those that a file defines and needs.

use crate::ranges::checked;
use crate::{ElfFile, Error, Version};
use core::fmt;

/// What has the number of a version.
#[derive(Clone, Copy, Debug, PartialEq, Eq)]
pub enum VersionKind {
    /// Nothing: the symbol is local (0) or global (1), or the file has no such version.
    Unnamed,
    /// A version that the file defines.
    Defined,
    /// A version that the file needs of a library.
    Needed,
}

/// The version of a symbol, or one that a file defines or needs. Its text is what follows a symbol's name: `@@V` for the
/// default version, `@V` for others, and nothing if nothing has the number.
#[derive(Clone, Copy, PartialEq, Eq)]
pub struct SymbolVersion<'a> {
    version: Version,
    input: &'a [u8],
}

impl fmt::Display for SymbolVersion<'_> {
    fn fmt(&self, f: &mut fmt::Formatter<'_>) -> fmt::Result {
        let mark = if self.is_default() { "@@" } else { "@" };
        match self.name() {
            Ok(None) => Ok(()),
            Ok(Some(name)) => write!(f, "{mark}{name}"),
            Err(error) => write!(f, "{mark}<{error}>"),
        }
    }
}

impl fmt::Debug for SymbolVersion<'_> {
    fn fmt(&self, f: &mut fmt::Formatter<'_>) -> fmt::Result {
        let (kind, library) = (self.kind(), self.library().ok().flatten());
        let mut shown = f.debug_struct("SymbolVersion");
        shown.field("number", &self.number()).field("kind", &kind).field("name", &self.name()).field("library", &library);
        shown.field("is_hidden", &self.is_hidden()).finish_non_exhaustive()
    }
}

impl<'a> SymbolVersion<'a> {
    /// What has the number.
    pub fn kind(&self) -> VersionKind {
        match self.version.kind {
            1 => VersionKind::Defined,
            2 => VersionKind::Needed,
            _ => VersionKind::Unnamed,
        }
    }

    /// The number, by which symbols refer to the version: 0 is local, 1 is global.
    pub fn number(&self) -> u16 {
        self.version.number as u16
    }

    /// Whether the symbol or the need is hidden: only a reference with the version finds such a symbol.
    pub fn is_hidden(&self) -> bool {
        self.version.hidden != 0
    }

    /// Whether a reference without a version gets the symbol: the file defines the version, and it isn't hidden.
    pub fn is_default(&self) -> bool {
        self.kind() == VersionKind::Defined && !self.is_hidden()
    }

    /// The flags of the definition or the need (vd_flags, vna_flags), or 0.
    pub fn flags(&self) -> u16 {
        self.version.flags as u16
    }

    /// Whether it is the definition that names the file itself, and no version of a symbol (VER_FLG_BASE).
    pub fn is_base(&self) -> bool {
        self.kind() == VersionKind::Defined && self.flags() % 2 == 1
    }

    /// The hash number of the name (vd_hash, vna_hash), or 0.
    pub fn hash(&self) -> u32 {
        self.version.hash
    }

    /// The name of the version, if anything has the number.
    pub fn name(&self) -> Result<Option<&'a str>, Error> {
        checked(self.version.name_status)?;
        Ok((self.kind() != VersionKind::Unnamed).then(|| self.version.name.text_in(self.input)))
    }

    /// The name of the library that the version is needed of, if it is needed of one.
    pub fn library(&self) -> Result<Option<&'a str>, Error> {
        checked(self.version.file_status)?;
        Ok((self.kind() == VersionKind::Needed).then(|| self.version.file.text_in(self.input)))
    }
}

impl<'a> ElfFile<'a> {
    /// The version that a call for many has put there, or its error.
    pub fn version_of(&self, version: &Version) -> Result<SymbolVersion<'a>, Error> {
        checked(version.status).map(|()| SymbolVersion { version: *version, input: self.input })
    }
}
