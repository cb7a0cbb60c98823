//! How a file is hardened, in the words of `checksec`.

use crate::constants::*;
use crate::dynamic::up_to_null;
use crate::{Dynamic, ElfFile, Error, Loader};

/// What is read-only before the program runs.
#[derive(Clone, Copy, Debug, PartialEq, Eq, Hash)]
pub enum Relro {
    /// Nothing that relocations change.
    None,
    /// What relocations change, but for what is resolved later.
    Partial,
    /// All that relocations change.
    Full,
}

/// Where a file runs.
#[derive(Clone, Copy, Debug, PartialEq, Eq, Hash)]
pub enum Pie {
    /// A program at any address.
    Yes,
    /// A program at fixed addresses (ET_EXEC).
    No,
    /// A shared object.
    SharedObject,
    /// An object file (ET_REL).
    Object,
    /// A file of another type.
    Other,
}

/// How a file is hardened.
#[derive(Clone, Copy, Debug, PartialEq, Eq)]
pub struct Hardening<'a> {
    /// What is read-only before the program runs (PT_GNU_RELRO).
    pub relro: Relro,
    /// Whether a symbol has `__stack_chk_fail`, `__stack_chk_guard` or `__intel_security_cookie` in its name: functions test a
    /// value beside their return address.
    pub canary: bool,
    /// Whether the stack isn't executable: a segment PT_GNU_STACK without PF_X.
    pub nx: bool,
    /// Whether it is a program at any address.
    pub pie: Pie,
    /// The folders of DT_RPATH.
    pub rpath: Option<&'a str>,
    /// The folders of DT_RUNPATH.
    pub runpath: Option<&'a str>,
    /// Whether it has a section of type SHT_SYMTAB.
    pub symbols: bool,
    /// Whether the name of a dynamic symbol ends in `_chk`.
    pub fortify_source: bool,
    /// CET of x86: indirect branches lead to marked instructions only (IBT of the property note).
    pub ibt: bool,
    /// CET of x86: return addresses are compared with a shadow stack (SHSTK of the property note).
    pub shstk: bool,
    /// AArch64: indirect branches lead to marked instructions only (BTI of the property note).
    pub bti: bool,
    /// AArch64: return addresses are signed (PAC of the property note).
    pub pac: bool,
}

/// How many functions of the C library have a checked form in a file.
#[cfg(feature = "alloc")]
#[derive(Clone, Copy, Debug, Default, PartialEq, Eq)]
pub struct Fortified {
    /// How many dynamic symbols are checked forms, as `__memcpy_chk`.
    pub fortified: usize,
    /// How many are checked forms, or functions that have one.
    pub fortifiable: usize,
}

const CANARY: [&str; 3] = ["__stack_chk_fail", "__stack_chk_guard", "__intel_security_cookie"];
// The types of properties whose bits all objects of a linked file have.
const X86_FEATURES: u32 = 0xc000_0002;
const AARCH64_FEATURES: u32 = 0xc000_0000;

// What the dynamic entries say. Of several with the same tag the last counts.
#[derive(Clone, Copy, Default)]
struct Entries {
    are_some: bool,
    has_bind_now: bool,
    has_debug: bool,
    flags: u64,
    flags_1: u64,
}

impl Entries {
    fn of(entries: impl Iterator<Item = Dynamic>) -> Entries {
        let mut said = Entries::default();
        for entry in entries {
            said.are_some = true;
            match entry.tag {
                DT_BIND_NOW => said.has_bind_now = true,
                DT_DEBUG => said.has_debug = true,
                DT_FLAGS => said.flags = entry.value,
                DT_FLAGS_1 => said.flags_1 = entry.value,
                _ => {}
            }
        }
        said
    }

    // Those of a section, or else of the segment, as far as they can be read.
    fn readable(file: &ElfFile<'_>) -> Entries {
        let said = file.dynamic().map(Entries::of).unwrap_or_default();
        if said.are_some {
            return said;
        }
        file.entries_of_segment().map(|entries| Entries::of(up_to_null(entries))).unwrap_or_default()
    }

    fn is_bound_now(&self) -> bool {
        self.has_bind_now || self.flags & DF_BIND_NOW != 0 || self.flags_1 & DF_1_NOW != 0
    }

    // Whether one of them is there in programs alone.
    fn is_program(&self) -> bool {
        self.has_debug || self.flags_1 & DF_1_PIE != 0
    }
}

// Whether pages are only readable after relocation, and the permissions of the stack: by the plan of the load, or by the
// program headers of a file without a plan.
fn protection_of(file: &ElfFile<'_>) -> Result<(bool, Option<u32>), Error> {
    if let Ok(plan) = file.load_plan() {
        return Ok((plan.relro().is_some_and(|relro| relro.start < relro.end), plan.stack_flags()));
    }
    let segments = file.segments()?;
    let stack = segments.clone().filter(|segment| segment.type_ == PT_GNU_STACK).last();
    Ok((segments.clone().any(|segment| segment.type_ == PT_GNU_RELRO), stack.map(|segment| segment.flags)))
}

// The bits of a property in the notes of type NT_GNU_PROPERTY_TYPE_0 by GNU.
fn property_bits(file: &ElfFile<'_>, wanted: u32) -> Result<u32, Error> {
    let align = if file.is_64() { 8 } else { 4 };
    for note in file.notes() {
        let note = note?;
        if note.type_ != NT_GNU_PROPERTY_TYPE_0 || note.name != b"GNU\0" {
            continue;
        }
        if let Some(bits) = property_in(note.desc, wanted, align, file.header().encoding == 2) {
            return Ok(bits);
        }
    }
    Ok(0)
}

// The number of a property of this type: each is its type, the size of its data and the data, padded.
fn property_in(mut rest: &[u8], wanted: u32, align: usize, big: bool) -> Option<u32> {
    let number = |bytes: &[u8]| crate::dynamic::number(bytes, big) as u32;
    while rest.len() >= 8 {
        let (kind, size) = (number(&rest[..4]), number(&rest[4..8]) as usize);
        let data = &rest[8..];
        if kind == wanted && size == 4 && data.len() >= 4 {
            return Some(number(&data[..4]));
        }
        rest = data.get(size.checked_next_multiple_of(align)?..)?;
    }
    None
}

impl<'a> ElfFile<'a> {
    /// How the file is hardened, in the words of `checksec`. An error if a part that it needs can't be read.
    pub fn hardening(&self) -> Result<Hardening<'a>, Error> {
        let entries = self.dynamic().map(Entries::of)?;
        let (has_relro, stack) = protection_of(self)?;
        let x86 = if [EM_X86_64, EM_386].contains(&self.header.machine) { property_bits(self, X86_FEATURES)? } else { 0 };
        let aarch64 = if self.header.machine == EM_AARCH64 { property_bits(self, AARCH64_FEATURES)? } else { 0 };
        Ok(Hardening {
            relro: match (has_relro, entries.is_bound_now()) {
                (false, _) => Relro::None,
                (true, false) => Relro::Partial,
                (true, true) => Relro::Full,
            },
            canary: self.any_name(&[SHT_SYMTAB, SHT_DYNSYM], |name| CANARY.iter().any(|word| name.contains(word)))?,
            nx: stack.is_some_and(|flags| flags & PF_X == 0),
            pie: match self.header.type_ {
                ET_EXEC => Pie::No,
                ET_DYN if entries.is_program() => Pie::Yes,
                ET_DYN => Pie::SharedObject,
                ET_REL => Pie::Object,
                _ => Pie::Other,
            },
            rpath: self.dynamic_text(DT_RPATH)?,
            runpath: self.dynamic_text(DT_RUNPATH)?,
            symbols: self.sections()?.any(|section| section.type_ == SHT_SYMTAB),
            fortify_source: self.any_name(&[SHT_DYNSYM], |name| name.ends_with("_chk"))?,
            ibt: x86 & 1 != 0,
            shstk: x86 & 2 != 0,
            bti: aarch64 & 1 != 0,
            pac: aarch64 & 2 != 0,
        })
    }

    // Whether a symbol of the sections of these types has such a name; in a file without sections, one of the dynamic segment.
    fn any_name(&self, types: &[u32], is_such: impl Fn(&str) -> bool) -> Result<bool, Error> {
        let mut is_found = false;
        self.each_name(types, |name| is_found = is_found || is_such(name)).map(|()| is_found)
    }

    fn each_name(&self, types: &[u32], mut visit: impl FnMut(&'a str)) -> Result<(), Error> {
        let mut visit_named = |name: Result<&'a str, Error>| {
            match name {
                Ok(name) => visit(name),
                // A name that isn't UTF-8 is none of those that are looked for.
                Err(Error::TextUtf8) => {}
                Err(error) => return Err(error),
            }
            Ok(())
        };
        let sections = self.sections()?;
        if sections.len() == 0 {
            self.dynamic_symbols()?.try_for_each(|symbol| visit_named(symbol.name()))?;
        }
        for section in sections.filter(|section| types.contains(&section.type_)) {
            section.symbols()?.try_for_each(|symbol| visit_named(symbol.name()))?;
        }
        Ok(())
    }

    /// How many functions of a C library have a checked form in the file: `libc` is that library, whose checked forms are
    /// its symbols with a default version whose names end in `_chk`. Underscores in front of names don't count.
    #[cfg(feature = "alloc")]
    pub fn fortified(&self, libc: &ElfFile<'_>) -> Result<Fortified, Error> {
        let mut checked = alloc::collections::BTreeSet::new();
        for symbol in libc.dynamic_symbols()? {
            let (name, version) = (symbol.name()?, symbol.version()?);
            if let (Some(function), true) = (name.strip_suffix("_chk"), version.is_some_and(|version| version.is_default())) {
                checked.insert(function.trim_start_matches('_'));
            }
        }
        let mut found = Fortified::default();
        self.each_name(&[SHT_DYNSYM], |name| {
            let name = name.trim_start_matches('_');
            let is_fortified = name.strip_suffix("_chk").is_some_and(|function| checked.contains(function));
            found.fortified += usize::from(is_fortified);
            found.fortifiable += usize::from(is_fortified || checked.contains(name));
        })?;
        Ok(found)
    }

    /// The loader that [`ElfFile::loads`] asks: glibc about a shared library, which is a file of type ET_DYN with dynamic
    /// entries, none of which marks a program (DF_1_PIE or DT_DEBUG), also if it has an interpreter, as libc.so.6; and Linux
    /// about any other file.
    pub fn loader(&self) -> Loader {
        let entries = Entries::readable(self);
        let is_dynamic = entries.are_some || self.readable_segments().any(|segment| segment.type_ == PT_DYNAMIC);
        if self.header.type_ == ET_DYN && is_dynamic && !entries.is_program() {
            Loader::Glibc
        } else {
            Loader::Linux
        }
    }

    /// Whether one loader maps the file, that of [`ElfFile::loader`]: Linux as a program, or glibc as a library that a program
    /// starts with; or why it doesn't. Its header and program headers decide; libraries and symbols aren't looked for. A file
    /// that is loaded may have no [`ElfFile::load_plan`]. What glibc tests is known of little-endian libraries; a big-endian
    /// one must have a plan.
    pub fn loads(&self) -> Result<(), Error> {
        match self.check_load(self.loader()) {
            // The check of a library is that of glibc on little-endian machines.
            Err(Error::LoadByteOrder) if self.header.encoding == 2 => self.load_plan().map(|_| ()),
            said => said,
        }
    }
}
