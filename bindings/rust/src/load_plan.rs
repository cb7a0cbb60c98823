//! What Linux and glibc put into memory for a file (gABI, "Program Loading").

use crate::batch::Batch;
use crate::constants::{PF_W, PF_X};
use crate::records::Plan;
use crate::{ffi, ElfFile, Error, Mapping, Span, TlsTemplate};

/// Whose way of mapping: they differ in what they leave in the rest of a page.
#[derive(Clone, Copy, Debug, PartialEq, Eq, Hash)]
pub enum Loader {
    /// Linux, which maps a program and its interpreter.
    Linux,
    /// glibc, which maps libraries: it also maps the pages between load segments, without access.
    Glibc,
}

/// What a mapping holds.
#[derive(Clone, Copy, Debug, PartialEq, Eq, Hash)]
pub enum Contents {
    /// Nothing that can be read.
    NoAccess,
    /// Pages of the file, from this offset on.
    File(u64),
    /// Zeros.
    Zero,
}

impl Mapping {
    /// What the pages hold.
    pub fn get_contents(&self) -> Contents {
        match self.contents {
            1 => Contents::File(self.offset),
            2 => Contents::Zero,
            _ => Contents::NoAccess,
        }
    }

    /// Whether the pages are writable and executable.
    pub fn is_write_execute(&self) -> bool {
        self.flags & (PF_W | PF_X) == PF_W | PF_X
    }
}

/// The plan of a load. Addresses are relative to a base, which is 0 for a file of type ET_EXEC.
#[derive(Clone, Copy)]
pub struct LoadPlan<'f, 'a> {
    file: &'f ElfFile<'a>,
    page: u64,
    limit: u64,
    plan: Plan,
}

impl core::fmt::Debug for LoadPlan<'_, '_> {
    fn fmt(&self, f: &mut core::fmt::Formatter<'_>) -> core::fmt::Result {
        f.debug_struct("LoadPlan").field("page", &self.page).field("limit", &self.limit).field("plan", &self.plan).finish_non_exhaustive()
    }
}

impl<'f, 'a> LoadPlan<'f, 'a> {
    pub(crate) fn new(file: &'f ElfFile<'a>, page: u64, limit: u64) -> Result<LoadPlan<'f, 'a>, Error> {
        Ok(LoadPlan { file, page, limit, plan: ffi::load_plan(file.input(), file.header(), page, limit)? })
    }

    /// The pages from the first of the first load segment to the last of the last one.
    pub fn span(&self) -> Span {
        self.plan.span
    }

    /// The address at which a program begins to run, or 0.
    pub fn entry(&self) -> u64 {
        self.plan.entry
    }

    /// The pages that are only readable after relocation (PT_GNU_RELRO, both ends rounded down).
    pub fn relro(&self) -> Option<Span> {
        (self.plan.has_relro != 0).then_some(self.plan.relro)
    }

    /// The template of thread-local storage (the last PT_TLS that is not empty).
    pub fn tls(&self) -> Option<TlsTemplate> {
        (self.plan.tls.mem_size != 0).then_some(self.plan.tls)
    }

    /// The permissions of the stack (PT_GNU_STACK); without them those of the processor hold.
    pub fn stack_flags(&self) -> Option<u32> {
        (self.plan.has_stack != 0).then_some(self.plan.stack_flags)
    }

    /// The path of the program interpreter, without a zero byte (PT_INTERP).
    pub fn interpreter(&self) -> Option<&'a [u8]> {
        (self.plan.has_interpreter != 0).then(|| self.plan.interpreter.bytes_in(self.file.input()))
    }

    /// Writes the bytes that a loader maps before relocation to `image`, which is as long as the span; what isn't mapped is 0.
    pub fn fill(&self, by: Loader, image: &mut [u8]) -> Result<(), Error> {
        let (file, loader) = (self.file, u32::from(by == Loader::Glibc));
        ffi::load_image(file.input(), file.header(), self.page, self.limit, loader, image)
    }

    /// What a loader maps before relocation, in the order of addresses. No mapping is empty or overlaps another.
    pub fn mappings(&self, by: Loader) -> impl Iterator<Item = Mapping> + 'f {
        let (file, page, limit, loader) = (self.file, self.page, self.limit, u32::from(by == Loader::Glibc));
        Batch::<Mapping, 16>::items(move |first, out| ffi::load_mappings(file.input(), file.header(), page, limit, loader, first, out))
    }
}
