//! The objects of a process, and what relocations write to their images.

use crate::records::LoadObject;
use crate::{ffi, Error};
use core::fmt;

/// When jump slots get their symbols.
#[derive(Clone, Copy, Debug, PartialEq, Eq, Hash)]
pub enum Binding {
    /// Before the program runs.
    Now,
    /// When a function is called first, unless the file asks for `Now`.
    Lazy,
}

impl<'a> LoadObject<'a> {
    /// The object of a file, whose bytes these are, without an image, at base 0.
    pub fn new(file: &'a [u8]) -> LoadObject<'a> {
        LoadObject { file: file.into(), ..LoadObject::default() }
    }

    /// The same at another base.
    pub fn at(self, base: u64) -> LoadObject<'a> {
        LoadObject { base, ..self }
    }

    /// The same with a module of thread-local storage: its number, and the offset of the storage from the thread pointer.
    pub fn with_thread(self, module: u64, thread: u64) -> LoadObject<'a> {
        LoadObject { module, thread, ..self }
    }

    /// The same with its image after relocation, of which bytes are copied to other objects.
    pub fn with_image(self, image: &'a [u8]) -> LoadObject<'a> {
        LoadObject { image: image.into(), ..self }
    }
}

/// Checks that the words of the object at index `of` can be written before the program runs. Each file must have a plan for this
/// page size and limit, of which 0 are those of Linux. `marks` has a bit for each byte of the span of its plan: so many bytes as an
/// eighth of them, and one more.
pub fn check_image(objects: &[LoadObject<'_>], of: usize, page: u64, limit: u64, marks: &mut [u8]) -> Result<(), ObjectError> {
    with_object(objects, |failed, relocation| ffi::check_image(objects, of as u64, page, limit, marks, failed, relocation))
}

/// Writes the words of the object at index `of` to its image, which [`LoadPlan::fill`](crate::LoadPlan::fill) filled. Each file must
/// have a plan for this page size and limit, of which 0 are those of Linux. The result is the number of words without a number, which
/// are left to the caller: results of functions, and descriptors of thread-local storage.
pub fn relocate(objects: &[LoadObject<'_>], of: usize, when: Binding, page: u64, limit: u64, image: &mut [u8]) -> Result<u64, ObjectError> {
    let lazy = u32::from(when == Binding::Lazy);
    with_object(objects, |failed, relocation| ffi::relocate(objects, of as u64, lazy, page, limit, image, failed, relocation))
}

/// What can't be read or written of one of several objects.
#[derive(Clone, Copy, Debug, PartialEq, Eq, Hash)]
pub struct ObjectError {
    /// Why.
    pub error: Error,
    /// The index of the object, if one has the error.
    pub object: Option<usize>,
    /// The index of its relocation, if one has the error, in the order in which words are written: those of DT_RELR, then those of
    /// DT_RELA, of DT_REL and of DT_JMPREL.
    pub relocation: Option<u64>,
}

impl fmt::Display for ObjectError {
    fn fmt(&self, f: &mut fmt::Formatter<'_>) -> fmt::Result {
        match self.object {
            Some(object) => write!(f, "object {object}: {}", self.error),
            None => self.error.fmt(f),
        }
    }
}

impl core::error::Error for ObjectError {}

/// What a call for these objects returns, which writes the indices of the one with the error, and of its relocation with the error, to
/// its arguments, if one has it.
fn with_object<T>(objects: &[LoadObject<'_>], call: impl FnOnce(&mut u64, &mut u64) -> Result<T, Error>) -> Result<T, ObjectError> {
    let (mut failed, mut told) = (u64::MAX, u64::MAX);
    call(&mut failed, &mut told).map_err(|error| {
        let object = usize::try_from(failed).ok().filter(|object| *object < objects.len());
        let relocation = Some(told).filter(|index| *index != u64::MAX);
        ObjectError { error, object, relocation }
    })
}

/// Writes the words of all objects to their images, those of the last object first, as the dynamic linker does. Each file is read once,
/// and must have a plan for this page size and limit, of which 0 are those of Linux. `images` are those that
/// [`LoadPlan::fill`](crate::LoadPlan::fill) filled, one after another in the order of the objects; those of the objects are not read.
/// The result is the number of words without a number, which are left to the caller.
pub fn relocate_all(objects: &[LoadObject<'_>], when: Binding, page: u64, limit: u64, images: &mut [u8]) -> Result<u64, ObjectError> {
    let lazy = u32::from(when == Binding::Lazy);
    with_object(objects, |failed, relocation| ffi::relocate_all(objects, lazy, page, limit, images, failed, relocation))
}
