//! Slices that a struct of the archive borrows for a call.

use core::marker::PhantomData;

/// A slice as C has it: the address of its first item, and how many they are.
#[repr(C)]
#[derive(Clone, Copy, Debug, PartialEq, Eq)]
pub(crate) struct Borrowed<'a, T = u8> {
    start: *const T,
    size: usize,
    of: PhantomData<&'a [T]>,
}

impl<'a, T> From<&'a [T]> for Borrowed<'a, T> {
    fn from(items: &'a [T]) -> Borrowed<'a, T> {
        Borrowed { start: items.as_ptr(), size: items.len(), of: PhantomData }
    }
}

impl Borrowed<'static> {
    /// No bytes.
    pub(crate) const EMPTY: Borrowed<'static> = Borrowed { start: core::ptr::NonNull::dangling().as_ptr(), size: 0, of: PhantomData };
}

impl<T> Default for Borrowed<'_, T> {
    fn default() -> Self {
        Borrowed::from(&[][..])
    }
}
