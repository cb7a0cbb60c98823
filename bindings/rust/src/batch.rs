//! Records that the archive is asked for by many at once.

use crate::Error;

// The first record of a call for one.
pub(crate) fn one<T: Copy + Default>(ask: impl FnOnce(&mut [T]) -> Result<u64, Error>) -> Result<T, Error> {
    let mut records = [T::default()];
    ask(&mut records).map(|_| records[0])
}

// The records of one call, and which of them is next.
#[derive(Clone, Debug)]
pub(crate) struct Batch<T, const N: usize> {
    // The index of the first record, how many there are, and which is next.
    first: u64,
    count: usize,
    next: usize,
    records: [T; N],
}

impl<T: Copy + Default, const N: usize> Batch<T, N> {
    pub(crate) fn new() -> Batch<T, N> {
        Batch { first: 0, count: 0, next: 0, records: [T::default(); N] }
    }

    // The records from index 0 on, which `ask` gives as it does for `next`.
    pub(crate) fn items(ask: impl FnMut(u64, &mut [T]) -> Result<u64, Error>) -> impl Iterator<Item = T> {
        let mut records = Batch::<T, N>::counted(0, ask);
        core::iter::from_fn(move || records.next())
    }

    // The same where it is known how many there are.
    pub(crate) fn counted<F: FnMut(u64, &mut [T]) -> Result<u64, Error>>(count: u64, ask: F) -> Counted<F, T, N> {
        Counted { batch: Batch::new(), count, ask }
    }

    // The next record, with its index. Where there is none left, `ask` puts those from an index on to the front of a
    // slice, and says how many.
    #[inline]
    pub(crate) fn next(&mut self, ask: impl FnOnce(u64, &mut [T]) -> Result<u64, Error>) -> Option<(u64, T)> {
        if self.next == self.count {
            self.refill(ask)?;
        }
        let record = *self.records.get(self.next)?;
        let index = self.first + self.next as u64;
        self.next += 1;
        Some((index, record))
    }

    // What `size_hint` says of so many records in all.
    pub(crate) fn left(&self, count: u64) -> (usize, Option<usize>) {
        let left = count.saturating_sub(self.first + self.next as u64) as usize;
        (left, Some(left))
    }

    #[cold]
    fn refill(&mut self, ask: impl FnOnce(u64, &mut [T]) -> Result<u64, Error>) -> Option<()> {
        let first = self.first + self.count as u64;
        let count = ask(first, &mut self.records).ok()?;
        (self.first, self.count, self.next) = (first, (count as usize).min(N), 0);
        (count > 0).then_some(())
    }
}

// Records in order, of which there are `count`.
pub(crate) struct Counted<F, T, const N: usize> {
    batch: Batch<T, N>,
    count: u64,
    ask: F,
}

impl<F: FnMut(u64, &mut [T]) -> Result<u64, Error>, T: Copy + Default, const N: usize> Iterator for Counted<F, T, N> {
    type Item = T;

    fn next(&mut self) -> Option<T> {
        self.batch.next(&mut self.ask).map(|(_, record)| record)
    }

    fn size_hint(&self) -> (usize, Option<usize>) {
        self.batch.left(self.count)
    }
}

impl<F: FnMut(u64, &mut [T]) -> Result<u64, Error>, T: Copy + Default, const N: usize> ExactSizeIterator for Counted<F, T, N> {}
