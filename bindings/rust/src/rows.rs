//! The rows of a table, read from the library in batches.

use alloc::vec;
use alloc::vec::Vec;
use core::iter::FusedIterator;
use core::ops::Range;
use core::{cmp, fmt};

use crate::ffi::{Cursor, Raw};
use crate::Image;

/// How many rows to ask for at once. Batches of any size cost the same.
const BATCH: u64 = 256;

/// A row, which is made of what the library writes.
pub trait Row<'a> {
    type Raw: Raw;

    /// Whether the library finds a row by its index, without a walk over the load commands.
    const IS_INDEXED: bool = false;

    /// Makes the row, of this image.
    fn new(raw: Self::Raw, image: &Image<'a>) -> Self;
}

/// Rows of a table of an image, in the order of the table.
#[derive(Clone)]
pub struct Rows<'a, T: Row<'a>> {
    image: Image<'a>,
    /// Rows that were read and not yet returned.
    held: vec::IntoIter<T::Raw>,
    /// Where the rows after them are.
    cursor: Cursor,
    /// How many these are.
    left: u64,
}

impl<'a, T: Row<'a>> Rows<'a, T>
where
    T::Raw: Raw<Cursor = Cursor>,
{
    /// The first rows of a table.
    pub(crate) fn new(image: Image<'a>, count: u64) -> Self {
        Rows {
            image,
            held: Vec::new().into_iter(),
            cursor: Cursor::default(),
            left: count,
        }
    }

    /// Rows of a table whose rows are found by their index.
    pub(crate) fn range(image: Image<'a>, range: Range<u64>) -> Self {
        let mut rows = Rows::new(image, range.end - range.start);
        rows.cursor.items = range.start;
        rows
    }

    /// Reads the next rows. All rows that were held have been returned.
    fn ask(&mut self) {
        let count = cmp::min(self.left, BATCH);
        let mut rows = vec![T::Raw::default(); to_usize(count)];
        let written = T::Raw::fill(
            self.image.file(),
            self.image.raw(),
            &mut self.cursor,
            &mut rows,
        );
        rows.truncate(written);
        self.held = rows.into_iter();
        self.left -= count;
    }

    /// The next rows, without going on. Empty only past the last row.
    #[inline]
    pub(crate) fn ahead(&mut self) -> &[T::Raw] {
        if self.held.len() == 0 && self.left > 0 {
            self.ask();
        }
        self.held.as_slice()
    }

    /// The image of the rows.
    #[inline]
    pub(crate) fn image(&self) -> &Image<'a> {
        &self.image
    }

    /// Skips rows that were not read.
    fn skip_unread(&mut self, count: u64) {
        let skipped = cmp::min(count, self.left);
        self.cursor.items += skipped;
        self.left -= skipped;
    }
}

/// The library is for 64-bit machines, so no count is truncated.
fn to_usize(count: u64) -> usize {
    usize::try_from(count).unwrap_or(usize::MAX)
}

impl<'a, T: Row<'a>> Iterator for Rows<'a, T>
where
    T::Raw: Raw<Cursor = Cursor>,
{
    type Item = T;

    fn next(&mut self) -> Option<T> {
        self.ahead();
        Some(T::new(self.held.next()?, &self.image))
    }

    fn size_hint(&self) -> (usize, Option<usize>) {
        let count = self.held.len() + to_usize(self.left);
        (count, Some(count))
    }

    /// Skips rows, without reading those that are found by their index.
    fn nth(&mut self, n: usize) -> Option<T> {
        let mut past = n;
        while past >= self.held.len() {
            past -= self.held.len();
            self.held = Vec::new().into_iter();
            if T::IS_INDEXED {
                self.skip_unread(past as u64);
                past = 0;
            }
            if self.left == 0 {
                return None;
            }
            self.ask();
        }
        Some(T::new(self.held.nth(past)?, &self.image))
    }
}

impl<'a, T: Row<'a>> ExactSizeIterator for Rows<'a, T> where T::Raw: Raw<Cursor = Cursor> {}

impl<'a, T: Row<'a>> FusedIterator for Rows<'a, T> where T::Raw: Raw<Cursor = Cursor> {}

impl<'a, T: Row<'a>> fmt::Debug for Rows<'a, T>
where
    T::Raw: Raw<Cursor = Cursor>,
{
    fn fmt(&self, f: &mut fmt::Formatter<'_>) -> fmt::Result {
        f.debug_struct("Rows").field("len", &self.len()).finish()
    }
}

/// Rows of a table of an image whose length nothing says, in the order of the table.
#[derive(Clone)]
pub struct UncountedRows<'a, T: Row<'a>> {
    image: Image<'a>,
    /// Rows that were read and not yet returned.
    held: vec::IntoIter<T::Raw>,
    /// Where the rows after them are.
    cursor: <T::Raw as Raw>::Cursor,
    /// Whether the table has no rows after them.
    is_last: bool,
}

impl<'a, T: Row<'a>> UncountedRows<'a, T> {
    /// The first rows of a table.
    pub(crate) fn new(image: Image<'a>) -> Self {
        UncountedRows {
            image,
            held: Vec::new().into_iter(),
            cursor: <T::Raw as Raw>::Cursor::default(),
            is_last: false,
        }
    }
}

impl<'a, T: Row<'a>> Iterator for UncountedRows<'a, T> {
    type Item = T;

    fn next(&mut self) -> Option<T> {
        if self.held.len() == 0 && !self.is_last {
            let mut rows = vec![T::Raw::default(); to_usize(BATCH)];
            let (file, image) = (self.image.file(), self.image.raw());
            let written = T::Raw::fill(file, image, &mut self.cursor, &mut rows);
            self.is_last = written < rows.len();
            rows.truncate(written);
            self.held = rows.into_iter();
        }
        Some(T::new(self.held.next()?, &self.image))
    }
}

impl<'a, T: Row<'a>> FusedIterator for UncountedRows<'a, T> {}

impl<'a, T: Row<'a>> fmt::Debug for UncountedRows<'a, T> {
    fn fmt(&self, f: &mut fmt::Formatter<'_>) -> fmt::Result {
        f.debug_struct("UncountedRows").finish_non_exhaustive()
    }
}

#[cfg(test)]
mod tests {
    use std::cell::RefCell;
    use std::marker::PhantomData;
    use std::thread_local;

    use super::*;
    use crate::ffi;
    use crate::{Indirect, Segment, Symbol};

    thread_local! {
        /// Each call of the library: the first row by the cursor, and for how many rows it has room.
        static CALLS: RefCell<Vec<(u64, usize)>> = const { RefCell::new(Vec::new()) };
    }

    #[derive(Clone, Copy, Default)]
    struct Noted(u64);

    impl Raw for Noted {
        type Cursor = Cursor;

        fn fill(_: &[u8], _: &ffi::Image, cursor: &mut Cursor, rows: &mut [Self]) -> usize {
            CALLS.with(|calls| calls.borrow_mut().push((cursor.items, rows.len())));
            for row in rows.iter_mut() {
                *row = Noted(cursor.items);
                cursor.items += 1;
            }
            rows.len()
        }
    }

    /// A row that has only its index, and is asked for like a row of the table `T`.
    #[derive(Debug, PartialEq)]
    struct Like<T>(u64, PhantomData<T>);

    impl<'a, T: Row<'a>> Row<'a> for Like<T> {
        type Raw = Noted;

        const IS_INDEXED: bool = T::IS_INDEXED;

        fn new(raw: Noted, _: &Image<'a>) -> Self {
            Like(raw.0, PhantomData)
        }
    }

    fn rows<'a, T: Row<'a>>(range: Range<u64>) -> Rows<'a, Like<T>> {
        CALLS.with(|calls| calls.borrow_mut().clear());
        Rows::range(Image::new(&[], ffi::Image::default()), range)
    }

    fn calls() -> Vec<(u64, usize)> {
        CALLS.with(|calls| calls.borrow().clone())
    }

    /// The calls for all rows of a range.
    fn calls_for(range: Range<u64>) -> Vec<(u64, usize)> {
        let indices: Vec<_> = rows::<Segment>(range.clone()).map(|row| row.0).collect();
        assert!(range.eq(indices));
        calls()
    }

    #[test]
    fn rows_come_in_batches() {
        assert_eq!(calls_for(0..0), []);
        assert_eq!(calls_for(0..600), [(0, 256), (256, 256), (512, 88)]);
        assert_eq!(calls_for(100..356), [(100, 256)]);
    }

    /// The row after this many, and the one after it.
    fn skip<'a, T: Row<'a>>(range: Range<u64>, n: usize) -> (Option<u64>, Option<u64>) {
        let mut rows = rows::<T>(range);
        (rows.nth(n).map(|row| row.0), rows.next().map(|row| row.0))
    }

    #[test]
    fn rows_are_skipped() {
        for n in [0, 1, 255, 256, 257, 511, 512, 598, 599, 600, usize::MAX] {
            let wanted = (
                (n < 600).then_some(n as u64),
                (n < 599).then(|| n as u64 + 1),
            );
            assert_eq!(skip::<Segment>(0..600, n), wanted, "{n}");
            assert_eq!(skip::<Symbol>(0..600, n), wanted, "{n}");
        }
        let mut symbols = rows::<Symbol>(0..10_000);
        assert_eq!(symbols.nth(9_000).map(|row| row.0), Some(9_000));
        assert_eq!(calls(), [(9_000, 256)]);
        assert_eq!([Symbol::IS_INDEXED, Indirect::IS_INDEXED], [true; 2]);
    }
}
