//! Symbols with their names.

use alloc::vec;
use alloc::vec::Vec;
use core::iter::FusedIterator;
use core::{cmp, fmt};

use crate::ffi::{self, Span};
use crate::{Image, Rows, Symbol};

/// The most bytes of strings in which the names of a batch are looked for. A batch has one symbol at
/// least.
const MOST_BYTES: u64 = 1 << 28;

/// Symbols and their names, in the order of the symbols. The name is `None` if `strx` is 0.
///
/// The names are looked up in batches, so a loop over all takes less time than
/// [`Image::name`](crate::Image::name) for each.
#[derive(Clone)]
pub struct NamedSymbols<'a> {
    symbols: Rows<'a, Symbol>,
    /// The names of the next symbols, as far as they were read.
    names: vec::IntoIter<Span>,
}

impl<'a> Rows<'a, Symbol> {
    /// The same symbols, with their names.
    ///
    /// In a hostile file many symbols can share a long name: see [`Image::name`](crate::Image::name).
    ///
    /// ```
    /// # let path = concat!(env!("CARGO_MANIFEST_DIR"), "/../../tests/real/program");
    /// # let file = std::fs::read(path)?;
    /// # let image = kesvuot::verify(&file, kesvuot::Profile::Layout)?.image(0).unwrap();
    /// for (symbol, name) in image.symbols().with_names() {
    ///     assert_eq!(name, image.name(&symbol));
    /// }
    /// # Ok::<(), Box<dyn std::error::Error>>(())
    /// ```
    #[must_use]
    pub fn with_names(self) -> NamedSymbols<'a> {
        NamedSymbols {
            symbols: self,
            names: Vec::new().into_iter(),
        }
    }
}

impl<'a> NamedSymbols<'a> {
    /// Reads the names of the next symbols. All names that were read have been returned.
    fn ask(&mut self) {
        let image = *self.symbols.image();
        let most = most_names(&image);
        let ahead = self.symbols.ahead();
        let ahead = &ahead[..cmp::min(ahead.len(), most)];
        self.names = ffi::read_names(image.file(), image.raw(), ahead).into_iter();
    }
}

/// How many names of an image are looked up at once: fewer if its strings are long.
fn most_names(image: &Image) -> usize {
    let strings = cmp::max(image.raw().strings_size, 1);
    usize::try_from(cmp::max(MOST_BYTES / strings, 1)).unwrap_or(usize::MAX)
}

impl<'a> Iterator for NamedSymbols<'a> {
    type Item = (Symbol, Option<&'a [u8]>);

    #[inline]
    fn next(&mut self) -> Option<Self::Item> {
        if self.names.len() == 0 {
            self.ask();
        }
        let (symbol, name) = (self.symbols.next()?, self.names.next()?);
        let image = self.symbols.image();
        Some((symbol, (symbol.strx != 0).then(|| image.part(name))))
    }

    fn size_hint(&self) -> (usize, Option<usize>) {
        self.symbols.size_hint()
    }
}

impl ExactSizeIterator for NamedSymbols<'_> {}

impl FusedIterator for NamedSymbols<'_> {}

impl fmt::Debug for NamedSymbols<'_> {
    fn fmt(&self, f: &mut fmt::Formatter<'_>) -> fmt::Result {
        f.debug_struct("NamedSymbols")
            .field("len", &self.len())
            .finish()
    }
}

#[cfg(test)]
mod tests {
    use super::*;

    #[test]
    fn of_long_strings_few_names_are_looked_up_at_once() {
        for (strings_size, most) in [(0, 1 << 28), (1 << 20, 256), (1 << 28, 1), (u64::MAX, 1)] {
            let raw = ffi::Image {
                strings_size,
                ..ffi::Image::default()
            };
            assert_eq!(most_names(&Image::new(&[], raw)), most);
        }
    }
}
