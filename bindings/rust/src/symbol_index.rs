//! The symbols of an image by address.

use alloc::vec;
use alloc::vec::Vec;
use core::fmt;

use crate::rows::Row;
use crate::{ffi, Image, Symbol};

/// The symbols of an image that are defined in a section, without debugging entries, by ascending addresses.
/// Symbols at one address are in the order of the table. The index takes 4 bytes for each symbol.
///
/// ```
/// # let path = concat!(env!("CARGO_MANIFEST_DIR"), "/../../tests/real/program");
/// # let file = std::fs::read(path)?;
/// # let image = kesvuot::verify(&file, kesvuot::Profile::Layout)?.image(0).unwrap();
/// let index = image.symbol_index();
/// let symbol = index.symbol_at(0x1_0000_045a).unwrap();
/// assert_eq!(image.name(&symbol), Some(b"_start".as_slice()));
/// assert_eq!(symbol.value, 0x1_0000_0440);
/// # Ok::<(), Box<dyn std::error::Error>>(())
/// ```
#[derive(Clone)]
pub struct SymbolIndex<'a> {
    image: Image<'a>,
    index: Vec<u32>,
}

impl<'a> SymbolIndex<'a> {
    pub(crate) fn of(image: Image<'a>) -> Self {
        let mut index = vec![0; image.symbols().len()];
        let count = ffi::index_symbols(image.file(), image.raw(), &mut index);
        index.truncate(count);
        SymbolIndex { image, index }
    }

    /// The nearest symbol at or before an address, before any slide; of several at one address the last
    /// in the table. `None` if no symbol begins at or before the address.
    ///
    /// The symbol may be of another section than the address, or end before it: the format has no sizes
    /// of symbols.
    #[must_use]
    pub fn symbol_at(&self, address: u64) -> Option<Symbol> {
        self.find(address)
            .map(|(symbol, _)| Symbol::new(symbol, &self.image))
    }

    /// The position in [`indices`](SymbolIndex::indices) of the symbol that
    /// [`symbol_at`](SymbolIndex::symbol_at) returns.
    #[must_use]
    pub fn position_at(&self, address: u64) -> Option<usize> {
        self.find(address).map(|(_, position)| position)
    }

    fn find(&self, address: u64) -> Option<(ffi::Symbol, usize)> {
        let (file, raw) = (self.image.file(), self.image.raw());
        let (status, symbol, position) = ffi::find_symbol(file, raw, &self.index, address);
        (status == ffi::OK).then_some((symbol, position))
    }

    /// The indices in the table of the symbols, by ascending addresses.
    #[must_use]
    pub fn indices(&self) -> &[u32] {
        &self.index
    }
}

impl fmt::Debug for SymbolIndex<'_> {
    fn fmt(&self, f: &mut fmt::Formatter<'_>) -> fmt::Result {
        f.debug_struct("SymbolIndex")
            .field("len", &self.index.len())
            .finish_non_exhaustive()
    }
}
