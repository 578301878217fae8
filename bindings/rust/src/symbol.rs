//! A symbol: what its bits say.

use crate::constants::{
    DYNAMIC_LOOKUP_ORDINAL, EXECUTABLE_ORDINAL, MH_TWOLEVEL, N_ABS, N_ALT_ENTRY, N_EXT, N_INDR,
    N_PBUD, N_PEXT, N_SECT, N_STAB, N_TYPE, N_UNDF, N_WEAK_DEF, N_WEAK_REF, SELF_LIBRARY_ORDINAL,
};
use crate::rows::Row;
use crate::{ffi, Image};

/// A symbol. (`nlist_64`)
///
/// Methods of the image say more of it: [`name`](Image::name), [`other_name`](Image::other_name) and
/// [`library_of`](Image::library_of).
#[derive(Clone, Copy, Debug, PartialEq, Eq)]
#[non_exhaustive]
pub struct Symbol {
    /// `n_value`: the address of a symbol that is defined in a section, before any slide. In an indirect
    /// symbol it is an offset in the string table.
    pub value: u64,
    /// `n_strx`: where the name begins in the string table, or 0 if it has none.
    pub strx: u32,
    /// `n_desc`, which the methods decode.
    pub desc: u16,
    /// `n_type`, which the methods decode.
    pub n_type: u8,
    /// `n_sect`: the number of a section, from 1 on, from which `section` is. It is 0 (`NO_SECT`) if the
    /// symbol is in no section, and may be past the last section, such as in a debugging entry
    /// (`N_STAB`).
    pub sect: u8,
    /// The index in [`Image::sections`] of the section with the number `sect`, whatever the type is, or
    /// `None` without one. The symbol is defined in that section only if its kind is
    /// [`SymbolKind::Section`]: then this is always an index.
    pub section: Option<usize>,
}

/// The kind of a symbol, by `N_TYPE` of its `n_type`.
#[derive(Clone, Copy, Debug, PartialEq, Eq, Hash)]
#[non_exhaustive]
pub enum SymbolKind {
    /// It is an entry for debuggers (`N_STAB`). Its `n_type` says which, and no other bit of it means
    /// anything.
    Debugging,
    /// It is defined in another image (`N_UNDF`), or in none.
    Undefined,
    /// It is undefined too, and was bound before (`N_PBUD`).
    Prebound,
    /// Its value is a number that no slide changes (`N_ABS`).
    Absolute,
    /// It is defined in a section (`N_SECT`).
    Section,
    /// It stands for the symbol whose name is [`Image::other_name`] (`N_INDR`).
    Indirect,
    /// It has a type that `<mach-o/nlist.h>` does not name.
    Other,
}

/// Where a dynamic loader looks a symbol up.
#[derive(Clone, Copy, Debug, PartialEq, Eq, Hash)]
pub enum SymbolLibrary {
    /// The library with this index in [`Image::libraries`]. In a file that [`Profile::Linked`](crate::Profile::Linked)
    /// accepts the library exists. In any other file the index can be past the last library.
    Index(usize),
    /// The image itself (`SELF_LIBRARY_ORDINAL`).
    ThisImage,
    /// Any image (`DYNAMIC_LOOKUP_ORDINAL`).
    DynamicLookup,
    /// The program that loads the image (`EXECUTABLE_ORDINAL`).
    Executable,
}

impl Symbol {
    /// The kind of the symbol.
    #[must_use]
    pub fn kind(&self) -> SymbolKind {
        if self.n_type & N_STAB != 0 {
            return SymbolKind::Debugging;
        }
        match self.n_type & N_TYPE {
            N_UNDF => SymbolKind::Undefined,
            N_PBUD => SymbolKind::Prebound,
            N_ABS => SymbolKind::Absolute,
            N_SECT => SymbolKind::Section,
            N_INDR => SymbolKind::Indirect,
            _ => SymbolKind::Other,
        }
    }

    /// Whether other images see the symbol, or define it (`N_EXT`). No debugging entry is external.
    #[must_use]
    pub fn is_external(&self) -> bool {
        self.kind() != SymbolKind::Debugging && self.n_type & N_EXT != 0
    }

    /// Whether the symbol was external, and a linker has made it private (`N_PEXT`).
    #[must_use]
    pub fn is_private(&self) -> bool {
        self.kind() != SymbolKind::Debugging && self.n_type & N_PEXT != 0
    }

    /// Whether the symbol is undefined, and may be missing when the image is loaded (`N_WEAK_REF`).
    #[must_use]
    pub fn is_weak_reference(&self) -> bool {
        self.is_undefined() && self.desc & N_WEAK_REF != 0
    }

    /// Whether the symbol is defined, and another definition can take its place (`N_WEAK_DEF`).
    #[must_use]
    pub fn is_weak_definition(&self) -> bool {
        self.is_defined() && self.desc & N_WEAK_DEF != 0
    }

    /// Whether the symbol is an entry in the middle of what the symbol before it names (`N_ALT_ENTRY`).
    #[must_use]
    pub fn is_alternate_entry(&self) -> bool {
        self.kind() == SymbolKind::Section && self.desc & N_ALT_ENTRY != 0
    }

    /// The index in [`Image::sections`] of the section that defines the symbol. `None` if the symbol is
    /// defined elsewhere or nowhere, or is a debugging entry, even if that has a `section`.
    #[must_use]
    pub fn section_index(&self) -> Option<usize> {
        self.section.filter(|_| self.kind() == SymbolKind::Section)
    }

    /// Whether the image defines the symbol.
    fn is_defined(&self) -> bool {
        use SymbolKind::{Absolute, Indirect, Section};
        matches!(self.kind(), Absolute | Indirect | Section)
    }

    /// Whether another image defines the symbol. Then the upper byte of `desc` is the ordinal of a library.
    fn is_undefined(&self) -> bool {
        matches!(self.kind(), SymbolKind::Undefined | SymbolKind::Prebound)
    }
}

impl<'a> Image<'a> {
    /// Where a symbol of this image is looked up. `None` if it is not undefined, or if the image is not
    /// two-level (`MH_TWOLEVEL`): then each image may define the symbol.
    ///
    /// ```
    /// # let path = concat!(env!("CARGO_MANIFEST_DIR"), "/../../tests/real/program");
    /// # let file = std::fs::read(path)?;
    /// # let image = kesvuot::verify(&file, kesvuot::Profile::Layout)?.image(0).unwrap();
    /// use kesvuot::SymbolLibrary;
    ///
    /// let step = image.undefined_symbols().next().unwrap();
    /// assert_eq!(image.library_of(&step), Some(SymbolLibrary::Index(0)));
    /// # Ok::<(), Box<dyn std::error::Error>>(())
    /// ```
    #[must_use]
    pub fn library_of(&self, symbol: &Symbol) -> Option<SymbolLibrary> {
        let is_common = symbol.kind() == SymbolKind::Undefined && symbol.value != 0;
        if self.flags() & MH_TWOLEVEL == 0 || !symbol.is_undefined() || is_common {
            return None;
        }
        Some(match symbol.desc >> 8 {
            SELF_LIBRARY_ORDINAL => SymbolLibrary::ThisImage,
            DYNAMIC_LOOKUP_ORDINAL => SymbolLibrary::DynamicLookup,
            EXECUTABLE_ORDINAL => SymbolLibrary::Executable,
            ordinal => SymbolLibrary::Index(usize::from(ordinal) - 1),
        })
    }

    /// The name of the symbol for which a symbol of this image stands, by the offset in the string table that
    /// is its value. `None` if its kind is not [`SymbolKind::Indirect`].
    #[must_use]
    pub fn other_name(&self, symbol: &Symbol) -> Option<&'a [u8]> {
        let strx = u32::try_from(symbol.value).ok()?;
        let (status, name) = ffi::symbol_name(self.file(), self.raw(), strx);
        let has_name = symbol.kind() == SymbolKind::Indirect && status == ffi::OK;
        has_name.then(|| self.part(name))
    }
}

impl<'a> Row<'a> for Symbol {
    type Raw = ffi::Symbol;

    const IS_INDEXED: bool = true;

    #[inline]
    fn new(raw: ffi::Symbol, _: &Image<'a>) -> Self {
        Symbol {
            value: raw.value,
            strx: raw.strx,
            desc: raw.desc,
            n_type: raw.r#type,
            sect: raw.sect,
            section: (raw.section != ffi::NO_SECTION).then_some(raw.section as usize),
        }
    }
}
