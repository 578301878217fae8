//! The pointers that a dynamic loader writes, and what they are bound to.

use crate::ffi;
use crate::rows::Row;
use crate::Image;

/// A pointer of 8 bytes that a dynamic loader writes. Only the linked profile judges it.
#[derive(Clone, Copy, Debug, PartialEq, Eq)]
#[non_exhaustive]
pub struct Fixup {
    /// Where the pointer is, before any slide.
    pub address: u64,
    /// The index of its segment, in the order of [`Image::segments`].
    pub segment: u32,
    /// Its offset in the segment, and in the bytes of the segment, which have all of it.
    pub offset: u64,
    /// What is written.
    pub target: FixupTarget,
    /// How the pointer is signed, if it is.
    pub authentication: Option<Authentication>,
}

/// What is written to a pointer.
#[derive(Clone, Copy, Debug, PartialEq, Eq)]
pub enum FixupTarget {
    /// An address of the image itself, which is given before any slide and moves with the image.
    Rebase(u64),
    /// The address of what an import names.
    Bind {
        /// The index of the import, in the order of [`Image::imports`]. In a file that
        /// [`Profile::Linked`](crate::Profile::Linked) refuses it can be past the last import: test it.
        import: u64,
        /// What is added in all to the address that is found, with the addend of the import.
        addend: i64,
    },
}

/// How a pointer is signed. (arm64e)
#[derive(Clone, Copy, Debug, PartialEq, Eq)]
#[non_exhaustive]
pub struct Authentication {
    /// The key, 0 to 3: IA, IB, DA, DB.
    pub key: u8,
    /// A number with which it is signed.
    pub diversity: u16,
    /// Whether it is signed with its own address too.
    pub has_address_diversity: bool,
}

impl<'a> Row<'a> for Fixup {
    type Raw = ffi::Fixup;

    fn new(raw: ffi::Fixup, _: &Image<'a>) -> Self {
        Fixup {
            address: raw.address,
            segment: raw.segment,
            offset: raw.offset,
            target: match raw.kind {
                ffi::REBASE => FixupTarget::Rebase(raw.target),
                _ => FixupTarget::Bind {
                    import: raw.import,
                    addend: raw.addend,
                },
            },
            authentication: (raw.authenticated != 0).then_some(Authentication {
                key: raw.key,
                diversity: raw.diversity,
                has_address_diversity: raw.address_diversity != 0,
            }),
        }
    }
}

/// A symbol that pointers are bound to. Only the linked profile judges it.
#[derive(Clone, Copy, Debug, PartialEq, Eq)]
#[non_exhaustive]
pub struct Import<'a> {
    /// The name of the symbol.
    pub name: &'a [u8],
    /// The library that has it, from 1 on in the order of [`Image::libraries`]. 0 is the image itself, -1 the program,
    /// -2 all images in their order, and -3 all images, whose weak definitions count as one.
    pub library: i64,
    /// A number that is added to the address of the symbol.
    pub addend: i64,
    /// Whether the name need not be found.
    pub is_weak: bool,
}

impl<'a> Row<'a> for Import<'a> {
    type Raw = ffi::Import;

    fn new(raw: ffi::Import, image: &Image<'a>) -> Self {
        Import {
            name: image.part(raw.name),
            library: raw.library,
            addend: raw.addend,
            is_weak: raw.weak != 0,
        }
    }
}
