//! Why a file is refused.

use crate::{ffi, Rule};

macro_rules! kinds {
    ($($(#[$doc:meta])* $name:ident = $number:literal,)*) => {
        /// What a [`Part`] is, and what its index counts.
        #[derive(Clone, Copy, Debug, PartialEq, Eq, Hash)]
        #[non_exhaustive]
        pub enum PartKind {
            $($(#[$doc])* $name,)*
            /// A kind of a newer library, by its number in `kesvuot.h`.
            Unknown(u32),
        }

        impl PartKind {
            /// The kind with this number, `KESVUOT_PART_..`. `None` for 0, which stands for a missing part.
            fn from_number(number: u32) -> Option<PartKind> {
                match number {
                    0 => None,
                    $($number => Some(PartKind::$name),)*
                    _ => Some(PartKind::Unknown(number)),
                }
            }

            /// The kinds with their numbers.
            #[cfg(test)]
            pub(crate) const ALL: &'static [(PartKind, u32)] = &[$((PartKind::$name, $number)),*];
        }
    };
}

kinds! {
    // registry: parts
    /// All bytes of the file.
    File = 1,
    /// The first 4 bytes of the file or, with its index, of a slice.
    Magic = 2,
    /// `fat_header`
    FatHeader = 3,
    /// `fat_header` and all entries.
    FatTable = 4,
    /// `fat_arch` or `fat_arch_64`, with the index of its slice.
    FatArch = 5,
    /// The bytes of the slice with this index.
    Slice = 6,
    /// `mach_header_64`
    Header = 7,
    /// `mach_header_64`, and the `sizeofcmds` bytes after it.
    Headers = 8,
    /// `load_command`: all `cmdsize` bytes, with the index of [`commands`](crate::Image::commands).
    Command = 9,
    /// The file bytes of a segment, with the index of [`segments`](crate::Image::segments).
    Segment = 10,
    /// Its addresses: `vmsize` from `vmaddr` on.
    SegmentMemory = 11,
    /// `section_64`, with the index of [`sections`](crate::Image::sections).
    Section = 12,
    /// The bytes of a section in the file.
    SectionBytes = 13,
    /// Its addresses: `size` from `addr` on.
    SectionMemory = 14,
    /// Its relocations.
    Relocations = 15,
    /// A table that a command bounds. The index counts its tables in the order of "Bounded tables" in
    /// `docs/rules/layout.md`: of `LC_SYMTAB` 0 the symbols, 1 the strings.
    Table = 16,
    /// Indices of symbols: 0 the local, 1 the external, 2 the undefined ones.
    Group = 17,
    /// The bytes from the start of a name to where it has to end.
    Name = 18,
    /// `nlist_64`, with the index of [`symbols`](crate::Image::symbols).
    Symbol = 19,
    /// An indirect entry, with the index of [`indirects`](crate::Image::indirects).
    Indirect = 20,
    /// An opcode with its operands, or one byte if they are not known.
    Opcode = 21,
    /// One byte.
    Byte = 22,
    /// `dyld_chained_fixups_header`, or all of a table that has fewer bytes.
    ChainHeader = 23,
    /// `seg_count` of `dyld_chained_starts_in_image`.
    ChainArray = 24,
    /// `seg_info_offset` of the segment with this index.
    ChainEntry = 25,
    /// `dyld_chained_starts_in_segment` of the segment with this index: all its `size` bytes, or 22 if its first 22 are
    /// not all in the table.
    ChainStarts = 26,
    /// An import of chained fixups. The index counts from 0.
    ChainImport = 27,
    /// `page_start` of the page with this index, which counts from 0.
    PageStart = 28,
    /// A pointer of a chain, 8 bytes, with the index of its page.
    ChainPointer = 29,
    /// A number of `LC_FUNCTION_STARTS`.
    FunctionStart = 30,
    /// `data_in_code_entry`, with the index of [`data_in_code`](crate::Image::data_in_code).
    DataInCodeEntry = 31,
    /// The bytes of the file that it describes, with the same index.
    DataInCode = 32,
    /// A node of an export trie, up to the end of its last edge, or if it does not end in the table, up to the end of
    /// that: no bytes if it would begin past it.
    ExportNode = 33,
    /// `CS_BlobIndex` of a code signature, with its index there.
    SignatureEntry = 34,
    /// The blob of the entry with this index: all its `length` bytes, or 8 if its first 8 are not all in the superblob.
    SignatureBlob = 35,
    /// `relocation_info`. The index counts from 0 in its table.
    Relocation = 36,
    /// The bytes of the page with this index of a code directory.
    CodePage = 37,
    /// A hash in a code directory, of the page or the special slot with this index.
    CodeHash = 38,
    // registry: end
}

/// A structure, or what a structure describes. It lies where the file says, which can be past the
/// file.
#[derive(Clone, Copy, Debug, PartialEq, Eq, Hash)]
#[non_exhaustive]
pub struct Part {
    /// The kind of part.
    pub kind: PartKind,
    /// Which part of its kind it is.
    pub index: Option<u32>,
    /// Its offset in the file; of memory its first address, and of a group its first index.
    pub start: u64,
    /// How many bytes, addresses or indices it has.
    pub size: u64,
    /// The offset in the file of the structure that describes it, which can be itself.
    pub described: u64,
}

impl Part {
    fn new(part: &ffi::Part) -> Option<Part> {
        Some(Part {
            kind: PartKind::from_number(part.kind)?,
            index: index(part.index),
            start: part.start,
            size: part.size,
            described: part.described,
        })
    }
}

/// Why a file is refused. `docs/reference/explain.md` has a table of what each rule gives.
#[derive(Clone, Copy, Debug, PartialEq, Eq, Hash)]
#[non_exhaustive]
pub struct Explanation {
    /// The structure that has the place, or the byte there. It lies in the file.
    pub at: Option<Part>,
    /// What breaks the rule.
    pub first: Option<Part>,
    /// What the first part conflicts with, or should lie in.
    pub second: Option<Part>,
    /// The first of the two numbers that the rule compares.
    pub value: u64,
    /// The second of the two numbers.
    pub limit: u64,
    /// The index of the slice that has the place, or whose entry is there.
    pub slice: Option<u32>,
    /// The index of the load command that has the place.
    pub command: Option<u32>,
    /// The index of the section whose structure has the place.
    pub section: Option<u32>,
    /// The index of the symbol that is at the place.
    pub symbol: Option<u32>,
}

/// Explains a refusal of `file`, as [`Error::Refused`](crate::Error::Refused) has it. The file is not
/// judged again. `None` if the call sees that other bytes were refused: no rule has the number, or
/// nothing that the rule is about is at the place.
///
/// ```
/// use kesvuot::{Error, PartKind, Profile};
///
/// # let path = concat!(env!("CARGO_MANIFEST_DIR"), "/../../tests/real/program");
/// # let file = &std::fs::read(path)?[..12000];
/// if let Err(Error::Refused { rule, place }) = kesvuot::verify(file, Profile::Layout) {
///     let explanation = kesvuot::explain(file, rule, place).unwrap();
///     assert_eq!(explanation.first.unwrap().kind, PartKind::Segment);
///     // The segment ends past the file.
///     assert_eq!((explanation.value, explanation.limit), (0x3000, 12000));
/// }
/// # Ok::<(), std::io::Error>(())
/// ```
///
/// # Panics
///
/// If the library that is linked is of another major version.
#[must_use]
pub fn explain(file: &[u8], rule: Rule, place: u64) -> Option<Explanation> {
    let (status, found) = ffi::explain(file, rule.number(), place);
    if status != ffi::OK {
        return None;
    }
    Some(Explanation {
        at: Part::new(&found.at),
        first: Part::new(&found.first),
        second: Part::new(&found.second),
        value: found.value,
        limit: found.limit,
        slice: index(found.slice),
        command: index(found.command),
        section: index(found.section),
        symbol: index(found.symbol),
    })
}

/// The index, if there is one.
fn index(number: u32) -> Option<u32> {
    (number != ffi::NO_INDEX).then_some(number)
}
