//! The rows of the tables of an image: segments, sections and so on.

use core::fmt;
use core::ops::Range;

use crate::constants::{
    EXPORT_SYMBOL_FLAGS_KIND_ABSOLUTE, EXPORT_SYMBOL_FLAGS_KIND_MASK,
    EXPORT_SYMBOL_FLAGS_KIND_REGULAR, EXPORT_SYMBOL_FLAGS_KIND_THREAD_LOCAL,
    EXPORT_SYMBOL_FLAGS_REEXPORT, EXPORT_SYMBOL_FLAGS_STUB_AND_RESOLVER, INDIRECT_SYMBOL_ABS,
    INDIRECT_SYMBOL_LOCAL,
};
use crate::rows::Row;
use crate::{ffi, Image};

/// A name as `Debug` shows it.
pub(crate) struct Text<'a>(pub(crate) &'a [u8]);

impl fmt::Debug for Text<'_> {
    fn fmt(&self, f: &mut fmt::Formatter<'_>) -> fmt::Result {
        write!(f, "\"{}\"", self.0.escape_ascii())
    }
}

/// A segment: addresses, and bytes of the file. (`segment_command_64`)
#[derive(Clone, Copy, PartialEq, Eq)]
#[non_exhaustive]
pub struct Segment<'a> {
    /// The name of the segment, such as `__TEXT`.
    pub name: &'a [u8],
    /// All `filesize` bytes from `fileoff` on.
    pub bytes: &'a [u8],
    /// The first address, before any slide. It is not aligned to a page, and neither is `vmsize`: two
    /// segments can share a page.
    pub vmaddr: u64,
    /// How many addresses the segment has.
    pub vmsize: u64,
    /// Where its bytes begin in the image. Any number if `filesize` is 0.
    pub fileoff: u64,
    /// How many bytes it has in the file.
    pub filesize: u64,
    /// The index of its first section in [`Image::sections`](crate::Image::sections).
    pub first_section: u64,
    /// `nsects`: how many sections it has.
    pub section_count: u32,
    /// The protection that it may get: 1 to read, 2 to write, 4 to execute.
    pub maxprot: u32,
    /// The protection that it has at first.
    pub initprot: u32,
}

impl Segment<'_> {
    /// The indices of its sections in [`Image::sections`](crate::Image::sections).
    #[must_use]
    pub fn section_range(&self) -> Range<usize> {
        let first = self.first_section as usize;
        first..first + self.section_count as usize
    }

    /// Its last address. The sum `vmaddr + vmsize` can be 2^64. `None` if it is not mapped.
    #[must_use]
    pub fn last_address(&self) -> Option<u64> {
        Some(self.vmaddr + self.vmsize.checked_sub(1)?)
    }
}

impl fmt::Debug for Segment<'_> {
    fn fmt(&self, f: &mut fmt::Formatter<'_>) -> fmt::Result {
        f.debug_struct("Segment")
            .field("name", &Text(self.name))
            .field("vmaddr", &self.vmaddr)
            .field("vmsize", &self.vmsize)
            .field("fileoff", &self.fileoff)
            .field("filesize", &self.filesize)
            .finish_non_exhaustive()
    }
}

impl<'a> Row<'a> for Segment<'a> {
    type Raw = ffi::Segment;

    fn new(raw: ffi::Segment, image: &Image<'a>) -> Self {
        Segment {
            name: image.part(raw.name),
            bytes: image.part(raw.bytes),
            vmaddr: raw.vmaddr,
            vmsize: raw.vmsize,
            fileoff: raw.fileoff,
            filesize: raw.filesize,
            first_section: raw.first_section,
            section_count: raw.section_count,
            maxprot: raw.maxprot,
            initprot: raw.initprot,
        }
    }
}

/// A section of a segment. (`section_64`)
#[derive(Clone, Copy, PartialEq, Eq)]
#[non_exhaustive]
pub struct Section<'a> {
    /// The name of the section, such as `__text`.
    pub name: &'a [u8],
    /// The name of the segment that the section is in.
    pub segment: &'a [u8],
    /// All `size` bytes from `offset` on. `None` if a loader fills the section with zeros.
    pub bytes: Option<&'a [u8]>,
    /// The first address, before any slide.
    pub addr: u64,
    /// How many addresses the section has.
    pub size: u64,
    /// Where its bytes begin in the image. Any number if `size` is 0 or `bytes` is `None`.
    pub offset: u32,
    /// Its alignment, as an exponent of 2. Any number.
    pub align: u32,
    /// Where its relocations begin in the image. Any number if `nreloc` is 0.
    pub reloff: u32,
    /// How many relocations it has.
    pub nreloc: u32,
    /// Its type, and its attributes.
    pub flags: u32,
    /// For stubs and pointers: the index of the first indirect entry.
    pub reserved1: u32,
    /// For stubs: how many bytes each has.
    pub reserved2: u32,
}

impl fmt::Debug for Section<'_> {
    fn fmt(&self, f: &mut fmt::Formatter<'_>) -> fmt::Result {
        f.debug_struct("Section")
            .field("segment", &Text(self.segment))
            .field("name", &Text(self.name))
            .field("addr", &self.addr)
            .field("size", &self.size)
            .field("offset", &self.offset)
            .field("flags", &self.flags)
            .finish_non_exhaustive()
    }
}

impl<'a> Row<'a> for Section<'a> {
    type Raw = ffi::Section;

    fn new(raw: ffi::Section, image: &Image<'a>) -> Self {
        Section {
            name: image.part(raw.name),
            segment: image.part(raw.segment),
            bytes: (raw.zero_fill == 0).then(|| image.part(raw.bytes)),
            addr: raw.addr,
            size: raw.size,
            offset: raw.offset,
            align: raw.align,
            reloff: raw.reloff,
            nreloc: raw.nreloc,
            flags: raw.flags,
            reserved1: raw.reserved1,
            reserved2: raw.reserved2,
        }
    }
}

/// A library that an image loads, or what it is as one. (`dylib_command`)
#[derive(Clone, Copy, PartialEq, Eq)]
#[non_exhaustive]
pub struct Library<'a> {
    /// The path of the library.
    pub name: &'a [u8],
    /// `LC_LOAD_DYLIB` or one of its kin; of [`Image::id`] `LC_ID_DYLIB`.
    pub cmd: u32,
    /// The current version X.Y.Z: X << 16 | Y << 8 | Z.
    pub current: u32,
    /// The compatibility version, in the same form.
    pub compatible: u32,
}

impl fmt::Debug for Library<'_> {
    fn fmt(&self, f: &mut fmt::Formatter<'_>) -> fmt::Result {
        f.debug_struct("Library")
            .field("name", &Text(self.name))
            .field("cmd", &self.cmd)
            .field("current", &self.current)
            .field("compatible", &self.compatible)
            .finish_non_exhaustive()
    }
}

impl<'a> Row<'a> for Library<'a> {
    type Raw = ffi::Library;

    fn new(raw: ffi::Library, image: &Image<'a>) -> Self {
        Library {
            name: image.part(raw.name),
            cmd: raw.cmd,
            current: raw.current,
            compatible: raw.compatible,
        }
    }
}

/// A platform that an image was built for. (`build_version_command`, `version_min_command`)
#[derive(Clone, Copy, Debug, PartialEq, Eq)]
#[non_exhaustive]
pub struct Build {
    /// The platform, such as `PLATFORM_MACOS`. For an `LC_VERSION_MIN_IPHONEOS`, `LC_VERSION_MIN_TVOS` or
    /// `LC_VERSION_MIN_WATCHOS` it is the device, also in an image for its simulator.
    pub platform: u32,
    /// The least version X.Y.Z of the platform: X << 16 | Y << 8 | Z.
    pub minos: u32,
    /// The version of the SDK, in the same form.
    pub sdk: u32,
    /// The type of its command: `LC_BUILD_VERSION` (0x32), or one of the four that name the least version
    /// of a platform, such as `LC_VERSION_MIN_MACOSX` (0x24).
    pub cmd: u32,
}

impl<'a> Row<'a> for Build {
    type Raw = ffi::Build;

    fn new(raw: ffi::Build, _: &Image<'a>) -> Self {
        Build {
            platform: raw.platform,
            minos: raw.minos,
            sdk: raw.sdk,
            cmd: raw.cmd,
        }
    }
}

/// A relocation. (`relocation_info` of `<mach-o/reloc.h>`) No rule judges its fields.
#[derive(Clone, Copy, Debug, PartialEq, Eq)]
#[non_exhaustive]
pub struct Relocation {
    /// `r_address`, as the file has its 32 bits.
    pub address: u32,
    /// `r_symbolnum`, of 24 bits: the index of a symbol if it `is_external`, otherwise the number of a
    /// section.
    pub symbolnum: u32,
    /// `r_pcrel`
    pub is_pcrel: bool,
    /// `r_length`, from 0 to 3: 1 << `length` bytes are relocated.
    pub length: u8,
    /// `r_extern`
    pub is_external: bool,
    /// `r_type`, from 0 to 15.
    pub kind: u8,
    /// The highest bit of `address`, `R_SCATTERED`. In an image that is not for x86_64 it means that this
    /// is a `scattered_relocation_info`, whose fields are other bits.
    pub is_scattered: bool,
}

impl From<ffi::Relocation> for Relocation {
    fn from(raw: ffi::Relocation) -> Self {
        Relocation {
            address: raw.address,
            symbolnum: raw.symbolnum,
            is_pcrel: raw.pcrel != 0,
            length: raw.length,
            is_external: raw.external != 0,
            kind: raw.r#type,
            is_scattered: raw.scattered != 0,
        }
    }
}

/// Data in code. (`data_in_code_entry` of `<mach-o/loader.h>`) The linked profile judges its fields.
#[derive(Clone, Copy, Debug, PartialEq, Eq)]
#[non_exhaustive]
pub struct DataInCode<'a> {
    /// The data, empty if it does not all lie in the image.
    pub bytes: &'a [u8],
    /// Where it begins in the image.
    pub offset: u32,
    /// How many bytes it has.
    pub length: u16,
    /// A `DICE_KIND` constant, such as `DICE_KIND_DATA`, or any other number.
    pub kind: u16,
}

impl<'a> Row<'a> for DataInCode<'a> {
    type Raw = ffi::DataInCode;

    fn new(raw: ffi::DataInCode, image: &Image<'a>) -> Self {
        DataInCode {
            bytes: image.part(raw.bytes),
            offset: raw.offset,
            length: raw.length,
            kind: raw.kind,
        }
    }
}

/// What an image offers to others under a name. Only the linked profile judges its fields.
#[derive(Clone, Copy, Debug, PartialEq, Eq)]
#[non_exhaustive]
pub struct Export<'a> {
    /// `EXPORT_SYMBOL_FLAGS_WEAK_DEFINITION` and other such bits, or any other number.
    pub flags: u64,
    /// What the name leads to, as the flags say.
    pub kind: ExportKind<'a>,
}

/// What an exported name leads to. Addresses are before any slide, and can be in no segment.
#[derive(Clone, Copy, Debug, PartialEq, Eq)]
#[non_exhaustive]
pub enum ExportKind<'a> {
    /// An address in the image.
    Regular(u64),
    /// The address of what describes a thread-local variable.
    ThreadLocal(u64),
    /// A number that no slide changes.
    Absolute(u64),
    /// A function that another one finds.
    Resolved {
        /// The address of a stub, which calls it.
        stub: u64,
        /// The address of the function that finds it.
        resolver: u64,
    },
    /// A symbol of another library.
    ReExport {
        /// Which of [`Image::libraries`] has it, counted from 1 on, or any other number.
        ordinal: u64,
        /// Its name there, empty if that is the same.
        name: &'a [u8],
    },
    /// An address, of a kind that `<mach-o/loader.h>` does not name.
    Other(u64),
}

impl<'a> Export<'a> {
    pub(crate) fn new(raw: ffi::Export, image: &Image<'a>) -> Self {
        let has = |flag| raw.flags & flag != 0;
        let kind = if has(EXPORT_SYMBOL_FLAGS_REEXPORT) {
            ExportKind::ReExport {
                ordinal: raw.ordinal,
                name: image.part(raw.name),
            }
        } else if has(EXPORT_SYMBOL_FLAGS_STUB_AND_RESOLVER) {
            ExportKind::Resolved {
                stub: raw.address,
                resolver: raw.resolver,
            }
        } else {
            match raw.flags & EXPORT_SYMBOL_FLAGS_KIND_MASK {
                EXPORT_SYMBOL_FLAGS_KIND_REGULAR => ExportKind::Regular(raw.address),
                EXPORT_SYMBOL_FLAGS_KIND_THREAD_LOCAL => ExportKind::ThreadLocal(raw.address),
                EXPORT_SYMBOL_FLAGS_KIND_ABSOLUTE => ExportKind::Absolute(raw.address),
                _ => ExportKind::Other(raw.address),
            }
        };
        Export {
            flags: raw.flags,
            kind,
        }
    }
}

/// The address of a function.
impl<'a> Row<'a> for u64 {
    type Raw = u64;

    fn new(raw: u64, _: &Image<'a>) -> Self {
        raw
    }
}

macro_rules! tables {
    ($($(#[$doc:meta])* $name:ident = $number:literal,)*) => {
        /// A table of an image, by the command that bounds it.
        #[derive(Clone, Copy, Debug, PartialEq, Eq, Hash)]
        #[non_exhaustive]
        pub enum Table {
            $($(#[$doc])* $name = $number,)*
        }

        impl Table {
            /// All tables that this crate knows.
            pub const ALL: &'static [Table] = &[$(Table::$name),*];

            /// The number of the table in `kesvuot.h`.
            #[must_use]
            pub fn number(self) -> u32 {
                self as u32
            }
        }
    };
}

tables! {
    // registry: tables
    /// `symoff` and `nsyms` of `LC_SYMTAB`: `nlist_64` of 16 bytes.
    Symbols = 1,
    /// `stroff` and `strsize` of `LC_SYMTAB`: the strings of the symbols.
    Strings = 2,
    /// `tocoff` and `ntoc` of `LC_DYSYMTAB`: `dylib_table_of_contents` of 8 bytes.
    Contents = 3,
    /// `modtaboff` and `nmodtab` of `LC_DYSYMTAB`: `dylib_module_64` of 56 bytes.
    Modules = 4,
    /// `extrefsymoff` and `nextrefsyms` of `LC_DYSYMTAB`: `dylib_reference` of 4 bytes.
    References = 5,
    /// `indirectsymoff` and `nindirectsyms` of `LC_DYSYMTAB`: indirect entries of 4 bytes.
    Indirects = 6,
    /// `extreloff` and `nextrel` of `LC_DYSYMTAB`: `relocation_info` of 8 bytes.
    ExternalRelocations = 7,
    /// `locreloff` and `nlocrel` of `LC_DYSYMTAB`: `relocation_info` of 8 bytes.
    LocalRelocations = 8,
    /// `rebase_off` and `rebase_size` of `LC_DYLD_INFO` or `LC_DYLD_INFO_ONLY`: bytes.
    Rebase = 9,
    /// `bind_off` and `bind_size` of `LC_DYLD_INFO` or `LC_DYLD_INFO_ONLY`: bytes.
    Bind = 10,
    /// `weak_bind_off` and `weak_bind_size` of `LC_DYLD_INFO` or `LC_DYLD_INFO_ONLY`: bytes.
    WeakBind = 11,
    /// `lazy_bind_off` and `lazy_bind_size` of `LC_DYLD_INFO` or `LC_DYLD_INFO_ONLY`: bytes.
    LazyBind = 12,
    /// `export_off` and `export_size` of `LC_DYLD_INFO` or `LC_DYLD_INFO_ONLY`: bytes.
    Export = 13,
    /// `cryptoff` and `cryptsize` of `LC_ENCRYPTION_INFO_64`: bytes.
    Encrypted = 14,
    // registry: end
}

/// A load command. (`load_command`)
///
/// In a command that `docs/rules/layout.md` does not list, all fields past `cmdsize` are unchecked.
#[derive(Clone, Copy, PartialEq, Eq)]
#[non_exhaustive]
pub struct Command<'a> {
    /// All `cmdsize` bytes.
    pub bytes: &'a [u8],
    /// The name in a command of a library, in `LC_RPATH`, `LC_LOAD_DYLINKER` and their kin. In all
    /// others it is empty.
    pub name: &'a [u8],
    /// Where the command begins in the image.
    pub place: u64,
    /// The type of the command, such as `LC_SEGMENT_64`.
    pub cmd: u32,
}

impl fmt::Debug for Command<'_> {
    fn fmt(&self, f: &mut fmt::Formatter<'_>) -> fmt::Result {
        f.debug_struct("Command")
            .field("place", &self.place)
            .field("cmd", &self.cmd)
            .field("size", &self.bytes.len())
            .field("name", &Text(self.name))
            .finish_non_exhaustive()
    }
}

impl<'a> Row<'a> for Command<'a> {
    type Raw = ffi::Command;

    fn new(raw: ffi::Command, image: &Image<'a>) -> Self {
        Command {
            bytes: image.part(raw.bytes),
            name: image.part(raw.name),
            place: raw.bytes.offset - image.place(),
            cmd: raw.cmd,
        }
    }
}

/// An indirect entry: which symbol a stub or a pointer is for.
#[derive(Clone, Copy, Debug, PartialEq, Eq)]
#[non_exhaustive]
pub struct Indirect {
    /// The index of a symbol, or `INDIRECT_SYMBOL_LOCAL` or `INDIRECT_SYMBOL_ABS` or both.
    pub value: u32,
}

impl Indirect {
    /// The index of the symbol. `None` if the entry is marked local or absolute.
    #[must_use]
    pub fn symbol_index(self) -> Option<u64> {
        let is_marked = self.value & (INDIRECT_SYMBOL_LOCAL | INDIRECT_SYMBOL_ABS) != 0;
        (!is_marked).then(|| u64::from(self.value))
    }
}

impl<'a> Row<'a> for Indirect {
    type Raw = u32;

    const IS_INDEXED: bool = true;

    fn new(value: u32, _: &Image<'a>) -> Self {
        Indirect { value }
    }
}
