//! An image of an accepted file.

use core::fmt;

use crate::exports::Exports;
use crate::ffi::{self, Raw, Span};
use crate::fixups::{Fixup, Import};
use crate::parts::{
    Build, Command, DataInCode, Export, Indirect, Library, Relocation, Section, Segment, Table,
};
use crate::rows::{Row, Rows, UncountedRows};
use crate::signature::Blob;
use crate::symbol::Symbol;
use crate::symbol_index::SymbolIndex;

/// An image of an accepted file.
///
/// `<mach-o/loader.h>` and `<mach-o/nlist.h>` explain the fields. Offsets count from the start of
/// the image, but [`place`](Image::place) and [`place_of`](Image::place_of) count from the start of
/// the file. A name contains no zero byte.
///
/// Symbols and indirect entries are found by their index. The rows of the other tables are read in a
/// walk over the load commands: collect them to use them more than once.
#[derive(Clone, Copy)]
pub struct Image<'a> {
    file: &'a [u8],
    raw: ffi::Image,
}

/// What is at an address.
#[derive(Clone, Copy, PartialEq, Eq)]
pub enum Source<'a> {
    /// The bytes from the address to the end of what its segment has in the file. There is at least
    /// one.
    Bytes(&'a [u8]),
    /// A segment has the address, but the file has no byte for it: a loader puts a zero there.
    Zero,
}

impl fmt::Debug for Source<'_> {
    fn fmt(&self, f: &mut fmt::Formatter<'_>) -> fmt::Result {
        match self {
            Source::Bytes(bytes) => write!(f, "Bytes({} bytes)", bytes.len()),
            Source::Zero => f.write_str("Zero"),
        }
    }
}

/// Where the symbols and their names are. (`symtab_command`)
#[derive(Clone, Copy, Debug, PartialEq, Eq)]
#[non_exhaustive]
pub struct Symtab {
    /// Where the symbols begin. Any number if `nsyms` is 0.
    pub symoff: u64,
    /// How many symbols there are.
    pub nsyms: u64,
    /// Where the string table begins. Any number if `strsize` is 0.
    pub stroff: u64,
    /// How many bytes the string table has.
    pub strsize: u64,
}

/// The groups of symbols, and where the indirect entries are. (`dysymtab_command`)
///
/// An index or offset is any number if its count is 0.
#[derive(Clone, Copy, Debug, PartialEq, Eq)]
#[non_exhaustive]
pub struct Dysymtab {
    /// The index of the first local symbol.
    pub ilocalsym: u32,
    /// How many local symbols there are.
    pub nlocalsym: u32,
    /// The index of the first defined external symbol.
    pub iextdefsym: u32,
    /// How many defined external symbols there are.
    pub nextdefsym: u32,
    /// The index of the first undefined symbol.
    pub iundefsym: u32,
    /// How many undefined symbols there are.
    pub nundefsym: u32,
    /// Where the indirect entries begin.
    pub indirectsymoff: u64,
    /// How many indirect entries there are.
    pub nindirectsyms: u64,
}

impl<'a> Image<'a> {
    pub(crate) fn new(file: &'a [u8], raw: ffi::Image) -> Self {
        Image { file, raw }
    }

    pub(crate) fn file(&self) -> &'a [u8] {
        self.file
    }

    pub(crate) fn raw(&self) -> &ffi::Image {
        &self.raw
    }

    /// The bytes of a span, which the library wrote. Each lies in the file.
    #[inline]
    pub(crate) fn part(&self, span: Span) -> &'a [u8] {
        &self.file[span.offset as usize..][..span.size as usize]
    }

    /// The bytes of the image.
    #[must_use]
    pub fn bytes(&self) -> &'a [u8] {
        self.part(self.raw.slice)
    }

    /// Where the image begins in the file: 0 exactly if the file is not universal.
    #[must_use]
    pub fn place(&self) -> u64 {
        self.raw.slice.offset
    }

    /// `cputype` of the header.
    #[must_use]
    pub fn cputype(&self) -> u32 {
        self.raw.cputype
    }

    /// `cpusubtype` of the header, without the capability byte (`CPU_SUBTYPE_MASK`).
    #[must_use]
    pub fn cpusubtype(&self) -> u32 {
        self.raw.cpusubtype
    }

    /// The capability byte of `cpusubtype`, such as the version of the ABI of arm64e.
    #[must_use]
    pub fn capabilities(&self) -> u32 {
        self.raw.capabilities
    }

    /// The name of the architecture, such as `arm64e`, as LLVM's `lipo` prints it. `None` if the library
    /// knows none.
    #[must_use]
    pub fn arch(&self) -> Option<&'static str> {
        ffi::arch(self.raw.cputype, self.raw.cpusubtype)
    }

    /// `filetype` of the header, such as `MH_EXECUTE`.
    #[must_use]
    pub fn filetype(&self) -> u32 {
        self.raw.filetype
    }

    /// `flags` of the header.
    #[must_use]
    pub fn flags(&self) -> u32 {
        self.raw.flags
    }

    /// The UUID of `LC_UUID`, if there is one.
    #[must_use]
    pub fn uuid(&self) -> Option<[u8; 16]> {
        self.has(ffi::HAS_UUID).then_some(self.raw.uuid)
    }

    /// The library that the image is, by its `LC_ID_DYLIB`. `None` without that command.
    #[must_use]
    pub fn id(&self) -> Option<Library<'a>> {
        self.has(ffi::HAS_ID)
            .then(|| Library::new(self.raw.id, self))
    }

    /// The address of the header, before any slide. `None` if no mapped segment has the first byte of the
    /// header. That all of the headers are mapped is `header-segment`, a strict rule.
    #[must_use]
    pub fn base(&self) -> Option<u64> {
        self.has(ffi::HAS_BASE).then_some(self.raw.base)
    }

    /// The address that `LC_MAIN` names, before any slide. `None` without `LC_MAIN`: a program can have a
    /// [`thread_entry`](Image::thread_entry) then.
    #[must_use]
    pub fn entry(&self) -> Option<u64> {
        self.has(ffi::HAS_ENTRY).then_some(self.raw.entry)
    }

    /// The address at which the first `LC_THREAD` or `LC_UNIXTHREAD` begins, before any slide, such as the entry of a
    /// program that Go links. `None` if the image has no such command, if the registers of the command are not known,
    /// or if the file has no byte that can be executed at the address. In a file that
    /// [`Profile::Linked`](crate::Profile::Linked) accepts, each image with an `LC_THREAD` or `LC_UNIXTHREAD` has the
    /// address.
    ///
    /// Each call rescans the load commands.
    ///
    /// ```
    /// # let path = concat!(env!("CARGO_MANIFEST_DIR"), "/../../tests/real/program");
    /// # let file = std::fs::read(path)?;
    /// # let image = kesvuot::verify(&file, kesvuot::Profile::Layout)?.image(0).unwrap();
    /// let entry = image.entry().or_else(|| image.thread_entry());
    /// assert_eq!(entry, Some(0x1_0000_0440));
    /// assert_eq!(image.thread_entry(), None);
    /// # Ok::<(), Box<dyn std::error::Error>>(())
    /// ```
    #[must_use]
    pub fn thread_entry(&self) -> Option<u64> {
        let (status, entry) = ffi::find_thread_entry(self.file, &self.raw);
        (status == ffi::OK).then_some(entry)
    }

    /// The fields of `LC_SYMTAB`, if there is one.
    #[must_use]
    pub fn symtab(&self) -> Option<Symtab> {
        self.has(ffi::HAS_SYMTAB).then_some(Symtab {
            symoff: self.raw.symbols,
            nsyms: self.raw.symbol_count,
            stroff: self.raw.strings,
            strsize: self.raw.strings_size,
        })
    }

    /// The fields of `LC_DYSYMTAB`, if there is one.
    #[must_use]
    pub fn dysymtab(&self) -> Option<Dysymtab> {
        let [ilocalsym, nlocalsym, iextdefsym, nextdefsym, iundefsym, nundefsym] = self.raw.groups;
        self.has(ffi::HAS_DYSYMTAB).then_some(Dysymtab {
            ilocalsym,
            nlocalsym,
            iextdefsym,
            nextdefsym,
            iundefsym,
            nundefsym,
            indirectsymoff: self.raw.indirects,
            nindirectsyms: self.raw.indirect_count,
        })
    }

    fn has(&self, part: u32) -> bool {
        self.raw.has & part != 0
    }

    /// The segments, in command order.
    #[must_use]
    pub fn segments(&self) -> Rows<'a, Segment<'a>> {
        Rows::new(*self, self.raw.segment_count)
    }

    /// The sections of all segments, in command order.
    ///
    /// To look up many sections, collect them first:
    ///
    /// ```
    /// # let path = concat!(env!("CARGO_MANIFEST_DIR"), "/../../tests/real/program");
    /// # let file = std::fs::read(path)?;
    /// # let image = kesvuot::verify(&file, kesvuot::Profile::Layout)?.image(0).unwrap();
    /// let sections: Vec<_> = image.sections().collect();
    /// for segment in image.segments() {
    ///     for section in &sections[segment.section_range()] {
    ///         assert_eq!(section.segment, segment.name);
    ///     }
    /// }
    /// for symbol in image.symbols() {
    ///     if let Some(index) = symbol.section_index() {
    ///         println!("{symbol:?} is in {:?}", sections[index]);
    ///     }
    /// }
    /// # Ok::<(), Box<dyn std::error::Error>>(())
    /// ```
    #[must_use]
    pub fn sections(&self) -> Rows<'a, Section<'a>> {
        Rows::new(*self, self.raw.section_count)
    }

    /// The libraries that the image loads, in command order: each `LC_LOAD_DYLIB`, `LC_LOAD_WEAK_DYLIB`,
    /// `LC_REEXPORT_DYLIB`, `LC_LAZY_LOAD_DYLIB` and `LC_LOAD_UPWARD_DYLIB`. The image's own `LC_ID_DYLIB` is in
    /// [`id`](Image::id).
    #[must_use]
    pub fn libraries(&self) -> Rows<'a, Library<'a>> {
        Rows::new(*self, self.raw.library_count)
    }

    /// The run paths, in command order: the folders in which the dynamic linker looks for libraries whose
    /// name begins with `@rpath`.
    pub fn run_paths(&self) -> impl Iterator<Item = &'a [u8]> {
        const LC_RPATH: u32 = 0x8000_001c;
        self.commands()
            .filter(|command| command.cmd == LC_RPATH)
            .map(|command| command.name)
    }

    /// The path of the dynamic linker, by the first `LC_LOAD_DYLINKER`, if there is one.
    #[must_use]
    pub fn dynamic_linker(&self) -> Option<&'a [u8]> {
        const LC_LOAD_DYLINKER: u32 = 0xe;
        self.commands()
            .find(|command| command.cmd == LC_LOAD_DYLINKER)
            .map(|command| command.name)
    }

    /// The version A.B.C.D.E of the sources, by the first `LC_SOURCE_VERSION` of at least 16 bytes, if there
    /// is one. A is below 2^24, and each other number below 2^10.
    #[must_use]
    pub fn source_version(&self) -> Option<[u32; 5]> {
        let (status, version) = ffi::find_source_version(self.file, &self.raw);
        let part = |shift: u32| (version >> shift) as u32 & 0x3ff;
        let first = (version >> 40) as u32;
        (status == ffi::OK).then(|| [first, part(30), part(20), part(10), part(0)])
    }

    /// The platforms that the image was built for, in command order: each `LC_BUILD_VERSION`, and each
    /// command that names the least version of a platform and has at least 16 bytes.
    #[must_use]
    pub fn builds(&self) -> Rows<'a, Build> {
        Rows::new(*self, self.raw.build_count)
    }

    /// All load commands.
    #[must_use]
    pub fn commands(&self) -> Rows<'a, Command<'a>> {
        Rows::new(*self, self.raw.command_count)
    }

    /// All symbols, in the order of the table.
    #[must_use]
    pub fn symbols(&self) -> Rows<'a, Symbol> {
        Rows::new(*self, self.raw.symbol_count)
    }

    /// The name of a symbol of this image. `None` if its `strx` is 0.
    ///
    /// The call searches for the end of the name. In a hostile file many symbols can share a long
    /// name: to look up all of them takes time in proportion to `nsyms * strsize`. To list all in linear
    /// time, add up the lengths of the names, and stop when the sum is more than `4 * strsize`.
    #[must_use]
    #[inline]
    pub fn name(&self, symbol: &Symbol) -> Option<&'a [u8]> {
        let (status, name) = ffi::symbol_name(self.file, &self.raw, symbol.strx);
        (status == ffi::OK).then(|| self.part(name))
    }

    /// The local symbols. Empty without `LC_DYSYMTAB`.
    #[must_use]
    pub fn local_symbols(&self) -> Rows<'a, Symbol> {
        self.symbol_group(0)
    }

    /// The defined external symbols. Empty without `LC_DYSYMTAB`.
    #[must_use]
    pub fn defined_symbols(&self) -> Rows<'a, Symbol> {
        self.symbol_group(2)
    }

    /// The undefined symbols. Empty without `LC_DYSYMTAB`.
    #[must_use]
    pub fn undefined_symbols(&self) -> Rows<'a, Symbol> {
        self.symbol_group(4)
    }

    /// The group whose first index is here in `groups`, and its count after it.
    fn symbol_group(&self, at: usize) -> Rows<'a, Symbol> {
        let first = u64::from(self.raw.groups[at]);
        let count = u64::from(self.raw.groups[at + 1]);
        Rows::range(*self, first..first + count)
    }

    /// The symbol with this index in the table. `None` past the last one.
    #[must_use]
    pub fn symbol(&self, index: u64) -> Option<Symbol> {
        self.row(index)
    }

    /// The first symbol in the table with this name that is not a debugging entry (`N_STAB`), and its index. It need
    /// not be defined in the image. `None` if no symbol has the name.
    ///
    /// The call reads all symbols, and compares at most one byte more of each than the name has.
    ///
    /// ```
    /// # let path = concat!(env!("CARGO_MANIFEST_DIR"), "/../../tests/real/program");
    /// # let file = std::fs::read(path)?;
    /// # let image = kesvuot::verify(&file, kesvuot::Profile::Layout)?.image(0).unwrap();
    /// let (index, symbol) = image.symbol_named("_start").unwrap();
    /// assert_eq!(symbol.value, 0x1_0000_0440);
    /// assert_eq!(image.symbol(index), Some(symbol));
    /// assert_eq!(image.symbol_named("_star"), None);
    /// # Ok::<(), Box<dyn std::error::Error>>(())
    /// ```
    #[must_use]
    pub fn symbol_named(&self, name: impl AsRef<[u8]>) -> Option<(u64, Symbol)> {
        let (status, symbol, number) = ffi::find_name(self.file, &self.raw, name.as_ref());
        (status == ffi::OK).then(|| (number, Symbol::new(symbol, self)))
    }

    /// What the image exports under this name, as a dynamic loader looks it up in the export trie of
    /// `LC_DYLD_EXPORTS_TRIE`, `LC_DYLD_INFO` or `LC_DYLD_INFO_ONLY`. `None` if the image does not export the name, or
    /// if the bytes on the way to it are not a well-formed trie. Only the linked profile judges the trie.
    ///
    /// Each call rescans the load commands. It takes no memory.
    ///
    /// ```
    /// # let path = concat!(env!("CARGO_MANIFEST_DIR"), "/../../tests/real/program");
    /// # let file = std::fs::read(path)?;
    /// # let image = kesvuot::verify(&file, kesvuot::Profile::Layout)?.image(0).unwrap();
    /// use kesvuot::ExportKind;
    ///
    /// let start = image.find_export("_start").unwrap();
    /// assert_eq!(start.kind, ExportKind::Regular(0x1_0000_0440));
    /// assert_eq!(image.find_export("_star"), None);
    /// # Ok::<(), Box<dyn std::error::Error>>(())
    /// ```
    #[must_use]
    pub fn find_export(&self, name: impl AsRef<[u8]>) -> Option<Export<'a>> {
        let (status, found) = ffi::find_export(self.file, &self.raw, name.as_ref());
        (status == ffi::OK).then(|| Export::new(found, self))
    }

    /// What the image exports, each with its name, by a walk over the export trie. In a file that
    /// [`Profile::Linked`](crate::Profile::Linked) accepts, the walk finds all exports. In any other file, it ends
    /// before a node that does not end in the trie, or with which the visited nodes have more bytes than the trie.
    /// There it leaves out a name whose export does not end in its part of the node.
    ///
    /// ```
    /// # let path = concat!(env!("CARGO_MANIFEST_DIR"), "/../../tests/real/program");
    /// # let file = std::fs::read(path)?;
    /// # let image = kesvuot::verify(&file, kesvuot::Profile::Layout)?.image(0).unwrap();
    /// for (name, export) in image.exports() {
    ///     assert_eq!(image.find_export(name), Some(export));
    /// }
    /// # Ok::<(), Box<dyn std::error::Error>>(())
    /// ```
    #[must_use]
    pub fn exports(&self) -> Exports<'a> {
        Exports::new(*self)
    }

    /// The symbols by address: sort them once, and look up many addresses.
    #[must_use]
    pub fn symbol_index(&self) -> SymbolIndex<'a> {
        SymbolIndex::of(*self)
    }

    /// The indirect entries, in the order of the table.
    #[must_use]
    pub fn indirects(&self) -> Rows<'a, Indirect> {
        Rows::new(*self, self.raw.indirect_count)
    }

    /// The indirect entry with this index in the table, such as `reserved1` of a section of stubs.
    /// `None` past the last one.
    #[must_use]
    pub fn indirect(&self, index: u64) -> Option<Indirect> {
        self.row(index)
    }

    /// One row of a table whose rows are found by their index.
    fn row<T: Row<'a>>(&self, index: u64) -> Option<T>
    where
        T::Raw: Raw<Cursor = ffi::Cursor>,
    {
        let mut row = [T::Raw::default()];
        let mut cursor = ffi::Cursor {
            items: index,
            ..Default::default()
        };
        match T::Raw::fill(self.file, &self.raw, &mut cursor, &mut row) {
            0 => None,
            _ => Some(T::new(row[0], self)),
        }
    }

    /// The data of the first `linkedit_data_command` with this `cmd`, such as `LC_CODE_SIGNATURE`
    /// (0x1d): all `datasize` bytes from `dataoff` on. `None` if the image has no such command, or
    /// rules/layout.md does not list `cmd` as a `linkedit_data_command` (for example `LC_ATOM_INFO`,
    /// 0x36). Each call rescans the load commands.
    #[must_use]
    pub fn linkedit(&self, cmd: u32) -> Option<&'a [u8]> {
        let (status, data) = ffi::find_data(self.file, &self.raw, cmd);
        (status == ffi::OK).then(|| self.part(data))
    }

    /// A table of the image. `None` if no command bounds it. With several such commands it is a table of
    /// the first. Each call rescans the load commands.
    ///
    /// ```
    /// # let path = concat!(env!("CARGO_MANIFEST_DIR"), "/../../tests/real/program");
    /// # let file = std::fs::read(path)?;
    /// # let image = kesvuot::verify(&file, kesvuot::Profile::Layout)?.image(0).unwrap();
    /// use kesvuot::Table;
    ///
    /// let strings = image.table(Table::Strings).unwrap();
    /// assert_eq!(strings.len() as u64, image.symtab().unwrap().strsize);
    /// # Ok::<(), Box<dyn std::error::Error>>(())
    /// ```
    #[must_use]
    pub fn table(&self, table: Table) -> Option<&'a [u8]> {
        let (status, bytes) = ffi::find_table(self.file, &self.raw, table.number());
        (status == ffi::OK).then(|| self.part(bytes))
    }

    /// The relocations of a section of this image, in their order.
    pub fn relocations(&self, section: &Section<'_>) -> impl ExactSizeIterator<Item = Relocation> {
        ffi::relocations(self.file, &self.raw, section.reloff, section.nreloc)
            .into_iter()
            .map(Relocation::from)
    }

    /// The addresses of functions, before any slide, by the first `LC_FUNCTION_STARTS`. Each is below the next one.
    /// They end before a number 0 of its data, a number that does not end in it, and an address of 2^64 or more. An
    /// image without a base has no starts. In a file that [`Profile::Linked`](crate::Profile::Linked) accepts, each
    /// start is the address of a byte of the file. In any other file a start can be in no segment.
    ///
    /// ```
    /// # let path = concat!(env!("CARGO_MANIFEST_DIR"), "/../../tests/real/program");
    /// # let file = std::fs::read(path)?;
    /// # let image = kesvuot::verify(&file, kesvuot::Profile::Layout)?.image(0).unwrap();
    /// let starts: Vec<u64> = image.function_starts().collect();
    /// assert_eq!(starts, [0x1_0000_0440]);
    /// # Ok::<(), Box<dyn std::error::Error>>(())
    /// ```
    #[must_use]
    pub fn function_starts(&self) -> UncountedRows<'a, u64> {
        UncountedRows::new(*self)
    }

    /// The data in the code, by the whole entries of the first `LC_DATA_IN_CODE`, which can be in any order, and
    /// overlap. In a file that [`Profile::Linked`](crate::Profile::Linked) accepts the bytes of each are in one
    /// executable segment. In any other they can be of no code.
    #[must_use]
    pub fn data_in_code(&self) -> UncountedRows<'a, DataInCode<'a>> {
        UncountedRows::new(*self)
    }

    /// The pointers that a dynamic loader writes, in the order in which it writes them: by `LC_DYLD_CHAINED_FIXUPS` if
    /// the image has that command, otherwise by the opcodes of `LC_DYLD_INFO` or `LC_DYLD_INFO_ONLY`. In a file that
    /// [`Profile::Linked`](crate::Profile::Linked) accepts, no pointer that these commands ask for is left out, each
    /// bind has its import, and there are fewer pointers than the file has bytes. In any other, `kesvuot.h` says at
    /// `kesvuot_read_fixups` where they end. There can be 2^64 of them, and the index of an import can be past the
    /// last.
    ///
    /// ```
    /// # let path = concat!(env!("CARGO_MANIFEST_DIR"), "/../../tests/real/program");
    /// # let file = std::fs::read(path)?;
    /// let image = kesvuot::verify(&file, kesvuot::Profile::Linked)?.image(0).unwrap();
    /// let imports: Vec<_> = image.imports().collect();
    /// for fixup in image.fixups() {
    ///     if let kesvuot::FixupTarget::Bind { import, .. } = fixup.target {
    ///         assert!(imports[usize::try_from(import)?].name.starts_with(b"_"));
    ///     }
    /// }
    /// # Ok::<(), Box<dyn std::error::Error>>(())
    /// ```
    #[must_use]
    pub fn fixups(&self) -> UncountedRows<'a, Fixup> {
        UncountedRows::new(*self)
    }

    /// What the binds among the [`fixups`](Image::fixups) are bound to. Chained fixups have a table of them. Each
    /// opcode that binds pointers has a row, so two rows can have one name.
    #[must_use]
    pub fn imports(&self) -> UncountedRows<'a, Import<'a>> {
        UncountedRows::new(*self)
    }

    /// The blobs of the code signature, by the first `LC_CODE_SIGNATURE`, in the order of its index. Each lies past the
    /// blob before it, and the rows end before the first blob that does not. They are empty if the data is not a
    /// superblob. In a file that [`Profile::Linked`](crate::Profile::Linked) accepts, they have every blob of the
    /// index.
    ///
    /// The entitlements are the blobs of the slots 5 (a property list) and 7 (DER), past their first 8 bytes:
    ///
    /// ```
    /// # let path = concat!(env!("CARGO_MANIFEST_DIR"), "/../../tests/real/library");
    /// # let file = std::fs::read(path)?;
    /// # let image = kesvuot::verify(&file, kesvuot::Profile::Layout)?.image(1).unwrap();
    /// let entitlements = image.blobs().find(|blob| blob.slot == 5).map(|blob| &blob.bytes[8..]);
    /// assert_eq!(entitlements, None);
    ///
    /// let directory = image.blobs().find_map(|blob| blob.code_directory()).unwrap();
    /// assert_eq!(directory.identifier, b"library-arm64");
    /// assert_eq!(directory.cdhash().unwrap().to_string(), "6d2680bf4c6ef99d6b62cef955f295141b98887c");
    /// # Ok::<(), Box<dyn std::error::Error>>(())
    /// ```
    #[must_use]
    pub fn blobs(&self) -> UncountedRows<'a, Blob<'a>> {
        UncountedRows::new(*self)
    }

    /// What is at an address, before any slide. `None` if no segment has the address.
    ///
    /// Each call rescans the load commands: for many addresses, look them up in the segments.
    ///
    /// ```
    /// # let path = concat!(env!("CARGO_MANIFEST_DIR"), "/../../tests/real/program");
    /// # let file = std::fs::read(path)?;
    /// # let image = kesvuot::verify(&file, kesvuot::Profile::Layout)?.image(0).unwrap();
    /// use kesvuot::Source;
    ///
    /// assert!(matches!(image.at(0x1_0000_0440), Some(Source::Bytes([0x55, ..]))));
    /// assert_eq!(image.at(0), Some(Source::Zero));
    /// assert_eq!(image.at(u64::MAX), None);
    /// # Ok::<(), Box<dyn std::error::Error>>(())
    /// ```
    #[must_use]
    pub fn at(&self, address: u64) -> Option<Source<'a>> {
        match ffi::find_address(self.file, &self.raw, address) {
            (ffi::OK, bytes) => Some(Source::Bytes(self.part(bytes))),
            (ffi::ZERO, _) => Some(Source::Zero),
            _ => None,
        }
    }

    /// The offset in the file at which bytes of this image begin. `None` if they are from
    /// elsewhere, or empty.
    ///
    /// ```
    /// # let path = concat!(env!("CARGO_MANIFEST_DIR"), "/../../tests/real/library");
    /// # let file = std::fs::read(path)?;
    /// # let verified = kesvuot::verify(&file, kesvuot::Profile::Layout)?;
    /// let image = verified.image(1).unwrap();
    /// let text = image.segments().next().unwrap();
    /// assert_eq!(image.place_of(text.bytes), Some(image.place() + text.fileoff));
    /// assert_eq!(image.place_of(b"__TEXT"), None);
    /// # Ok::<(), Box<dyn std::error::Error>>(())
    /// ```
    #[must_use]
    pub fn place_of(&self, bytes: &[u8]) -> Option<u64> {
        let image = self.bytes().as_ptr_range();
        let bytes = bytes.as_ptr_range();
        if bytes.is_empty() || bytes.start < image.start || bytes.end > image.end {
            return None;
        }
        Some(self.place() + (bytes.start as u64 - image.start as u64))
    }
}

impl fmt::Debug for Image<'_> {
    fn fmt(&self, f: &mut fmt::Formatter<'_>) -> fmt::Result {
        f.debug_struct("Image")
            .field("place", &self.place())
            .field("size", &self.bytes().len())
            .field("cputype", &self.cputype())
            .field("cpusubtype", &self.cpusubtype())
            .field("filetype", &self.filetype())
            .finish_non_exhaustive()
    }
}
