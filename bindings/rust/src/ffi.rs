//! The structures and calls of `kesvuot.h`. All unsafe code of this crate is in this file.
//!
//! The structures are plain numbers, and the library trusts none of them, so any may be changed.

use alloc::vec;
use alloc::vec::Vec;
use core::ffi::c_void;
use core::{cmp, ptr, slice, str};

/// What a call returns. Not each is told apart.
#[allow(dead_code)]
mod status {
    // registry: statuses
    pub const OK: u32 = 0;
    pub const REFUSED: u32 = 1;
    pub const NO_MEMORY: u32 = 2;
    pub const NONE: u32 = 3;
    pub const UNREAD: u32 = 4;
    pub const ZERO: u32 = 5;
    pub const UNKNOWN_PROFILE: u32 = 6;
    // registry: end
}
pub use status::*;

/// The bits of `Image::has`.
// registry: has
pub const HAS_UUID: u32 = 1;
pub const HAS_BASE: u32 = 2;
pub const HAS_ENTRY: u32 = 4;
pub const HAS_SYMTAB: u32 = 8;
pub const HAS_DYSYMTAB: u32 = 16;
pub const HAS_ID: u32 = 32;
// registry: end

/// `KESVUOT_NO_SECTION`
pub const NO_SECTION: u32 = u32::MAX;

/// `KESVUOT_NO_INDEX`
pub const NO_INDEX: u32 = u32::MAX;

/// `KESVUOT_REBASE`: any other fixup is a bind.
pub const REBASE: u32 = 1;

/// Room for the longest hash. Only shorter arrays have a default.
#[repr(transparent)]
#[derive(Clone, Copy)]
pub struct Digest(pub [u8; 48]);

impl Default for Digest {
    fn default() -> Self {
        Digest([0; 48])
    }
}

/// Declares structures, and lists for the tests how C must lay them out.
macro_rules! structures {
    ($($tag:ident = $name:ident { $($field:ident: $type:ty,)* })*) => {
        $(
            #[repr(C)]
            #[derive(Clone, Copy, Default)]
            pub struct $name {
                $(pub $field: $type,)*
            }
        )*

        /// The size of each structure, and the place and the size of each field, as conditions in
        /// C.
        #[cfg(test)]
        fn conditions() -> Vec<std::string::String> {
            use std::format;
            use std::mem::size_of_val;
            let mut conditions = Vec::new();
            $(
                let row = $name::default();
                let start = ptr::addr_of!(row) as usize;
                let tag = concat!("struct ", stringify!($tag));
                conditions.push(format!("sizeof({tag}) == {}", size_of_val(&row)));
                $(
                    let field = stringify!($field).trim_start_matches("r#");
                    let place = ptr::addr_of!(row.$field) as usize - start;
                    let size = size_of_val(&row.$field);
                    conditions.push(format!("offsetof({tag}, {field}) == {place}"));
                    conditions.push(format!("sizeof((({tag} *)0)->{field}) == {size}"));
                )*
            )*
            conditions
        }
    };
}

structures! {
    kesvuot_span = Span {
        offset: u64,
        size: u64,
    }

    kesvuot_verdict = Verdict {
        place: u64,
        slices: u64,
        rule: u32,
        reserved: u32,
    }

    kesvuot_part = Part {
        start: u64,
        size: u64,
        described: u64,
        kind: u32,
        index: u32,
    }

    kesvuot_explanation = Explanation {
        at: Part,
        first: Part,
        second: Part,
        value: u64,
        limit: u64,
        slice: u32,
        command: u32,
        section: u32,
        symbol: u32,
    }

    kesvuot_image = Image {
        slice: Span,
        base: u64,
        entry: u64,
        symbols: u64,
        symbol_count: u64,
        strings: u64,
        strings_size: u64,
        indirects: u64,
        indirect_count: u64,
        command_count: u64,
        segment_count: u64,
        section_count: u64,
        library_count: u64,
        build_count: u64,
        id: Library,
        cputype: u32,
        cpusubtype: u32,
        capabilities: u32,
        filetype: u32,
        flags: u32,
        has: u32,
        groups: [u32; 6],
        uuid: [u8; 16],
        reserved: [u32; 4],
    }

    kesvuot_cursor = Cursor {
        place: u64,
        commands: u64,
        segment: u64,
        items: u64,
    }

    kesvuot_segment = Segment {
        name: Span,
        bytes: Span,
        vmaddr: u64,
        vmsize: u64,
        last: u64,
        fileoff: u64,
        filesize: u64,
        first_section: u64,
        section_count: u32,
        maxprot: u32,
        initprot: u32,
        reserved: u32,
    }

    kesvuot_section = Section {
        name: Span,
        segment: Span,
        bytes: Span,
        addr: u64,
        size: u64,
        offset: u32,
        align: u32,
        reloff: u32,
        nreloc: u32,
        flags: u32,
        reserved1: u32,
        reserved2: u32,
        zero_fill: u32,
    }

    kesvuot_library = Library {
        name: Span,
        cmd: u32,
        current: u32,
        compatible: u32,
        reserved: u32,
    }

    kesvuot_build = Build {
        platform: u32,
        minos: u32,
        sdk: u32,
        cmd: u32,
    }

    kesvuot_command = Command {
        bytes: Span,
        name: Span,
        cmd: u32,
        reserved: u32,
    }

    kesvuot_symbol = Symbol {
        value: u64,
        strx: u32,
        section: u32,
        desc: u16,
        r#type: u8,
        sect: u8,
        reserved: u32,
    }

    kesvuot_relocation = Relocation {
        address: u32,
        symbolnum: u32,
        pcrel: u8,
        length: u8,
        external: u8,
        r#type: u8,
        scattered: u32,
    }

    kesvuot_data_in_code = DataInCode {
        bytes: Span,
        offset: u32,
        length: u16,
        kind: u16,
    }

    kesvuot_blob = Blob {
        bytes: Span,
        slot: u32,
        magic: u32,
    }

    kesvuot_code_directory = CodeDirectory {
        identifier: Span,
        team: Span,
        hashes: Span,
        special_hashes: Span,
        limit: u64,
        version: u32,
        flags: u32,
        code_slots: u32,
        special_slots: u32,
        hash_size: u32,
        hash_type: u16,
        page_size: u16,
    }

    kesvuot_cdhash = CdHash {
        digest: Digest,
        size: u32,
        hash_type: u32,
    }

    kesvuot_export = Export {
        flags: u64,
        address: u64,
        resolver: u64,
        ordinal: u64,
        name: Span,
        reserved: u64,
    }

    kesvuot_export_node = ExportNode {
        exported: Export,
        terminal: Span,
        edges: Cursor,
        has_export: u32,
        reserved: u32,
    }

    kesvuot_export_edge = ExportEdge {
        label: Span,
        child: u64,
    }

    kesvuot_fixup_cursor = FixupCursor {
        stream: u64,
        place: u64,
        commands: u64,
        segment: u64,
        offset: u64,
        page: u64,
        left: u64,
        skip: u64,
        name: u64,
        name_size: u64,
        library: i64,
        addend: i64,
        import: u64,
        flags: u32,
        is_new: u32,
        has_segment: u32,
        has_name: u32,
    }

    kesvuot_import = Import {
        name: Span,
        library: i64,
        addend: i64,
        weak: u32,
        reserved: u32,
    }

    kesvuot_fixup = Fixup {
        address: u64,
        offset: u64,
        target: u64,
        import: u64,
        addend: i64,
        segment: u32,
        kind: u32,
        diversity: u16,
        address_diversity: u8,
        key: u8,
        authenticated: u32,
    }
}

/// `struct kesvuot_text`: a constant of the library.
#[repr(C)]
struct Text {
    at: *const u8,
    size: usize,
}

extern "C" {
    // registry: calls
    fn kesvuot_version() -> u32;
    fn kesvuot_verify(file: *const c_void, size: usize, profile: u32, verdict: *mut Verdict)
        -> i32;
    fn kesvuot_layout(
        file: *const c_void,
        size: usize,
        text: *mut u8,
        max: usize,
        needed: *mut usize,
    ) -> u32;
    fn kesvuot_find_rule(rule: u32, name: *mut Text) -> u32;
    fn kesvuot_rule_profile(rule: u32) -> u32;
    fn kesvuot_find_profile(profile: u32, name: *mut Text) -> u32;
    fn kesvuot_find_command(cmd: u32, name: *mut Text) -> u32;
    fn kesvuot_find_platform(platform: u32, name: *mut Text) -> u32;
    fn kesvuot_explain(
        file: *const c_void,
        size: usize,
        verdict: *const Verdict,
        explanation: *mut Explanation,
    ) -> u32;
    fn kesvuot_find_arch(cputype: u32, cpusubtype: u32, name: *mut Text) -> u32;
    fn kesvuot_arch_named(
        name: *const c_void,
        name_size: usize,
        cputype: *mut u32,
        cpusubtype: *mut u32,
    ) -> u32;
    fn kesvuot_read_image(file: *const c_void, size: usize, slice: u64, image: *mut Image) -> u32;
    fn kesvuot_read_relocations(
        file: *const c_void,
        size: usize,
        image: *const Image,
        reloff: u32,
        nreloc: u32,
        cursor: *mut Cursor,
        rows: *mut Relocation,
        max: usize,
    ) -> usize;
    fn kesvuot_read_code_directory(
        file: *const c_void,
        size: usize,
        blob: *const Blob,
        directory: *mut CodeDirectory,
    ) -> u32;
    fn kesvuot_read_cdhash(
        file: *const c_void,
        size: usize,
        blob: *const Blob,
        cdhash: *mut CdHash,
    ) -> u32;
    fn kesvuot_symbol_name(
        file: *const c_void,
        size: usize,
        image: *const Image,
        strx: u32,
        name: *mut Span,
    ) -> u32;
    fn kesvuot_read_names(
        file: *const c_void,
        size: usize,
        image: *const Image,
        rows: *const Symbol,
        count: usize,
        names: *mut Span,
        max: usize,
    ) -> usize;
    fn kesvuot_index_symbols(
        file: *const c_void,
        size: usize,
        image: *const Image,
        index: *mut u32,
        max: usize,
    ) -> usize;
    fn kesvuot_find_symbol(
        file: *const c_void,
        size: usize,
        image: *const Image,
        index: *const u32,
        count: usize,
        address: u64,
        symbol: *mut Symbol,
        at: *mut usize,
    ) -> u32;
    fn kesvuot_find_name(
        file: *const c_void,
        size: usize,
        image: *const Image,
        name: *const c_void,
        name_size: usize,
        symbol: *mut Symbol,
        number: *mut u64,
    ) -> u32;
    fn kesvuot_find_export(
        file: *const c_void,
        size: usize,
        image: *const Image,
        name: *const c_void,
        name_size: usize,
        found: *mut Export,
    ) -> u32;
    fn kesvuot_find_export_trie(
        file: *const c_void,
        size: usize,
        image: *const Image,
        trie: *mut Span,
    ) -> u32;
    fn kesvuot_read_export_node(
        file: *const c_void,
        size: usize,
        image: *const Image,
        trie: *const Span,
        offset: u64,
        node: *mut ExportNode,
    ) -> u32;
    fn kesvuot_read_export_edges(
        file: *const c_void,
        size: usize,
        trie: *const Span,
        cursor: *mut Cursor,
        rows: *mut ExportEdge,
        max: usize,
    ) -> usize;
    fn kesvuot_find_data(
        file: *const c_void,
        size: usize,
        image: *const Image,
        cmd: u32,
        data: *mut Span,
    ) -> u32;
    fn kesvuot_find_table(
        file: *const c_void,
        size: usize,
        image: *const Image,
        table: u32,
        bytes: *mut Span,
    ) -> u32;
    fn kesvuot_find_source_version(
        file: *const c_void,
        size: usize,
        image: *const Image,
        version: *mut u64,
    ) -> u32;
    fn kesvuot_find_thread_entry(
        file: *const c_void,
        size: usize,
        image: *const Image,
        entry: *mut u64,
    ) -> u32;
    fn kesvuot_find_address(
        file: *const c_void,
        size: usize,
        image: *const Image,
        address: u64,
        bytes: *mut Span,
    ) -> u32;
    // registry: end
}

/// The major version of the library whose structures these are.
const MAJOR: u32 = 2;

/// Major << 16 | minor << 8 | patch.
pub fn version() -> u32 {
    // SAFETY: it takes nothing.
    unsafe { kesvuot_version() }
}

/// A name of the library, which a call writes. `None` if it has none.
fn name_by(call: impl FnOnce(&mut Text) -> u32) -> Option<&'static str> {
    let mut name = Text {
        at: ptr::null(),
        size: 0,
    };
    if call(&mut name) != OK {
        return None;
    }
    // SAFETY: with this status, it is a constant of the library, of this many bytes.
    let bytes = unsafe { slice::from_raw_parts(name.at, name.size) };
    str::from_utf8(bytes).ok()
}

/// The name of the rule with this number. `None` if no rule has the number.
pub fn rule(number: u32) -> Option<&'static str> {
    // SAFETY: the name may be written.
    name_by(|name| unsafe { kesvuot_find_rule(number, name) })
}

/// The number of the profile that a rule belongs to. 0 if no rule has this number.
pub fn rule_profile(number: u32) -> u32 {
    // SAFETY: it takes a number.
    unsafe { kesvuot_rule_profile(number) }
}

/// The name of the profile with this number. `None` if no profile has it.
pub fn profile(number: u32) -> Option<&'static str> {
    // SAFETY: the name may be written.
    name_by(|name| unsafe { kesvuot_find_profile(number, name) })
}

/// The name of the load commands with this `cmd`.
pub fn command(cmd: u32) -> Option<&'static str> {
    // SAFETY: the name may be written.
    name_by(|name| unsafe { kesvuot_find_command(cmd, name) })
}

/// The name of a platform.
pub fn platform(number: u32) -> Option<&'static str> {
    // SAFETY: the name may be written.
    name_by(|name| unsafe { kesvuot_find_platform(number, name) })
}

/// The name of an architecture.
pub fn arch(cputype: u32, cpusubtype: u32) -> Option<&'static str> {
    // SAFETY: the name may be written.
    name_by(|name| unsafe { kesvuot_find_arch(cputype, cpusubtype, name) })
}

/// The status, and the `cputype` and `cpusubtype` of the architecture with this name.
pub fn arch_named(name: &[u8]) -> (u32, (u32, u32)) {
    let (at, mut cputype, mut cpusubtype) = (name.as_ptr().cast(), 0, 0);
    // SAFETY: the name may be read. The numbers may be written.
    let status = unsafe { kesvuot_arch_named(at, name.len(), &mut cputype, &mut cpusubtype) };
    (status, (cputype, cpusubtype))
}

/// Room for the layout of most files. A longer one takes a second call.
const LAYOUT_ROOM: usize = 1 << 14;

/// Panics if the library has another major version, whose structures can differ from the ones here.
fn check_version() {
    let version = version();
    assert_eq!(version >> 16, MAJOR, "libkesvuot has version {version:#x}");
}

/// The status, and the verdict by the profile with this number.
pub fn verify(file: &[u8], profile: u32) -> (u32, Verdict) {
    check_version();
    let (at, mut verdict) = (file.as_ptr().cast(), Verdict::default());
    // SAFETY: the file may be read, and nobody changes it meanwhile. The verdict may be written.
    let status = unsafe { kesvuot_verify(at, file.len(), profile, &mut verdict) };
    (status as u32, verdict)
}

/// The status, and what explains that the file breaks the rule with this number at a place.
pub fn explain(file: &[u8], rule: u32, place: u64) -> (u32, Explanation) {
    check_version();
    let verdict = Verdict {
        place,
        rule,
        ..Verdict::default()
    };
    let (at, mut found) = (file.as_ptr().cast(), Explanation::default());
    // SAFETY: the file may be read, and nobody changes it meanwhile. The explanation may be written.
    let status = unsafe { kesvuot_explain(at, file.len(), &verdict, &mut found) };
    (status, found)
}

/// The status, and the layout of the file, empty unless the status is `OK`.
pub fn layout(file: &[u8]) -> (u32, Vec<u8>) {
    let mut text = vec![0; LAYOUT_ROOM];
    loop {
        let (room, mut needed) = (text.len(), 0);
        let at = text.as_mut_ptr();
        // SAFETY: the file may be read, and nobody changes it meanwhile. The text and the number may
        // be written.
        let status =
            unsafe { kesvuot_layout(file.as_ptr().cast(), file.len(), at, room, &mut needed) };
        text.resize(needed, 0);
        if needed <= room {
            return (status, text);
        }
    }
}

/// The status, and the image of the slice with this index.
pub fn image(file: &[u8], slice: u64) -> (u32, Image) {
    let mut image = Image::default();
    // SAFETY: the file may be read, and nobody changes it meanwhile. The image may be written.
    let status = unsafe { kesvuot_read_image(file.as_ptr().cast(), file.len(), slice, &mut image) };
    (status, image)
}

/// A row of one of the tables of an image.
pub trait Raw: Copy + Default {
    /// Where the next row is: zeros before the first.
    type Cursor: Copy + Default;

    /// Writes the next rows, moves the cursor past them, and returns how many it wrote.
    fn fill(file: &[u8], image: &Image, cursor: &mut Self::Cursor, rows: &mut [Self]) -> usize;
}

/// Declares the calls that read tables, each for its row.
macro_rules! tables {
    ($($row:ty: $call:ident by $cursor:ty,)*) => {
        extern "C" {
            $(fn $call(
                file: *const c_void,
                size: usize,
                image: *const Image,
                cursor: *mut $cursor,
                rows: *mut $row,
                max: usize,
            ) -> usize;)*
        }

        $(
            impl Raw for $row {
                type Cursor = $cursor;

                fn fill(
                    file: &[u8],
                    image: &Image,
                    cursor: &mut $cursor,
                    rows: &mut [Self],
                ) -> usize {
                    let (at, size) = (file.as_ptr().cast(), file.len());
                    // SAFETY: the file may be read, and nobody changes it meanwhile. The cursor and
                    // the rows may be written, and stay initialized where they are not.
                    unsafe { $call(at, size, image, cursor, rows.as_mut_ptr(), rows.len()) }
                }
            }
        )*
    };
}

tables! {
    // registry: rows
    Command: kesvuot_read_commands by Cursor,
    Segment: kesvuot_read_segments by Cursor,
    Section: kesvuot_read_sections by Cursor,
    Library: kesvuot_read_libraries by Cursor,
    Build: kesvuot_read_builds by Cursor,
    Symbol: kesvuot_read_symbols by Cursor,
    u32: kesvuot_read_indirects by Cursor,
    u64: kesvuot_read_function_starts by Cursor,
    DataInCode: kesvuot_read_data_in_code by Cursor,
    Blob: kesvuot_read_blobs by Cursor,
    Fixup: kesvuot_read_fixups by FixupCursor,
    Import: kesvuot_read_imports by FixupCursor,
    // registry: end
}

/// The status, and where the name at `strx` in the strings is.
#[inline]
pub fn symbol_name(file: &[u8], image: &Image, strx: u32) -> (u32, Span) {
    let (at, mut name) = (file.as_ptr().cast(), Span::default());
    // SAFETY: the file may be read, and nobody changes it meanwhile. The span may be written.
    let status = unsafe { kesvuot_symbol_name(at, file.len(), image, strx, &mut name) };
    (status, name)
}

/// Where the names of symbols lie in the file.
pub fn read_names(file: &[u8], image: &Image, symbols: &[Symbol]) -> Vec<Span> {
    let mut names = vec![Span::default(); symbols.len()];
    let (at, rows, to) = (file.as_ptr().cast(), symbols.as_ptr(), names.as_mut_ptr());
    // SAFETY: the file and the symbols may be read, and nobody changes them meanwhile. The names may
    // be written.
    unsafe { kesvuot_read_names(at, file.len(), image, rows, symbols.len(), to, names.len()) };
    names
}

/// The status, and where the data of the first `linkedit_data_command` with this `cmd` is.
pub fn find_data(file: &[u8], image: &Image, cmd: u32) -> (u32, Span) {
    let (at, mut data) = (file.as_ptr().cast(), Span::default());
    // SAFETY: as in `symbol_name`.
    let status = unsafe { kesvuot_find_data(at, file.len(), image, cmd, &mut data) };
    (status, data)
}

/// The status, and where the table with this number is.
pub fn find_table(file: &[u8], image: &Image, table: u32) -> (u32, Span) {
    let (at, mut bytes) = (file.as_ptr().cast(), Span::default());
    // SAFETY: as in `symbol_name`.
    let status = unsafe { kesvuot_find_table(at, file.len(), image, table, &mut bytes) };
    (status, bytes)
}

/// The status, and the version of the sources.
pub fn find_source_version(file: &[u8], image: &Image) -> (u32, u64) {
    let (at, mut version) = (file.as_ptr().cast(), 0);
    // SAFETY: the file may be read, and nobody changes it meanwhile. The number may be written.
    let status = unsafe { kesvuot_find_source_version(at, file.len(), image, &mut version) };
    (status, version)
}

/// The status, and the address at which the first thread begins.
pub fn find_thread_entry(file: &[u8], image: &Image) -> (u32, u64) {
    let (at, mut entry) = (file.as_ptr().cast(), 0);
    // SAFETY: the file may be read, and nobody changes it meanwhile. The number may be written.
    let status = unsafe { kesvuot_find_thread_entry(at, file.len(), image, &mut entry) };
    (status, entry)
}

fn blob_of(bytes: &[u8]) -> Blob {
    let all = Span {
        offset: 0,
        size: bytes.len() as u64,
    };
    Blob {
        bytes: all,
        ..Blob::default()
    }
}

/// The status, and the bytes read as a code directory. Its spans lie in the bytes.
pub fn read_code_directory(bytes: &[u8]) -> (u32, CodeDirectory) {
    let (at, mut directory) = (bytes.as_ptr().cast(), CodeDirectory::default());
    let blob = blob_of(bytes);
    // SAFETY: the bytes may be read, and nobody changes them meanwhile. The directory may be written.
    let status = unsafe { kesvuot_read_code_directory(at, bytes.len(), &blob, &mut directory) };
    (status, directory)
}

/// The status, and the hash of the bytes as a code directory.
pub fn read_cdhash(bytes: &[u8]) -> (u32, CdHash) {
    let (at, mut cdhash) = (bytes.as_ptr().cast(), CdHash::default());
    let blob = blob_of(bytes);
    // SAFETY: the bytes may be read, and nobody changes them meanwhile. The hash may be written.
    let status = unsafe { kesvuot_read_cdhash(at, bytes.len(), &blob, &mut cdhash) };
    (status, cdhash)
}

/// The relocations from this place on, `nreloc` of them, or fewer if they do not all lie in the image.
pub fn relocations(file: &[u8], image: &Image, reloff: u32, nreloc: u32) -> Vec<Relocation> {
    // No file has more.
    let most = cmp::min(nreloc as usize, file.len() / 8);
    let (mut cursor, mut rows) = (Cursor::default(), vec![Relocation::default(); most]);
    let (at, size, to) = (file.as_ptr().cast(), file.len(), rows.as_mut_ptr());
    // SAFETY: the file may be read, and nobody changes it meanwhile. The cursor and the rows may be
    // written, and stay initialized where they are not.
    let written = unsafe {
        kesvuot_read_relocations(at, size, image, reloff, nreloc, &mut cursor, to, rows.len())
    };
    rows.truncate(written);
    rows
}

/// The status, and where the bytes from an address on are.
pub fn find_address(file: &[u8], image: &Image, address: u64) -> (u32, Span) {
    let (at, mut bytes) = (file.as_ptr().cast(), Span::default());
    // SAFETY: as in `symbol_name`.
    let status = unsafe { kesvuot_find_address(at, file.len(), image, address, &mut bytes) };
    (status, bytes)
}

/// Writes the index of the symbols to a list that has room for it, and returns how many entries it has.
pub fn index_symbols(file: &[u8], image: &Image, index: &mut [u32]) -> usize {
    let (at, max) = (file.as_ptr().cast(), index.len());
    // SAFETY: the file may be read, and nobody changes it meanwhile. The index may be written.
    unsafe { kesvuot_index_symbols(at, file.len(), image, index.as_mut_ptr(), max) }
}

/// The status, the nearest symbol at or before an address, and the position of its entry in the index.
pub fn find_symbol(
    file: &[u8],
    image: &Image,
    index: &[u32],
    address: u64,
) -> (u32, Symbol, usize) {
    let (at, mut symbol, mut position) = (file.as_ptr().cast(), Symbol::default(), 0);
    let (entries, count) = (index.as_ptr(), index.len());
    // SAFETY: the file and the index may be read, and nobody changes them meanwhile. The symbol and
    // the position may be written.
    let status = unsafe {
        kesvuot_find_symbol(
            at,
            file.len(),
            image,
            entries,
            count,
            address,
            &mut symbol,
            &mut position,
        )
    };
    (status, symbol, position)
}

/// The status, the first symbol with a name, and its index in the table.
pub fn find_name(file: &[u8], image: &Image, name: &[u8]) -> (u32, Symbol, u64) {
    let (at, mut symbol, mut number) = (file.as_ptr().cast(), Symbol::default(), 0);
    let (start, size) = (name.as_ptr().cast(), name.len());
    // SAFETY: the file and the name may be read, and nobody changes them meanwhile. The symbol and
    // the number may be written.
    let status =
        unsafe { kesvuot_find_name(at, file.len(), image, start, size, &mut symbol, &mut number) };
    (status, symbol, number)
}

/// The status, and what an image exports under a name.
pub fn find_export(file: &[u8], image: &Image, name: &[u8]) -> (u32, Export) {
    let (at, mut found) = (file.as_ptr().cast(), Export::default());
    let (start, size) = (name.as_ptr().cast(), name.len());
    // SAFETY: the file and the name may be read, and nobody changes them meanwhile. The export may be
    // written.
    let status = unsafe { kesvuot_find_export(at, file.len(), image, start, size, &mut found) };
    (status, found)
}

/// The status, and where the export trie of an image is.
pub fn find_export_trie(file: &[u8], image: &Image) -> (u32, Span) {
    let (at, mut trie) = (file.as_ptr().cast(), Span::default());
    // SAFETY: as in `symbol_name`.
    let status = unsafe { kesvuot_find_export_trie(at, file.len(), image, &mut trie) };
    (status, trie)
}

/// The status, and the node at an offset of an export trie.
pub fn read_export_node(file: &[u8], image: &Image, trie: &Span, offset: u64) -> (u32, ExportNode) {
    let (at, mut node) = (file.as_ptr().cast(), ExportNode::default());
    // SAFETY: the file may be read, and nobody changes it meanwhile. The node may be written.
    let status =
        unsafe { kesvuot_read_export_node(at, file.len(), image, trie, offset, &mut node) };
    (status, node)
}

/// The edges of a node from a cursor on, as far as there is room. The cursor moves past them.
pub fn read_export_edges(
    file: &[u8],
    trie: &Span,
    cursor: &mut Cursor,
    rows: &mut [ExportEdge],
) -> usize {
    let (at, size, max) = (file.as_ptr().cast(), file.len(), rows.len());
    // SAFETY: the file may be read, and nobody changes it meanwhile. The cursor and the rows may be
    // written, and stay initialized where they are not.
    unsafe { kesvuot_read_export_edges(at, size, trie, cursor, rows.as_mut_ptr(), max) }
}

#[cfg(test)]
mod tests {
    use std::borrow::ToOwned;
    use std::format;
    use std::io::Write;
    use std::process::{Command, Stdio};
    use std::string::String;

    use super::*;
    use crate::{PartKind, Profile, Rule, Table};

    /// The numbers of the header that this crate has, as conditions in C.
    fn numbers() -> Vec<String> {
        let rules = Rule::ALL.iter().map(|rule| {
            let name = rule.name().replace('-', "_").to_uppercase();
            format!("KESVUOT_{name} == {}", rule.number())
        });
        let profiles = Profile::ALL.iter().map(|profile| {
            let name = profile.name().to_uppercase();
            format!("KESVUOT_{name} == {}", profile.number())
        });
        let others = [
            ("OK", OK),
            ("REFUSED", REFUSED),
            ("UNREAD", UNREAD),
            ("ZERO", ZERO),
            ("UNKNOWN_PROFILE", UNKNOWN_PROFILE),
            ("HAS_UUID", HAS_UUID),
            ("HAS_BASE", HAS_BASE),
            ("HAS_ENTRY", HAS_ENTRY),
            ("HAS_SYMTAB", HAS_SYMTAB),
            ("HAS_DYSYMTAB", HAS_DYSYMTAB),
            ("HAS_ID", HAS_ID),
            ("NO_SECTION", NO_SECTION),
            ("NO_INDEX", NO_INDEX),
        ];
        let kinds = PartKind::ALL.iter().map(|(kind, number)| {
            let name = constant(&format!("{kind:?}"));
            format!("KESVUOT_PART{name} == {number}")
        });
        let others = others
            .iter()
            .map(|(name, number)| format!("KESVUOT_{name} == {number}"));
        let tables = Table::ALL.iter().map(|table| {
            let name = constant(&format!("{table:?}"));
            format!("KESVUOT_TABLE{name} == {}", table.number())
        });
        rules
            .chain(profiles)
            .chain(others)
            .chain(kinds)
            .chain(tables)
            .collect()
    }

    /// The name of a variant as C has it, with a `_` before each word.
    fn constant(variant: &str) -> String {
        let words = variant.chars().map(|letter| match letter {
            'A'..='Z' => format!("_{letter}"),
            _ => letter.to_uppercase().collect(),
        });
        words.collect()
    }

    /// Whether conditions in C hold. The error names those that do not.
    fn hold(conditions: &[String]) -> Result<(), String> {
        let mut compiler = Command::new("cc")
            .args(["-std=c11", "-fsyntax-only", "-x", "c", "-"])
            .arg(concat!("-I", env!("CARGO_MANIFEST_DIR"), "/../c"))
            .stdin(Stdio::piped())
            .stderr(Stdio::piped())
            .spawn()
            .unwrap();
        let mut source = compiler.stdin.take().unwrap();
        source.write_all(b"#include \"kesvuot.h\"\n").unwrap();
        for condition in conditions {
            writeln!(source, "_Static_assert({condition}, \"{condition}\");").unwrap();
        }
        drop(source);
        let output = compiler.wait_with_output().unwrap();
        let said = String::from_utf8_lossy(&output.stderr).into_owned();
        output.status.success().then_some(()).ok_or(said)
    }

    #[test]
    #[ignore = "it needs cc"]
    fn declarations_are_those_of_the_header() {
        assert_eq!(hold(&conditions()), Ok(()));
        assert_eq!(hold(&numbers()), Ok(()));
        let wrong = ["sizeof(struct kesvuot_span) == 15".to_owned()];
        assert!(hold(&wrong).unwrap_err().contains(&wrong[0]));
    }
}
