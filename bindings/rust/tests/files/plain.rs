//! The parts of an image, read from its bytes by the structures of `<mach-o/loader.h>` and
//! `<mach-o/nlist.h>` alone, and compared with what the crate gives.

use kesvuot::constants::{EXPORT_SYMBOL_FLAGS_REEXPORT, EXPORT_SYMBOL_FLAGS_STUB_AND_RESOLVER};
use kesvuot::{ExportKind, Image, Library, Source, Symbol, Table};

use crate::{signature, threads};

const LC_SYMTAB: u32 = 0x2;
const LC_DYSYMTAB: u32 = 0xb;
const LC_ID_DYLIB: u32 = 0xd;
const LC_SEGMENT_64: u32 = 0x19;
const LC_UUID: u32 = 0x1b;
const LC_CODE_SIGNATURE: u32 = 0x1d;
const LC_FUNCTION_STARTS: u32 = 0x26;
const LC_DATA_IN_CODE: u32 = 0x29;
const LC_SOURCE_VERSION: u32 = 0x2a;
const LC_BUILD_VERSION: u32 = 0x32;
/// `version_min_command`: `LC_VERSION_MIN_MACOSX`, `_IPHONEOS`, `_TVOS` and `_WATCHOS`, and the platform of
/// each.
const LEAST_VERSIONS: [(u32, u32); 4] = [(0x24, 1), (0x25, 2), (0x2f, 3), (0x30, 4)];
const LC_LOAD_DYLINKER: u32 = 0xe;
const LC_RPATH: u32 = 0x8000_001c;
/// `LC_DYLD_INFO` and `LC_DYLD_INFO_ONLY`.
const DYLD_INFOS: [u32; 2] = [0x22, 0x8000_0022];
const LC_ENCRYPTION_INFO_64: u32 = 0x2c;
const LC_MAIN: u32 = 0x8000_0028;
const LC_DYLD_EXPORTS_TRIE: u32 = 0x8000_0033;
/// `dylib_command`: `LC_LOAD_DYLIB`, `LC_ID_DYLIB` and their kin.
const LIBRARIES: [u32; 6] = [0xc, 0xd, 0x20, 0x8000_0018, 0x8000_001f, 0x8000_0023];
/// Other commands with a name: `LC_LOAD_DYLINKER`, `LC_ID_DYLINKER`, `LC_DYLD_ENVIRONMENT`,
/// `LC_RPATH`.
const NAMED: [u32; 4] = [0xe, 0xf, 0x27, 0x8000_001c];
/// Bit of the commands that a loader must know.
const LC_REQ_DYLD: u32 = 0x8000_0000;
const RULES: &str = include_str!(concat!(
    env!("CARGO_MANIFEST_DIR"),
    "/../../docs/rules/layout.md"
));

thread_local! {
    /// The commands that `layout.md` lists as a `linkedit_data_command`.
    static LINKEDIT: Vec<u32> = listed("linkedit_data_command");
}

/// The listed commands of a structure, by the table of `layout.md`: a name, `cmd` and the structure.
fn listed(structure: &str) -> Vec<u32> {
    let rows = RULES.lines().filter_map(|line| {
        let (_, rest) = line.strip_prefix("| `LC_")?.split_once("` | 0x")?;
        let (cmd, rest) = rest.split_once(" | `")?;
        rest.strip_prefix(structure)?.strip_prefix("` | ")?;
        Some(u32::from_str_radix(cmd, 16).unwrap())
    });
    rows.collect()
}

fn half(bytes: &[u8], at: usize) -> u16 {
    u16::from_le_bytes(bytes[at..at + 2].try_into().unwrap())
}

fn word(bytes: &[u8], at: usize) -> u32 {
    u32::from_le_bytes(bytes[at..at + 4].try_into().unwrap())
}

fn long(bytes: &[u8], at: usize) -> u64 {
    u64::from_le_bytes(bytes[at..at + 8].try_into().unwrap())
}

/// The bytes up to the first zero byte, or all.
fn text(bytes: &[u8]) -> &[u8] {
    bytes.split(|&byte| byte == 0).next().unwrap()
}

/// `len` bytes from `start` on. If `len` is 0, `start` can be any number.
fn part(bytes: &[u8], start: u64, len: u64) -> &[u8] {
    if len == 0 {
        return &[];
    }
    let start = usize::try_from(start).unwrap();
    &bytes[start..start + usize::try_from(len).unwrap()]
}

/// A load command.
struct Plain<'a> {
    place: usize,
    cmd: u32,
    bytes: &'a [u8],
}

fn commands_of(image: &[u8]) -> Vec<Plain<'_>> {
    let mut place = 32;
    let mut commands = Vec::new();
    for _ in 0..word(image, 16) {
        let size = word(image, place + 4) as usize;
        let bytes = &image[place..place + size];
        let cmd = word(bytes, 0);
        commands.push(Plain { place, cmd, bytes });
        place += size;
    }
    commands
}

fn all_of<'p, 'a>(commands: &'p [Plain<'a>], cmd: u32) -> impl Iterator<Item = &'a [u8]> + 'p {
    let has_cmd = move |command: &&Plain| command.cmd == cmd;
    commands.iter().filter(has_cmd).map(|command| command.bytes)
}

fn first_of<'a>(commands: &[Plain<'a>], cmd: u32) -> Option<&'a [u8]> {
    all_of(commands, cmd).next()
}

/// The name of a command that has one.
fn name_of(bytes: &[u8]) -> &[u8] {
    text(&bytes[word(bytes, 8) as usize..])
}

/// Compares all that the crate gives of an image.
pub fn compare(image: &Image) {
    let commands = commands_of(image.bytes());
    compare_header(image, &commands);
    compare_commands(image, &commands);
    compare_libraries(image, &commands);
    compare_builds(image, &commands);
    compare_paths(image, &commands);
    compare_segments(image, &commands);
    compare_sections(image, &commands);
    compare_symbols(image, &commands);
    compare_lookups(image);
    compare_groups(image, &commands);
    compare_indirects(image, &commands);
    compare_linkedit(image, &commands);
    compare_bounded(image, &commands);
    compare_relocations(image);
    compare_code(image, &commands);
    signature::compare(image, data_of(image, &commands, LC_CODE_SIGNATURE));
    threads::compare(
        image,
        commands.iter().map(|command| (command.cmd, command.bytes)),
    );
    compare_exports(image, &commands);
    compare_addresses(image, &commands);
}

fn compare_header(image: &Image, commands: &[Plain]) {
    let bytes = image.bytes();
    assert_eq!(image.cputype(), word(bytes, 4));
    assert_eq!(image.cpusubtype(), word(bytes, 8) & 0x00ff_ffff);
    assert_eq!(image.filetype(), word(bytes, 12));
    assert_eq!(image.flags(), word(bytes, 24));
    let uuid = first_of(commands, LC_UUID).map(|command| command[8..24].try_into().unwrap());
    assert_eq!(image.uuid(), uuid);
    let base = all_of(commands, LC_SEGMENT_64)
        .find(|segment| long(segment, 40) == 0 && long(segment, 48) > 0 && long(segment, 32) > 0)
        .map(|segment| long(segment, 24));
    assert_eq!(image.base(), base);
    let entry = first_of(commands, LC_MAIN).map(|command| base.unwrap() + long(command, 8));
    assert_eq!(image.entry(), entry);
}

fn compare_commands(image: &Image, commands: &[Plain]) {
    let wanted = commands.iter().map(|command| {
        let has_name = LIBRARIES.contains(&command.cmd) || NAMED.contains(&command.cmd);
        let name = if has_name {
            name_of(command.bytes)
        } else {
            b""
        };
        (command.place as u64, command.cmd, command.bytes, name)
    });
    let found = image
        .commands()
        .map(|found| (found.place, found.cmd, found.bytes, found.name));
    assert_eq!(found.collect::<Vec<_>>(), wanted.collect::<Vec<_>>());
}

fn library_fields(library: Library<'_>) -> (&[u8], u32, u32, u32) {
    (
        library.name,
        library.cmd,
        library.current,
        library.compatible,
    )
}

fn compare_libraries(image: &Image, commands: &[Plain]) {
    let libraries = commands
        .iter()
        .filter(|command| LIBRARIES.contains(&command.cmd));
    let wanted = libraries.map(|Plain { cmd, bytes, .. }| {
        let name = name_of(bytes);
        (name, *cmd, word(bytes, 16), word(bytes, 20))
    });
    let (ids, loaded): (Vec<_>, Vec<_>) = wanted.partition(|wanted| wanted.1 == LC_ID_DYLIB);
    assert_eq!(
        image.libraries().map(library_fields).collect::<Vec<_>>(),
        loaded
    );
    assert_eq!(image.id().map(library_fields), ids.first().copied());
}

/// Platform, least version, SDK and `cmd` of a command that has them. No rule judges how long a
/// `version_min_command` is.
fn build_of(Plain { cmd, bytes, .. }: &Plain) -> Option<[u32; 4]> {
    if *cmd == LC_BUILD_VERSION {
        return Some([word(bytes, 8), word(bytes, 12), word(bytes, 16), *cmd]);
    }
    let (_, platform) = LEAST_VERSIONS.iter().find(|least| least.0 == *cmd)?;
    (bytes.len() >= 16).then(|| [*platform, word(bytes, 8), word(bytes, 12), *cmd])
}

fn compare_builds(image: &Image, commands: &[Plain]) {
    let wanted: Vec<_> = commands.iter().filter_map(build_of).collect();
    assert_eq!(image.builds().len(), wanted.len());
    let found = image
        .builds()
        .map(|found| [found.platform, found.minos, found.sdk, found.cmd]);
    assert_eq!(found.collect::<Vec<_>>(), wanted);

    let version = all_of(commands, LC_SOURCE_VERSION)
        .find(|bytes| bytes.len() >= 16)
        .map(|bytes| long(bytes, 8));
    let found = image.source_version().map(|found| {
        let [first, rest @ ..] = found.map(u64::from);
        assert!(rest.iter().all(|&part| part < 1024));
        rest.iter()
            .fold(first, |version, part| version * 1024 + part)
    });
    assert_eq!(found, version);
}

fn compare_paths(image: &Image, commands: &[Plain]) {
    let paths: Vec<_> = all_of(commands, LC_RPATH).map(name_of).collect();
    assert_eq!(image.run_paths().collect::<Vec<_>>(), paths);
    let dylinker = first_of(commands, LC_LOAD_DYLINKER).map(name_of);
    assert_eq!(image.dynamic_linker(), dylinker);
}

fn compare_segments(image: &Image, commands: &[Plain]) {
    let segments: Vec<_> = all_of(commands, LC_SEGMENT_64).collect();
    let mut first_section = 0;
    assert_eq!(image.segments().len(), segments.len());
    for (found, bytes) in image.segments().zip(segments) {
        let (fileoff, filesize) = (long(bytes, 40), long(bytes, 48));
        assert_eq!(found.name, text(&bytes[8..24]));
        assert_eq!(found.bytes, part(image.bytes(), fileoff, filesize));
        assert_eq!(
            (found.vmaddr, found.vmsize),
            (long(bytes, 24), long(bytes, 32))
        );
        assert_eq!((found.fileoff, found.filesize), (fileoff, filesize));
        assert_eq!(
            (found.maxprot, found.initprot),
            (word(bytes, 56), word(bytes, 60))
        );
        assert_eq!(
            (found.first_section, found.section_count),
            (first_section, word(bytes, 64))
        );
        first_section += u64::from(found.section_count);
        let last = u128::from(found.vmaddr) + u128::from(found.vmsize);
        assert_eq!(
            found.last_address().map(u128::from),
            last.checked_sub(1).filter(|_| found.vmsize > 0)
        );
        let place = (filesize > 0).then(|| image.place() + fileoff);
        assert_eq!(image.place_of(found.bytes), place);
    }
}

fn compare_sections(image: &Image, commands: &[Plain]) {
    let sections: Vec<_> = all_of(commands, LC_SEGMENT_64)
        .flat_map(|segment| {
            segment[72..]
                .chunks_exact(80)
                .take(word(segment, 64) as usize)
        })
        .zip(segment_names(commands))
        .collect();
    assert_eq!(image.sections().len(), sections.len());
    for (found, (bytes, segment)) in image.sections().zip(sections) {
        let (size, offset, flags) = (long(bytes, 40), word(bytes, 48), word(bytes, 64));
        let is_zero_fill = matches!(flags & 0xff, 0x1 | 0xc | 0x12);
        let content = (!is_zero_fill).then(|| part(image.bytes(), offset.into(), size));
        assert_eq!((found.name, found.segment), (text(&bytes[..16]), segment));
        assert_eq!(found.bytes, content);
        assert_eq!((found.addr, found.size), (long(bytes, 32), size));
        assert_eq!((found.offset, found.align), (offset, word(bytes, 52)));
        assert_eq!(
            (found.reloff, found.nreloc),
            (word(bytes, 56), word(bytes, 60))
        );
        assert_eq!((found.flags, found.reserved1), (flags, word(bytes, 68)));
        assert_eq!(found.reserved2, word(bytes, 72));
    }
}

/// The name of each section's segment, from the segment's command: the `section_64` can have another name.
fn segment_names<'a>(commands: &[Plain<'a>]) -> Vec<&'a [u8]> {
    let names = all_of(commands, LC_SEGMENT_64).flat_map(|segment| {
        let count = word(segment, 64) as usize;
        std::iter::repeat(text(&segment[8..24])).take(count)
    });
    names.collect()
}

fn compare_symbols(image: &Image, commands: &[Plain]) {
    let symtab = first_of(commands, LC_SYMTAB);
    let field = |at| symtab.map_or(0, |symtab| u64::from(word(symtab, at)));
    let [symoff, nsyms, stroff, strsize] = [8, 12, 16, 20].map(field);
    let found = image.symtab();
    let found = found.map(|found| [found.symoff, found.nsyms, found.stroff, found.strsize]);
    assert_eq!(found, symtab.map(|_| [symoff, nsyms, stroff, strsize]));
    let symbols = part(image.bytes(), symoff, 16 * nsyms).chunks_exact(16);
    assert_eq!(image.symbols().len(), symbols.len());
    for ((found, named), bytes) in image.symbols().with_names().zip(symbols) {
        let strx = word(bytes, 0);
        let name =
            (strx != 0).then(|| text(&part(image.bytes(), stroff, strsize)[strx as usize..]));
        assert_eq!((image.name(&found), named, found.strx), (name, name, strx));
        assert_eq!(
            (found.n_type, found.sect, found.desc),
            (bytes[4], bytes[5], half(bytes, 6))
        );
        assert_eq!(found.value, long(bytes, 8));
        // N_STAB, and N_SECT in N_TYPE
        let is_in_section = bytes[4] & 0xe0 == 0 && bytes[4] & 0x0e == 0x0e;
        let section = match usize::from(bytes[5]) {
            0 => None,
            number => (number <= image.sections().len()).then_some(number - 1),
        };
        assert_eq!(found.section, section);
        assert_eq!(found.section_index(), section.filter(|_| is_in_section));
    }
    let last = nsyms.checked_sub(1);
    assert_eq!(
        last.and_then(|last| image.symbol(last)),
        image.symbols().last()
    );
    assert_eq!(image.symbol(nsyms), None);
}

/// Among symbols with an index, the nearest at or before an address.
fn nearest(symbols: &[(u64, Symbol)], address: u64) -> Option<(u64, Symbol)> {
    symbols
        .iter()
        .filter(|(_, symbol)| symbol.value <= address)
        .max_by_key(|(index, symbol)| (symbol.value, *index))
        .copied()
}

/// Looks up symbols by address and by name. Each look-up here reads all symbols, so only some are looked up.
fn compare_lookups(image: &Image) {
    let all: Vec<_> = (0..).zip(image.symbols()).collect();
    let is_plain = |symbol: &Symbol| symbol.n_type & 0xe0 == 0;
    let mut found: Vec<_> = all
        .iter()
        .filter(|(_, symbol)| is_plain(symbol) && symbol.n_type & 0x0e == 0x0e)
        .copied()
        .collect();
    let index = image.symbol_index();
    for (_, symbol) in found.iter().take(9) {
        for address in [
            symbol.value,
            symbol.value.wrapping_sub(1),
            symbol.value.wrapping_add(1),
        ] {
            let wanted = nearest(&found, address);
            assert_eq!(index.symbol_at(address), wanted.map(|(_, symbol)| symbol));
            let position = index.position_at(address);
            let number = position.map(|position| u64::from(index.indices()[position]));
            assert_eq!(number, wanted.map(|(number, _)| number));
        }
    }
    found.sort_by_key(|(index, symbol)| (symbol.value, *index));
    let indices = found.iter().map(|(index, _)| *index as u32);
    assert_eq!(index.indices(), indices.collect::<Vec<_>>());
    let names = all.iter().filter_map(|(_, symbol)| image.name(symbol));
    for name in names.take(9) {
        // Each name is read up to its end, so only some names are compared.
        let named = all
            .iter()
            .take(99)
            .find(|(_, other)| is_plain(other) && image.name(other) == Some(name));
        if named.is_some() || all.len() <= 99 {
            assert_eq!(image.symbol_named(name), named.copied());
        }
    }
}

fn compare_groups(image: &Image, commands: &[Plain]) {
    let dysymtab = first_of(commands, LC_DYSYMTAB);
    let wanted = dysymtab.map(|dysymtab| {
        let groups = [8, 12, 16, 20, 24, 28].map(|at| word(dysymtab, at));
        (
            groups,
            u64::from(word(dysymtab, 56)),
            u64::from(word(dysymtab, 60)),
        )
    });
    let found = image.dysymtab().map(|found| {
        let groups = [
            found.ilocalsym,
            found.nlocalsym,
            found.iextdefsym,
            found.nextdefsym,
            found.iundefsym,
            found.nundefsym,
        ];
        (groups, found.indirectsymoff, found.nindirectsyms)
    });
    assert_eq!(found, wanted);
    let all: Vec<_> = image.symbols().collect();
    let groups = [
        image.local_symbols(),
        image.defined_symbols(),
        image.undefined_symbols(),
    ];
    for (group, at) in groups.into_iter().zip([8, 16, 24]) {
        let (first, count) =
            dysymtab.map_or((0, 0), |bytes| (word(bytes, at), word(bytes, at + 4)));
        let wanted = if count == 0 {
            &[]
        } else {
            &all[first as usize..][..count as usize]
        };
        assert_eq!(group.collect::<Vec<_>>(), wanted);
    }
}

fn compare_indirects(image: &Image, commands: &[Plain]) {
    let dysymtab = first_of(commands, LC_DYSYMTAB);
    let [start, count] = [56, 60].map(|at| dysymtab.map_or(0, |bytes| u64::from(word(bytes, at))));
    let values = part(image.bytes(), start, 4 * count)
        .chunks_exact(4)
        .map(|bytes| word(bytes, 0));
    let found: Vec<_> = image.indirects().map(|found| found.value).collect();
    assert_eq!(found, values.collect::<Vec<_>>());
    for found in image.indirects() {
        // INDIRECT_SYMBOL_LOCAL, INDIRECT_SYMBOL_ABS
        let is_index = found.value >> 30 == 0;
        let symbol = found.symbol_index();
        assert_eq!(symbol, is_index.then(|| found.value.into()));
        assert!(symbol.map_or(true, |index| image.symbol(index).is_some()));
    }
    assert_eq!(
        image.indirect(0).map(|found| found.value),
        found.first().copied()
    );
    assert_eq!(image.indirect(count), None);
}

fn compare_linkedit(image: &Image, commands: &[Plain]) {
    let listed = LINKEDIT.with(Vec::clone);
    assert!(listed.contains(&LC_CODE_SIGNATURE));
    let cmds = (0..0x40).flat_map(|cmd| [cmd, cmd | LC_REQ_DYLD]);
    for cmd in cmds.chain([u32::MAX]) {
        let data = first_of(commands, cmd)
            .filter(|_| listed.contains(&cmd))
            .map(|bytes| part(image.bytes(), word(bytes, 8).into(), word(bytes, 12).into()));
        assert_eq!(image.linkedit(cmd), data, "{cmd:#x}");
    }
}

/// Compares each bounded table. A row has the table, its `cmd`s, the offset of its two fields in the command, and the
/// size of an item.
fn compare_bounded(image: &Image, commands: &[Plain]) {
    let (symtab, dysymtab) = ([LC_SYMTAB; 2], [LC_DYSYMTAB; 2]);
    let wanted = [
        (Table::Symbols, symtab, 8, 16),
        (Table::Strings, symtab, 16, 1),
        (Table::Contents, dysymtab, 32, 8),
        (Table::Modules, dysymtab, 40, 56),
        (Table::References, dysymtab, 48, 4),
        (Table::Indirects, dysymtab, 56, 4),
        (Table::ExternalRelocations, dysymtab, 64, 8),
        (Table::LocalRelocations, dysymtab, 72, 8),
        (Table::Rebase, DYLD_INFOS, 8, 1),
        (Table::Bind, DYLD_INFOS, 16, 1),
        (Table::WeakBind, DYLD_INFOS, 24, 1),
        (Table::LazyBind, DYLD_INFOS, 32, 1),
        (Table::Export, DYLD_INFOS, 40, 1),
        (Table::Encrypted, [LC_ENCRYPTION_INFO_64; 2], 8, 1),
    ];
    assert_eq!(wanted.map(|row| row.0), Table::ALL);
    for (table, cmds, at, size) in wanted {
        let bytes = commands
            .iter()
            .find(|command| cmds.contains(&command.cmd))
            .map(|Plain { bytes, .. }| {
                let count = u64::from(word(bytes, at + 4));
                part(image.bytes(), word(bytes, at).into(), size * count)
            });
        assert_eq!(image.table(table), bytes, "{table:?}");
    }
}

/// The bits of each `relocation_info`, from the lowest on.
fn compare_relocations(image: &Image) {
    for section in image.sections() {
        let (start, count) = (section.reloff.into(), u64::from(section.nreloc));
        let words = part(image.bytes(), start, 8 * count).chunks_exact(8);
        let wanted = words.map(|bytes| (word(bytes, 0), word(bytes, 4)));
        let found = image.relocations(&section).map(|found| {
            assert_eq!(found.is_scattered, found.address >= 1 << 31);
            assert!(found.symbolnum < 1 << 24 && found.length < 4 && found.kind < 16);
            let bits = found.symbolnum
                | u32::from(found.is_pcrel) << 24
                | u32::from(found.length) << 25
                | u32::from(found.is_external) << 27
                | u32::from(found.kind) << 28;
            (found.address, bits)
        });
        assert_eq!(found.collect::<Vec<_>>(), wanted.collect::<Vec<_>>());
    }
}

/// The data of the first command with this `cmd`.
fn data_of<'a>(image: &Image<'a>, commands: &[Plain], cmd: u32) -> &'a [u8] {
    let (start, size) = first_of(commands, cmd).map_or((0, 0), |command| {
        (word(command, 8) as usize, word(command, 12) as usize)
    });
    if size == 0 {
        return &[];
    }
    &image.bytes()[start..][..size]
}

/// Takes a number of ULEB128 from the front of bytes.
fn take_number(bytes: &mut &[u8]) -> Option<u64> {
    let last = bytes.iter().take(10).position(|byte| byte & 0x80 == 0)?;
    let (number, rest) = bytes.split_at(last + 1);
    *bytes = rest;
    number.iter().rev().try_fold(0_u64, |value, byte| {
        value.checked_mul(0x80)?.checked_add(u64::from(byte & 0x7f))
    })
}

/// Takes a string from the front of bytes, and the zero byte that ends it.
fn take_string<'a>(bytes: &mut &'a [u8]) -> Option<&'a [u8]> {
    let end = bytes.iter().position(|&byte| byte == 0)?;
    let string = &bytes[..end];
    *bytes = &bytes[end + 1..];
    Some(string)
}

/// The sums of the ULEB128 numbers, and the whole entries.
fn compare_code(image: &Image, commands: &[Plain]) {
    let (mut starts, mut address) = (Vec::new(), image.base());
    let mut numbers = data_of(image, commands, LC_FUNCTION_STARTS);
    while let Some(last) = address {
        let distance = take_number(&mut numbers).filter(|&distance| distance > 0);
        address = distance.and_then(|distance| last.checked_add(distance));
        starts.extend(address);
    }
    assert_eq!(image.function_starts().collect::<Vec<_>>(), starts);
    let entries = data_of(image, commands, LC_DATA_IN_CODE).chunks_exact(8);
    let wanted = entries.map(|entry| (word(entry, 0), word(entry, 4)));
    let found = image.data_in_code().map(|found| {
        let (start, size) = (found.offset as usize, usize::from(found.length));
        let bytes = image.bytes().get(start..).and_then(|rest| rest.get(..size));
        assert_eq!(found.bytes, bytes.unwrap_or(&[]));
        (
            found.offset,
            u32::from(found.length) | u32::from(found.kind) << 16,
        )
    });
    assert_eq!(found.collect::<Vec<_>>(), wanted.collect::<Vec<_>>());
}

/// The names of an export trie with what is said of each, from the node at `place` on, to which `name` leads. `None` if
/// a node does not end in the trie, or if the visited nodes have more than `left` bytes.
fn exports_from(
    trie: &[u8],
    place: u64,
    name: &[u8],
    left: &mut usize,
    found: &mut Vec<(Vec<u8>, Vec<u8>)>,
) -> Option<()> {
    let node = trie.get(usize::try_from(place).ok()?..)?;
    let mut rest = node;
    let size = usize::try_from(take_number(&mut rest)?).ok()?;
    let (said, after) = (rest.get(..size)?, rest.get(size..)?);
    let (&count, mut rest) = after.split_first()?;
    let mut edges = Vec::new();
    for _ in 0..count {
        edges.push((take_string(&mut rest)?, take_number(&mut rest)?));
    }
    *left = left.checked_sub(node.len() - rest.len())?;
    if size > 0 {
        found.push((name.to_vec(), said.to_vec()));
    }
    for (label, child) in edges {
        exports_from(trie, child, &[name, label].concat(), left, found)?;
    }
    Some(())
}

/// The flags, and what else the bytes say of an export. `None` if a number or the name does not end in them.
fn export_of(mut said: &[u8], base: u64) -> Option<(u64, ExportKind<'_>)> {
    let (flags, number) = (take_number(&mut said)?, take_number(&mut said)?);
    let address = base.wrapping_add(number);
    let kind = if flags & EXPORT_SYMBOL_FLAGS_REEXPORT != 0 {
        let (ordinal, name) = (number, take_string(&mut said)?);
        ExportKind::ReExport { ordinal, name }
    } else if flags & EXPORT_SYMBOL_FLAGS_STUB_AND_RESOLVER != 0 {
        let (stub, resolver) = (address, base.wrapping_add(take_number(&mut said)?));
        ExportKind::Resolved { stub, resolver }
    } else {
        match flags & 3 {
            0 => ExportKind::Regular(address),
            1 => ExportKind::ThreadLocal(address),
            2 => ExportKind::Absolute(number),
            _ => ExportKind::Other(address),
        }
    };
    Some((flags, kind))
}

/// Compares all that a trie exports, up to the first malformed node.
fn compare_exports(image: &Image, commands: &[Plain]) {
    let info = DYLD_INFOS.iter().find_map(|&cmd| first_of(commands, cmd));
    let of_info = info.map_or(&[][..], |command| {
        part(
            image.bytes(),
            word(command, 40).into(),
            word(command, 44).into(),
        )
    });
    let trie = match data_of(image, commands, LC_DYLD_EXPORTS_TRIE) {
        [] => of_info,
        trie => trie,
    };
    let (mut left, mut named) = (trie.len(), Vec::new());
    let _ = exports_from(trie, 0, &[], &mut left, &mut named);
    for (name, said) in &named {
        let found = image.find_export(name);
        let wanted = export_of(said, image.base().unwrap_or(0));
        assert_eq!(found.map(|export| (export.flags, export.kind)), wanted);
    }
}

fn compare_addresses(image: &Image, commands: &[Plain]) {
    let segments: Vec<_> = all_of(commands, LC_SEGMENT_64).collect();
    // A few of many segments will do.
    for bytes in segments.iter().step_by(1 + segments.len() / 8) {
        let (vmaddr, vmsize, filesize) = (long(bytes, 24), long(bytes, 32), long(bytes, 48));
        for start in [
            vmaddr,
            vmaddr.wrapping_add(filesize),
            vmaddr.wrapping_add(vmsize),
        ] {
            for address in [start.wrapping_sub(1), start] {
                assert_eq!(image.at(address), source(image.bytes(), &segments, address));
            }
        }
    }
}

fn source<'a>(image: &'a [u8], segments: &[&[u8]], address: u64) -> Option<Source<'a>> {
    let distance = |bytes: &[u8]| {
        address
            .checked_sub(long(bytes, 24))
            .filter(|&past| past < long(bytes, 32))
    };
    let (bytes, past) = segments
        .iter()
        .find_map(|bytes| Some((bytes, distance(bytes)?)))?;
    let file_part = part(image, long(bytes, 40), long(bytes, 48));
    match file_part.get(usize::try_from(past).unwrap()..) {
        None | Some([]) => Some(Source::Zero),
        Some(rest) => Some(Source::Bytes(rest)),
    }
}
