//! The pointers that a loader writes, of a real program and of images that are made here.

mod support;

use std::fs;

use kesvuot::{Authentication, Fixup, FixupTarget, Image, Import, Profile};
use support::image_of;

const BASE: u64 = 0x1_0000_0000;

/// `LC_SEGMENT_64` of a segment with one section, with these bytes of the file at a place in memory.
fn segment(name: &[u8; 8], vmaddr: u64, fileoff: u64, size: u64) -> Vec<u8> {
    let name = [*name, [0; 8]].concat();
    let longs = [vmaddr, 0x1000, fileoff, size];
    let section = [[fileoff as u32, 0, 0, 0], [0; 4]].concat();
    [
        words(&[0x19, 152]),
        name.clone(),
        longs.into_iter().flat_map(u64::to_le_bytes).collect(),
        words(&[3, 3, 1, 0]),
        b"__bytes\0\0\0\0\0\0\0\0\0".to_vec(),
        name,
        [vmaddr, size]
            .into_iter()
            .flat_map(u64::to_le_bytes)
            .collect(),
        words(&section),
    ]
    .concat()
}

fn words(words: &[u32]) -> Vec<u8> {
    words.iter().copied().flat_map(u32::to_le_bytes).collect()
}

/// An executable with these pointers at 0x1000 from its base, and a table that its last command names. The command
/// has the numbers after `cmd` and `cmdsize`, and the table begins where the pointers end, at `place`.
fn with_table(
    pointers: &[u64],
    command: impl Fn(u32) -> Vec<u32>,
    cmd: u32,
    table: &[u8],
) -> Vec<u8> {
    let cmdsize = 8 + 4 * command(0).len() as u32;
    let start = 32 + 2 * 152 + cmdsize;
    let size = 8 * pointers.len() as u64;
    let header = [0xfeed_facf, 0x0100_000c, 0, 2, 3, start - 32, 0, 0];
    let place = start + size as u32;
    [
        words(&header),
        segment(b"__TEXT\0\0", BASE, 0, start.into()),
        segment(b"__DATA\0\0", BASE + 0x1000, start.into(), size),
        words(&[cmd, cmdsize]),
        words(&command(place)),
        pointers
            .iter()
            .copied()
            .flat_map(u64::to_le_bytes)
            .collect(),
        table.to_vec(),
    ]
    .concat()
}

/// With `LC_DYLD_CHAINED_FIXUPS`, a chain of this format from the first pointer on, and two imports: `_a` of all
/// images, and `_b`, which is weak, of all images with their weak definitions.
fn with_chain(form: u32, pointers: &[u64]) -> Vec<u8> {
    let header = [0, 28, 64, 72, 2, 1, 0];
    let starts = [2, 0, 12, 24, 0x1000 | form << 16, 0x1000, 0, 0, 1];
    let imports = [0xfe, 0xfd | 1 << 8 | 3 << 9];
    let table = [
        words(&header),
        words(&starts),
        words(&imports),
        b"_a\0_b\0".to_vec(),
    ]
    .concat();
    let size = table.len() as u32;
    with_table(pointers, |place| vec![place, size], 0x8000_0034, &table)
}

/// A pointer by its offset in the second segment: a rebase with its target, or a bind with its import and addend.
#[derive(Debug, PartialEq)]
enum Pointer {
    Rebase(u64, u64),
    Bind(u64, u64, i64),
}

use Pointer::{Bind, Rebase};

/// What the fixups say, in short.
fn pointers<'a>(
    fixups: impl Iterator<Item = Fixup> + 'a,
) -> impl Iterator<Item = (Pointer, Option<Authentication>)> + 'a {
    fixups.map(|fixup| {
        assert_eq!(fixup.segment, 1);
        assert_eq!(fixup.address, BASE + 0x1000 + fixup.offset);
        let pointer = match fixup.target {
            FixupTarget::Rebase(target) => Rebase(fixup.offset, target),
            FixupTarget::Bind { import, addend } => Bind(fixup.offset, import, addend),
        };
        (pointer, fixup.authentication)
    })
}

/// The pointers of an image without signed pointers.
fn unsigned(image: &Image) -> Vec<Pointer> {
    let all = pointers(image.fixups());
    all.map(|(pointer, authentication)| {
        assert_eq!(authentication, None);
        pointer
    })
    .collect()
}

/// The name, the library and the addend of each import, and whether it is weak.
fn imports<'a>(image: &Image<'a>) -> Vec<(&'a [u8], i64, i64, bool)> {
    let all = image.imports();
    all.map(|it: Import| (it.name, it.library, it.addend, it.is_weak))
        .collect()
}

/// As `llvm-objdump --macho --bind` shows them.
#[test]
fn a_real_program_binds_a_pointer() {
    let path = concat!(env!("CARGO_MANIFEST_DIR"), "/../../tests/real/program");
    let file = fs::read(path).unwrap();
    let verified = kesvuot::verify(&file, Profile::Linked).unwrap();
    let image = verified.image(0).unwrap();
    let fixups: Vec<Fixup> = image.fixups().collect();
    assert_eq!(fixups.len(), 1);
    let (import, addend) = (0, 0);
    assert_eq!(fixups[0].target, FixupTarget::Bind { import, addend });
    assert_eq!(fixups[0].address, 0x1_0000_1000);
    assert_eq!((fixups[0].segment, fixups[0].offset), (2, 0));
    assert_eq!(fixups[0].authentication, None);
    assert_eq!(imports(&image), [(b"_step".as_slice(), 1, 0, false)]);
    let library = image.libraries().next().unwrap();
    assert_eq!(library.name, b"/usr/lib/libdemo.dylib");
}

/// Opcodes of each stream, in the order of a loader. A rebase points where the file says.
#[test]
fn opcodes_write_pointers() {
    let streams: [&[u8]; 4] = [
        // Two rebases from the second pointer on, and one past the end
        &[0x11, 0x21, 8, 0x52, 0x30, 0x80, 0x10, 0x51, 0],
        // A bind of the first library, and an addend
        b"\x11\x40_a\0\x60\x7e\x71\x20\x90\0",
        b"\x41_w\0\x71\x18\x90\0",
        // Two entries: an end of one clears what was set
        b"\x71\x28\x11\x40_l\0\x90\0\x71\0\x40_m\0\x90\0",
    ];
    let numbers = |place: u32| {
        let mut starts = place;
        let mut all: Vec<u32> = Vec::new();
        for stream in streams {
            all.extend([starts, stream.len() as u32]);
            starts += stream.len() as u32;
        }
        [all, vec![0, 0]].concat()
    };
    let held = [0, BASE + 0x10, u64::MAX, 0, 0, 0];
    let file = with_table(&held, numbers, 0x8000_0022, &streams.concat());
    let image = image_of(&file);
    let wanted = [
        Rebase(8, BASE + 0x10),
        Rebase(16, u64::MAX),
        Bind(32, 0, -2),
        Bind(24, 1, 0),
        Bind(40, 2, 0),
        Bind(0, 3, 0),
    ];
    assert_eq!(unsigned(&image), wanted);
    let names = [
        (b"_a".as_slice(), 1, -2, false),
        (b"_w", -3, 0, true),
        (b"_l", 1, 0, false),
        (b"_m", 0, 0, false),
    ];
    assert_eq!(imports(&image), names);
}

/// As `llvm-objdump --macho --dyld-info` shows these bytes. It reads no chains of arm64e.
#[test]
fn chains_write_pointers() {
    let held = [
        0x0010_0011_0000_0010,
        0x8010_0000_0500_0000,
        0x8020_0000_0000_0001,
        0,
        0x20,
    ];
    let (first, last) = (0x0100_0001_0000_0010, 0x20);
    for (form, first, last) in [(2, first, last), (6, BASE + first, BASE + last)] {
        let file = with_chain(form, &held);
        let image = image_of(&file);
        let wanted = [
            Rebase(0, first),
            Bind(8, 0, 5),
            Bind(16, 1, 0),
            Rebase(32, last),
        ];
        assert_eq!(unsigned(&image), wanted);
        let names = [(b"_a".as_slice(), -2, 0, false), (b"_b", -3, 0, true)];
        assert_eq!(imports(&image), names);
    }
}

/// The bits of `dyld_chained_ptr_arm64e_rebase`, `_bind`, `_auth_rebase` and `_auth_bind`. `next` counts pointers.
#[test]
fn signed_pointers_say_how() {
    let next = 1 << 51;
    let held = [
        0x2_0000_0010 | 0x80 << 43 | next,
        1 << 62 | 1 | 0x7_fffe << 32 | next,
        1 << 63 | 0x1010 | 0xbeef << 32 | 1 << 48 | 2 << 49 | next,
        3 << 62 | 0x0102 << 32 | 3 << 49,
    ];
    for (form, base) in [(1, 0), (9, BASE), (12, BASE)] {
        let file = with_chain(form, &held);
        let image = image_of(&file);
        let all: Vec<_> = pointers(image.fixups()).collect();
        assert_eq!(all[0], (Rebase(0, base + 0x8000_0002_0000_0010), None));
        assert_eq!(all[1], (Bind(8, 1, -2), None));
        assert_eq!(all[2].0, Rebase(16, BASE + 0x1010));
        let how = all[2].1.unwrap();
        assert_eq!((how.key, how.diversity), (2, 0xbeef));
        assert!(how.has_address_diversity);
        assert_eq!(all[3].0, Bind(24, 0, 0));
        let how = all[3].1.unwrap();
        assert_eq!((how.key, how.diversity), (3, 0x0102));
        assert!(!how.has_address_diversity);
        assert_eq!(all.len(), 4);
    }
}

/// An opcode asks for the first pointer 2^64 - 1 times. No more rows are read than are taken.
#[test]
fn opcodes_can_write_without_end() {
    let opcodes = [
        [0x21, 0, 0x80].as_slice(),
        &[0xff; 9],
        &[1, 0xf8],
        &[0xff; 8],
        &[1],
    ]
    .concat();
    let size = opcodes.len() as u32;
    let numbers = |place: u32| [[place, size].as_slice(), &[0; 8]].concat();
    let file = with_table(&[7], numbers, 0x8000_0022, &opcodes);
    let image = image_of(&file);
    let mut all = pointers(image.fixups()).take(3000);
    assert!(all.by_ref().all(|(pointer, _)| pointer == Rebase(0, 7)));
    assert_eq!(image.fixups().take(3000).count(), 3000);
}

#[test]
fn an_image_without_them_has_none() {
    let file = with_table(&[0], |_| vec![0, 0], 0x26, &[]);
    let image = image_of(&file);
    assert_eq!(image.fixups().count(), 0);
    assert_eq!(image.imports().count(), 0);
}
