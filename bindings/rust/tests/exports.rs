//! The exports of an image that this file makes.

mod support;

use kesvuot::constants::EXPORT_SYMBOL_FLAGS_WEAK_DEFINITION;
use kesvuot::{Export, ExportKind};
use support::image_of;

/// A trie with a node in each line.
const TRIE: [&[u8]; 9] = [
    b"\x00\x01_\0\x05",
    b"\x00\x07a\0\x1ck\0\x20o\0\x24q\0\x28r\0\x2ds\0\x34t\0\x39",
    b"\x02\x04\x10\x00",
    b"\x02\x02\x30\x00",
    b"\x02\x03\x31\x00",
    b"\x03\x08\x01\0\x00",
    b"\x05\x08\x02_x\0\x00",
    b"\x03\x10\x40\x50\x00",
    b"\x02\x01\x20\x00",
];

/// An executable with a segment at 2^32, and this data of `LC_DYLD_EXPORTS_TRIE` (0x80000033).
fn with_trie(trie: &[u8]) -> Vec<u8> {
    let (place, size) = (120, trie.len() as u32);
    let words = [
        [0xfeed_facf, 0x0100_0007, 3, 2, 2, 88, 0, 0].as_slice(),
        &[
            0x19,
            72,
            0,
            0,
            0,
            0,
            0,
            1,
            0x1000,
            0,
            0,
            0,
            place + size,
            0,
            5,
            5,
            0,
            0,
        ],
        &[0x8000_0033, 16, place, size],
    ];
    let bytes = words.concat().into_iter().flat_map(u32::to_le_bytes);
    bytes.chain(trie.iter().copied()).collect()
}

#[test]
fn each_kind_is_found() {
    let file = with_trie(&TRIE.concat());
    let image = image_of(&file);
    let kind = |name: &str| image.find_export(name).map(|export: Export| export.kind);
    let base = 0x1_0000_0000;
    assert_eq!(kind("_a"), Some(ExportKind::Regular(base + 0x10)));
    assert_eq!(kind("_k"), Some(ExportKind::Absolute(0x30)));
    assert_eq!(kind("_o"), Some(ExportKind::Other(base + 0x31)));
    let same = ExportKind::ReExport {
        ordinal: 1,
        name: b"",
    };
    assert_eq!(kind("_q"), Some(same));
    let renamed = ExportKind::ReExport {
        ordinal: 2,
        name: b"_x",
    };
    assert_eq!(kind("_r"), Some(renamed));
    let (stub, resolver) = (base + 0x40, base + 0x50);
    assert_eq!(kind("_s"), Some(ExportKind::Resolved { stub, resolver }));
    assert_eq!(kind("_t"), Some(ExportKind::ThreadLocal(base + 0x20)));
    let weak = image.find_export(b"_a").unwrap();
    assert_eq!(weak.flags, EXPORT_SYMBOL_FLAGS_WEAK_DEFINITION);
    for other in ["", "_", "a", "_aa", "_a\0", "_x"] {
        assert_eq!(image.find_export(other), None);
    }
}

/// The names and exports of a walk.
fn walked(file: &[u8]) -> Vec<(String, ExportKind<'_>)> {
    let image = image_of(file);
    let exports = image.exports();
    exports
        .map(|(name, export)| (String::from_utf8(name).unwrap(), export.kind))
        .collect()
}

#[test]
fn a_walk_meets_all() {
    let file = with_trie(&TRIE.concat());
    let image = image_of(&file);
    let found = walked(&file);
    let names: Vec<&str> = found.iter().map(|(name, _)| name.as_str()).collect();
    assert_eq!(names, ["_a", "_k", "_o", "_q", "_r", "_s", "_t"]);
    for (name, kind) in &found {
        assert_eq!(image.find_export(name).unwrap().kind, *kind);
    }
    let mut exports = image.exports();
    assert_eq!(exports.by_ref().count(), 7);
    assert!(exports.next().is_none());
}

#[test]
fn a_walk_ends_on_any_bytes() {
    let base = 0x1_0000_0000;
    // The root, which is the whole trie, exports the empty name, and leads to itself.
    let itself = with_trie(b"\x02\x00\x07\x01a\0\x00");
    assert_eq!(
        walked(&itself),
        [(String::new(), ExportKind::Regular(base + 7))]
    );
    // Two edges lead to one node of 4 bytes: the visited nodes have 16 bytes, and the trie has 13.
    let twice = with_trie(b"\x00\x02a\0\x09b\0\x09\0\x02\x00\x07\x00");
    assert_eq!(
        walked(&twice),
        [(String::from("a"), ExportKind::Regular(base + 7))]
    );
    // The first edge is whole, and the second does not end in the trie.
    assert!(walked(&with_trie(b"\x00\x02a\0\x05b")).is_empty());
    // The flags of the first export and the address of the second do not end in their terminal parts.
    let parts = b"\x00\x03a\0\x0bb\0\x0ec\0\x12\x01\x80\x00\x02\x00\x80\x00\x02\x00\x07\x00";
    assert_eq!(
        walked(&with_trie(parts)),
        [(String::from("c"), ExportKind::Regular(base + 7))]
    );
    assert!(walked(&with_trie(b"")).is_empty());
}
