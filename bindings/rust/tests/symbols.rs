//! What the bits of symbols say, and the names that they stand for.

mod support;

use kesvuot::constants::{
    MH_TWOLEVEL, N_ABS, N_ALT_ENTRY, N_EXT, N_INDR, N_PBUD, N_UNDF, N_WEAK_DEF, N_WEAK_REF,
};
use kesvuot::{Symbol, SymbolKind, SymbolLibrary};
use support::image_of;

/// An executable with the given flags in its header, `LC_SYMTAB`, a symbol with the given type, description and value,
/// and the strings `_a` at 1 and `_b` at 4.
fn with_symbol(flags: u32, n_type: u8, desc: u16, value: u64) -> Vec<u8> {
    let words = [0xfeed_facf, 0x0100_0007, 3, 2, 1, 24, flags, 0];
    let command = [2, 24, 56, 1, 72, 7];
    let mut file: Vec<u8> = words
        .into_iter()
        .chain(command)
        .chain([1])
        .flat_map(u32::to_le_bytes)
        .collect();
    file.extend([n_type, 0]);
    file.extend(desc.to_le_bytes());
    file.extend(value.to_le_bytes());
    file.extend(b"\0_a\0_b\0");
    file
}

fn symbol(n_type: u8, desc: u16) -> Symbol {
    let file = with_symbol(0, n_type, desc, 0);
    image_of(&file).symbol(0).unwrap()
}

#[test]
fn each_type_has_a_kind() {
    use SymbolKind::{Absolute, Debugging, Indirect, Other, Prebound, Section, Undefined};
    let kinds = [
        Undefined, Absolute, Other, Other, Other, Indirect, Prebound, Section,
    ];
    // A symbol of a section needs one, which the image does not have.
    for n_type in (0..=u8::MAX).filter(|n_type| n_type & 0xee != 0x0e) {
        let is_debugging = n_type >= 0x20;
        let kind = match is_debugging {
            true => Debugging,
            false => kinds[usize::from(n_type >> 1 & 7)],
        };
        let is_defined = matches!(kind, Absolute | Indirect);
        let is_undefined = matches!(kind, Undefined | Prebound);
        for desc in [0, N_WEAK_REF, N_WEAK_DEF, N_ALT_ENTRY] {
            let found = symbol(n_type, desc);
            assert_eq!((found.n_type, found.kind()), (n_type, kind));
            assert_eq!(found.is_external(), !is_debugging && n_type & 1 != 0);
            assert_eq!(found.is_private(), !is_debugging && n_type & 16 != 0);
            assert_eq!(
                found.is_weak_reference(),
                is_undefined && desc == N_WEAK_REF
            );
            assert_eq!(found.is_weak_definition(), is_defined && desc == N_WEAK_DEF);
            assert!(!found.is_alternate_entry());
        }
    }
}

#[test]
fn symbols_of_sections_are_defined() {
    let path = concat!(env!("CARGO_MANIFEST_DIR"), "/../../tests/real/program");
    let file = std::fs::read(path).unwrap();
    let start = image_of(&file).symbol_named("_start").unwrap().1;
    for (desc, is_weak, is_alternate) in [
        (0, false, false),
        (N_WEAK_REF, false, false),
        (N_WEAK_DEF, true, false),
        (N_ALT_ENTRY, false, true),
    ] {
        let mut found = start;
        found.desc = desc;
        assert_eq!(
            (found.kind(), found.is_external()),
            (SymbolKind::Section, true)
        );
        assert_eq!(
            (found.is_weak_definition(), found.is_alternate_entry()),
            (is_weak, is_alternate)
        );
        assert!(!found.is_weak_reference());
    }
}

#[test]
fn undefined_symbols_have_libraries() {
    let two_level = MH_TWOLEVEL;
    for (flags, n_type, desc, value, library) in [
        (
            two_level,
            N_UNDF | N_EXT,
            0,
            0,
            Some(SymbolLibrary::ThisImage),
        ),
        (
            two_level,
            N_UNDF | N_EXT,
            1 << 8 | N_WEAK_REF,
            0,
            Some(SymbolLibrary::Index(0)),
        ),
        (
            two_level,
            N_PBUD | N_EXT,
            0xfd << 8,
            5,
            Some(SymbolLibrary::Index(0xfc)),
        ),
        (
            two_level,
            N_UNDF | N_EXT,
            0xfe << 8,
            0,
            Some(SymbolLibrary::DynamicLookup),
        ),
        (
            two_level,
            N_UNDF | N_EXT,
            0xff << 8,
            0,
            Some(SymbolLibrary::Executable),
        ),
        (two_level, N_UNDF | N_EXT, 1 << 8, 5, None),
        (two_level, N_ABS | N_EXT, 1 << 8, 0, None),
        (two_level, 0x20, 1 << 8, 0, None),
        (0, N_UNDF | N_EXT, 1 << 8, 0, None),
    ] {
        let file = with_symbol(flags, n_type, desc, value);
        let image = image_of(&file);
        assert_eq!(image.library_of(&image.symbol(0).unwrap()), library);
    }
}

#[test]
fn indirect_symbols_have_another_name() {
    for (n_type, value, name) in [
        (N_INDR | N_EXT, 4, Some(b"_b".as_slice())),
        (N_INDR, 5, Some(b"b")),
        (N_INDR, 0, None),
        (N_INDR, 7, None),
        (N_INDR, (1 << 32) + 4, None),
        (N_ABS, 4, None),
    ] {
        let file = with_symbol(0, n_type, 0, value);
        let image = image_of(&file);
        let symbol = image.symbol(0).unwrap();
        assert_eq!(image.name(&symbol), Some(b"_a".as_slice()));
        assert_eq!(image.other_name(&symbol), name, "{n_type:#x} {value:#x}");
    }
}
