//! The iterators, over the symbols of an image that is made here.

mod support;

use kesvuot::{Image, Profile, Rows, Symbol, Verified};
use support::image_of;

/// An executable of a header, `LC_SYMTAB`, and this many symbols without names, whose values count
/// from 0.
fn with_symbols(count: u32) -> Vec<u8> {
    with_strings(count, 0)
}

/// An executable as above, with `strsize` zero bytes as strings after the symbols. Every third symbol has no name, and
/// the others have an empty one.
fn with_strings(count: u32, strsize: u32) -> Vec<u8> {
    let header = [0xfeed_facf, 0x0100_0007, 3, 2, 1, 24, 0, 0];
    let symtab = [2, 24, 56, count, 56 + 16 * count, strsize];
    let mut file: Vec<u8> = header
        .iter()
        .chain(&symtab)
        .flat_map(|word: &u32| word.to_le_bytes())
        .collect();
    for value in 0..u64::from(count) {
        let strx = if value % 3 == 0 || strsize == 0 {
            0
        } else {
            1u32
        };
        file.extend(strx.to_le_bytes());
        file.extend([0; 4]);
        file.extend(value.to_le_bytes());
    }
    file.resize(file.len() + strsize as usize, 0);
    file
}

fn values(symbols: impl Iterator<Item = Symbol>) -> Vec<u64> {
    symbols.map(|symbol| symbol.value).collect()
}

#[test]
fn all_rows_come_in_order() {
    for count in [0, 1, 255, 256, 257, 512, 1000] {
        let file = with_symbols(count);
        let image = image_of(&file);
        assert_eq!(
            values(image.symbols()),
            (0..u64::from(count)).collect::<Vec<_>>()
        );
    }
}

#[test]
fn names_come_with_their_symbols() {
    let file = with_strings(600, 2);
    let image = image_of(&file);
    let mut named = image.symbols().with_names();
    for (index, symbol) in image.symbols().enumerate() {
        assert_eq!(named.len(), 600 - index);
        let name = (index % 3 != 0).then_some(b"".as_slice());
        assert_eq!(named.next(), Some((symbol, name)));
    }
    assert_eq!((named.next(), named.next(), named.len()), (None, None, 0));
}

#[test]
fn the_length_is_that_of_what_is_left() {
    let file = with_symbols(600);
    let mut symbols = image_of(&file).symbols();
    for left in (0..=600).rev() {
        assert_eq!(
            (symbols.len(), symbols.size_hint()),
            (left, (left, Some(left)))
        );
        assert_eq!(symbols.next().is_some(), left > 0);
    }
    assert!(symbols.next().is_none());
}

#[test]
fn rows_can_be_passed_over() {
    let file = with_symbols(1000);
    let image = image_of(&file);
    for past in [0, 1, 255, 256, 257, 998, 999, 1000, 1001, usize::MAX] {
        let wanted: Vec<_> = (0..1000).skip(past).collect();
        assert_eq!(values(image.symbols().skip(past)), wanted);
        let mut symbols = image.symbols();
        symbols.next();
        assert_eq!(
            values(symbols.skip(past)),
            (1..1000).skip(past).collect::<Vec<_>>()
        );
        assert_eq!(
            image.symbol(past as u64).map(|symbol| symbol.value),
            wanted.first().copied()
        );
    }
    let mut symbols = image.symbols();
    assert_eq!(
        (symbols.nth(1001), symbols.len(), symbols.next()),
        (None, 0, None)
    );
    for step in [1, 7, 256, 300] {
        assert_eq!(
            values(image.symbols().step_by(step)),
            (0..1000).step_by(step).collect::<Vec<_>>()
        );
    }
}

#[test]
fn a_clone_goes_on_by_itself() {
    let file = with_symbols(300);
    let mut symbols = image_of(&file).symbols();
    symbols.nth(99);
    let others = symbols.clone();
    assert_eq!(values(symbols), values(others));
}

#[test]
fn what_is_read_outlives_the_verdict() {
    let file = with_symbols(1);
    let (symbol, command) = {
        let verified = kesvuot::verify(&file, Profile::Layout).unwrap();
        let image = verified.image(0).unwrap();
        let symbol = image.symbols().next().unwrap();
        assert_eq!(image.name(&symbol), None);
        (symbol, image.commands().next().unwrap())
    };
    assert_eq!((symbol.section, command.bytes), (None, &file[32..56]));
}

/// An executable of a header, `LC_SEGMENT_64` with two empty sections, `LC_SYMTAB`, and symbols of
/// these types and sections.
fn with_sections(symbols: &[(u8, u8)]) -> Vec<u8> {
    let (nsyms, place) = (u32::try_from(symbols.len()).unwrap(), 32 + 232 + 24);
    let mut file: Vec<u8> = [0xfeed_facf, 0x0100_0007, 3, 2, 2, 232 + 24, 0, 0]
        .into_iter()
        .chain([0x19, 232].into_iter().chain([0; 14]).chain([2, 0]))
        .chain([0; 40])
        .chain([2, 24, place, nsyms, 0, 0])
        .flat_map(u32::to_le_bytes)
        .collect();
    assert_eq!(file.len(), place as usize);
    for &(kind, sect) in symbols {
        file.extend([0, 0, 0, 0, kind, sect]);
        file.extend([0; 10]);
    }
    file
}

#[test]
fn sections_of_symbols_exist() {
    // Types of <mach-o/nlist.h> and <mach-o/stab.h>, and the section that each symbol has, and is defined
    // in.
    const N_SECT: u8 = 0xe;
    const N_UNDF: u8 = 0x0;
    const N_ABS: u8 = 0x2;
    const N_STSYM: u8 = 0x26;
    const N_FUN: u8 = 0x24;
    let wanted = [
        (N_SECT, 1, Some(0), Some(0)),
        (N_SECT, 2, Some(1), Some(1)),
        (N_UNDF, 0, None, None),
        (N_UNDF, 2, Some(1), None),
        (N_UNDF, 3, None, None),
        (N_ABS, 255, None, None),
        (N_STSYM, 0, None, None),
        (N_STSYM, 2, Some(1), None),
        (N_FUN, 3, None, None),
        (N_FUN, 200, None, None),
    ];
    let file = with_sections(&wanted.map(|(kind, sect, ..)| (kind, sect)));
    let image = image_of(&file);
    assert_eq!(image.sections().len(), 2);
    let found = image.symbols().map(|symbol| {
        let Symbol {
            n_type,
            sect,
            section,
            ..
        } = symbol;
        (n_type, sect, section, symbol.section_index())
    });
    assert_eq!(found.collect::<Vec<_>>(), wanted);
    assert_eq!(image.symbol(3).unwrap().section, Some(1));
}

#[test]
fn threads_may_share_all() {
    fn is_shared<T: Send + Sync>() {}
    is_shared::<Verified>();
    is_shared::<Image>();
    is_shared::<Rows<Symbol>>();
}
