//! Reads all that the crate object gives of a file: sections, relocations, symbols with their names, imports and
//! exports. ../peers runs it.

use std::error::Error;
use std::hint::black_box;
use std::{env, fs};

use object::macho::FatHeader;
use object::read::macho::FatArch;
use object::{FileKind, Object, ObjectSection, ObjectSymbol};

fn read(slice: &[u8]) -> Result<(), Box<dyn Error>> {
    let image = object::File::parse(slice)?;
    for section in image.sections() {
        section.name_bytes()?;
        section.data()?;
        section.relocations().for_each(|it| drop(black_box(it)));
    }
    for symbol in image.symbols() {
        symbol.name_bytes()?;
    }
    image.imports()?;
    image.exports()?;
    Ok(())
}

fn read_slices<T: FatArch>(entries: &[T], file: &[u8]) -> Result<(), Box<dyn Error>> {
    entries.iter().try_for_each(|entry| read(entry.data(file)?))
}

fn main() -> Result<(), Box<dyn Error>> {
    let path = env::args_os().nth(1).ok_or("usage: by_object FILE")?;
    let file = fs::read(path)?;
    let data: &[u8] = &file;
    match FileKind::parse(data)? {
        FileKind::MachOFat32 => read_slices(FatHeader::parse_arch32(data)?, data),
        FileKind::MachOFat64 => read_slices(FatHeader::parse_arch64(data)?, data),
        _ => read(data),
    }
}
