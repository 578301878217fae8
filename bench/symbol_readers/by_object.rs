//! Reads all symbols of a file by the crate object. bench/symbols builds and runs it, and says what
//! it prints.
//!
//!     by_object ROUNDS REPEATS FILE
//!
//! It takes the symbols from `object::read::macho`, which has each entry of the table. `symbols` of `object::File`
//! leaves out debugging entries.

mod steps;

use std::error::Error;

use object::macho::{FatHeader, MachHeader64, MH_MAGIC_64};
use object::read::macho::{FatArch, MachHeader, Nlist, Segment, SymbolTable};
use object::{FileKind, LittleEndian};
use steps::{Sums, Task};

type Header = MachHeader64<LittleEndian>;
type Entry = <Header as MachHeader>::Nlist;

#[derive(Default)]
struct Image<'a> {
    symbols: SymbolTable<'a, Header>,
    section_count: u64,
}

impl<'a> Image<'a> {
    fn parse(slice: &'a [u8]) -> object::Result<Self> {
        let header = Header::parse(slice, 0)?;
        let mut commands = header.load_commands(LittleEndian, slice, 0)?;
        let mut image = Image::default();
        while let Some(command) = commands.next()? {
            if let Some((segment, _)) = command.segment_64()? {
                image.section_count += u64::from(segment.nsects(LittleEndian));
            } else if let Some(symtab) = command.symtab()? {
                image.symbols = symtab.symbols(LittleEndian, slice)?;
            }
        }
        Ok(image)
    }

    /// The number of a symbol's section, or 0 if no section has the number.
    fn section(&self, symbol: &Entry) -> u64 {
        let number = u64::from(symbol.n_sect());
        if number <= self.section_count {
            number
        } else {
            0
        }
    }

    fn name_length(&self, symbol: &Entry) -> object::Result<usize> {
        match symbol.n_strx(LittleEndian) {
            0 => Ok(0),
            _ => Ok(symbol.name(LittleEndian, self.symbols.strings())?.len()),
        }
    }
}

/// The images of the slices that kesvuot reads: 64-bit, little-endian ones.
fn open_entries<'a, T: FatArch>(entries: &[T], file: &'a [u8]) -> object::Result<Vec<Image<'a>>> {
    let is_read = |slice: &&[u8]| slice.starts_with(&MH_MAGIC_64.to_le_bytes());
    let slices = entries.iter().map(|entry| entry.data(file));
    slices
        .filter(|slice| slice.as_ref().map_or(true, is_read))
        .map(|slice| Image::parse(slice?))
        .collect()
}

fn open_images(file: &[u8]) -> Result<Vec<Image<'_>>, Box<dyn Error>> {
    Ok(match FileKind::parse(file)? {
        FileKind::MachOFat32 => open_entries(FatHeader::parse_arch32(file)?, file)?,
        FileKind::MachOFat64 => open_entries(FatHeader::parse_arch64(file)?, file)?,
        _ => vec![Image::parse(file)?],
    })
}

fn add_symbols(
    image: &Image,
    sums: &mut Sums,
    length: impl Fn(&Entry) -> object::Result<usize>,
) -> Result<(), Box<dyn Error>> {
    for symbol in image.symbols.iter() {
        let value = symbol.n_value(LittleEndian);
        sums.add(value, image.section(symbol), length(symbol)?);
    }
    Ok(())
}

fn main() -> Result<(), Box<dyn Error>> {
    let task = Task::from_words()?;
    for _ in 0..task.rounds {
        let images = task.open(open_images)?;
        task.sum("rows", &images, |image, sums| {
            add_symbols(image, sums, |_| Ok(0))
        })?;
        task.sum("names", &images, |image, sums| {
            add_symbols(image, sums, |symbol| image.name_length(symbol))
        })?;
    }
    Ok(())
}
