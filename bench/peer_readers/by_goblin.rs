//! Reads all that the crate goblin gives of a file: headers, sections, relocations, symbols, imports and exports.
//! ../peers runs it.

use std::error::Error;
use std::{env, fs};

use goblin::mach::{Mach, MachO};

fn read(image: &MachO) -> Result<(), Box<dyn Error>> {
    for segment in image.segments.iter() {
        for section in segment {
            section?;
        }
    }
    for (_, relocations, _) in image.relocations()? {
        for relocation in relocations {
            relocation?;
        }
    }
    for symbol in image.symbols() {
        symbol?;
    }
    image.imports()?;
    image.exports()?;
    Ok(())
}

fn main() -> Result<(), Box<dyn Error>> {
    let path = env::args_os().nth(1).ok_or("usage: by_goblin FILE")?;
    let file = fs::read(path)?;
    match Mach::parse(&file)? {
        Mach::Binary(image) => read(&image)?,
        Mach::Fat(images) => {
            for number in 0..images.narches {
                read(&images.get(number)?)?;
            }
        }
    }
    Ok(())
}
