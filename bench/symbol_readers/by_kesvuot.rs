//! Reads all symbols and fixups of a file by the crate kesvuot. bench/symbols builds and runs it, and says what
//! it prints.
//!
//!     by_kesvuot ROUNDS REPEATS FILE

mod steps;

use std::error::Error;

use kesvuot::{Fixup, FixupTarget, Image, Profile, Symbol};
use steps::{Sums, Task};

/// The verdict, and the images of all slices that are read.
fn open_images(file: &[u8]) -> Result<Vec<Image<'_>>, Box<dyn Error>> {
    Ok(kesvuot::verify(file, Profile::Layout)?.images().collect())
}

fn add_symbol(symbol: &Symbol, length: usize, sums: &mut Sums) {
    let section = symbol.section.map_or(0, |index| index as u64 + 1);
    sums.add(symbol.value, section, length);
}

fn add_fixup(fixup: &Fixup, sums: &mut Sums) {
    let import = match fixup.target {
        FixupTarget::Rebase(_) => 0,
        FixupTarget::Bind { import, .. } => import,
    };
    sums.add(fixup.address, u64::from(fixup.segment) + 1, import as usize);
}

fn main() -> Result<(), Box<dyn Error>> {
    let task = Task::from_words()?;
    for _ in 0..task.rounds {
        let images = task.open(open_images)?;
        task.sum("rows", &images, |image, sums| {
            for symbol in image.symbols() {
                add_symbol(&symbol, 0, sums);
            }
            Ok(())
        })?;
        task.sum("names", &images, |image, sums| {
            for (symbol, name) in image.symbols().with_names() {
                add_symbol(&symbol, name.map_or(0, <[u8]>::len), sums);
            }
            Ok(())
        })?;
        task.sum("fixups", &images, |image, sums| {
            for fixup in image.fixups() {
                add_fixup(&fixup, sums);
            }
            Ok(())
        })?;
    }
    Ok(())
}
