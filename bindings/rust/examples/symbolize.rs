//! Prints the symbol and the section at each address. The image is the first one in FILE that is
//! read.
//!
//!     symbolize FILE ADDRESS..
//!
//! An address has up to 16 hexadecimal digits, with or without 0x. Its line is
//!
//!     0xADDRESS SYMBOL + 0xOFFSET (SEGMENT,SECTION)
//!
//! with the nearest symbol at or before ADDRESS; if several have its address, the last in the table.
//! It is `0xADDRESS ? (SEGMENT,SECTION)` if there is none, or it is of another section, and
//! `0xADDRESS ?` if no section has the address.
//!
//!     cd bindings/rust
//!     KESVUOT_LIB_DIR=../../build/lib cargo run --example symbolize FILE ADDRESS..
//!
//! The file may be from a stranger. The library judges it once. After that no offset, count or
//! index of the file is tested: a comment says which rule of docs/rules makes this safe.

use std::error::Error;
use std::ffi::OsString;
use std::io::{self, Write};
use std::path::Path;
use std::process::ExitCode;
use std::{env, fmt, fs};

use kesvuot::{Image, Profile, Section, Segment, Symbol, SymbolIndex};

/// The tables of an image.
struct Tables<'a> {
    image: Image<'a>,
    segments: Vec<Segment<'a>>,
    sections: Vec<Section<'a>>,
    symbols: SymbolIndex<'a>,
}

impl<'a> Tables<'a> {
    fn of(image: Image<'a>) -> Self {
        Tables {
            image,
            segments: image.segments().collect(),
            sections: image.sections().collect(),
            symbols: image.symbol_index(),
        }
    }

    /// The index of the section of an address. segment-overlap: at most one segment has the
    /// address. section-address: no section of another segment has it.
    fn section_at(&self, address: u64) -> Option<usize> {
        let has_address = |segment: &&Segment| is_in(address, segment.vmaddr, segment.vmsize);
        let segment = self.segments.iter().find(has_address)?;
        // command-short: a segment has all its nsects sections.
        segment.section_range().find(|&index| {
            let section = &self.sections[index];
            is_in(address, section.addr, section.size)
        })
    }

    /// The nearest symbol at or before an address, if it is of this section.
    fn symbol_at(&self, section: usize, address: u64) -> Option<Symbol> {
        let symbol = self.symbols.symbol_at(address)?;
        (symbol.section == Some(section)).then_some(symbol)
    }

    fn write_line(&self, out: &mut impl Write, address: u64) -> io::Result<()> {
        let section = self.section_at(address);
        write!(out, "{address:#x} ")?;
        match section.and_then(|index| self.symbol_at(index, address)) {
            // symbol-name: the whole name is in the string table. Many symbols can share a long name, so
            // only those of the addresses are looked up.
            Some(symbol) => {
                let name = Name(self.image.name(&symbol).unwrap_or_default());
                write!(out, "{name} + {:#x}", address - symbol.value)?;
            }
            None => write!(out, "?")?,
        }
        if let Some(index) = section {
            let section = &self.sections[index];
            write!(out, " ({},{})", Name(section.segment), Name(section.name))?;
        }
        writeln!(out)
    }
}

/// Whether an address is one of a range. segment-address and section-address: no range passes 2^64.
fn is_in(address: u64, start: u64, size: u64) -> bool {
    start <= address && address - start < size
}

/// A name. Any byte that is not printable ASCII is written as a number.
struct Name<'a>(&'a [u8]);

impl fmt::Display for Name<'_> {
    fn fmt(&self, f: &mut fmt::Formatter<'_>) -> fmt::Result {
        for &byte in self.0 {
            match byte {
                b'\\' => f.write_str("\\x5c")?,
                b' '..=b'~' => write!(f, "{}", char::from(byte))?,
                _ => write!(f, "\\x{byte:02x}")?,
            }
        }
        Ok(())
    }
}

/// Reads an address. `from_str_radix` alone would also accept a sign.
fn read_address(word: &OsString) -> Result<u64, String> {
    let word = word.to_string_lossy();
    let digits = word.strip_prefix("0x").unwrap_or(&word);
    match u64::from_str_radix(digits, 16) {
        Ok(address) if !digits.starts_with('+') => Ok(address),
        _ => Err(format!("{word}: not an address")),
    }
}

fn print_lines(path: &Path, addresses: &[u64]) -> Result<(), Box<dyn Error>> {
    let file = fs::read(path)?;
    let verified = kesvuot::verify(&file, Profile::Layout)?;
    // fat-empty: some slice is read.
    let image = verified.images().next().ok_or("no slice is read")?;
    let tables = Tables::of(image);
    let mut out = io::BufWriter::new(io::stdout().lock());
    for &address in addresses {
        tables.write_line(&mut out, address)?;
    }
    Ok(out.flush()?)
}

/// Says why nothing is printed.
fn fail(status: u8, why: &str) -> ExitCode {
    eprintln!("{why}");
    ExitCode::from(status)
}

fn main() -> ExitCode {
    let words: Vec<OsString> = env::args_os().skip(1).collect();
    let (path, words) = match words.split_first() {
        Some((path, words)) if !words.is_empty() => (Path::new(path), words),
        _ => return fail(2, "usage: symbolize FILE ADDRESS.."),
    };
    let addresses: Vec<u64> = match words.iter().map(read_address).collect() {
        Ok(addresses) => addresses,
        Err(why) => return fail(2, &why),
    };
    match print_lines(path, &addresses) {
        Ok(()) => ExitCode::SUCCESS,
        Err(error) => {
            let is_refused = matches!(error.downcast_ref(), Some(kesvuot::Error::Refused { .. }));
            fail(
                if is_refused { 1 } else { 2 },
                &format!("{}: {error}", path.display()),
            )
        }
    }
}
