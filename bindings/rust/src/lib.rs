//! Judges the layout of Mach-O files, and reads the parts of an accepted file.
//!
//! The verdict and all parts come from `libkesvuot`, whose calls are proved. After [`verify`] has
//! accepted a file, the bytes of each part that an [`Image`] returns lie in the bytes that you
//! passed: test no part. Nothing is copied. Numbers that docs/rules lists as not judged, and the fields
//! of commands that it does not list, are whatever the file says.
//!
//! ```
//! use kesvuot::Profile;
//!
//! # let path = concat!(env!("CARGO_MANIFEST_DIR"), "/../../tests/real/program");
//! let file = std::fs::read(path)?;
//! let verified = kesvuot::verify(&file, Profile::Layout)?;
//! for image in verified.images() {
//!     println!("{}", image.arch().unwrap_or("?"));
//!     for segment in image.segments() {
//!         println!("{} has {} bytes", segment.name.escape_ascii(), segment.bytes.len());
//!     }
//! }
//! # assert_eq!(verified.images().map(|image| image.segments().len()).sum::<usize>(), 5);
//! # Ok::<(), Box<dyn std::error::Error>>(())
//! ```
//!
//! The values of a file, a slice or an image are methods. A table of an image is a method that returns an iterator
//! over rows, and the values of a row are its fields. Methods of a row decode its bits, such as [`Symbol::kind`], and
//! methods of the image read the bytes of the file for a row, such as [`Image::name`].
//!
//! The [`Profile`] says how much is judged. Each profile accepts fewer files than the one before it, and promises
//! more of them.
//!
//! A file that is refused breaks a rule, at an offset:
//!
//! ```
//! use kesvuot::{Error, Profile, Rule};
//!
//! let error = kesvuot::verify(b"no image", Profile::Layout).unwrap_err();
//! assert_eq!(error, Error::Refused { rule: Rule::Magic, place: 0 });
//! assert_eq!(error.to_string(), "refused: magic at 0x0");
//! ```
//!
//! **The bytes must not change.** A `&[u8]` promises this, but one over a mapped file keeps the
//! promise only if nobody else can write to the file or truncate it. Read any other file into
//! memory.
//!
//! The crate is not published: depend on its folder, `kesvuot = { path = ".../bindings/rust" }`. It
//! links `libkesvuot` from the folder `KESVUOT_LIB_DIR`, or else from where pkg-config finds it. `cargo check` and
//! `cargo doc` need no library.
//!
//! Without the feature `std`, which is on by default, the crate uses only `core` and `alloc`, and its errors do not
//! implement `std::error::Error`.

#![no_std]
#![deny(unsafe_code)]
#![warn(missing_docs)]

extern crate alloc;
#[cfg(any(feature = "std", test))]
extern crate std;

pub mod constants;
mod error;
mod explain;
mod exports;
#[allow(unsafe_code)]
mod ffi;
#[cfg(feature = "std")]
mod file;
mod fixups;
mod image;
mod named_symbols;
mod parts;
mod profile;
mod rows;
mod rule;
mod signature;
mod symbol;
mod symbol_index;
mod verified;

pub use error::Error;
pub use explain::{explain, Explanation, Part, PartKind};
pub use exports::Exports;
#[cfg(feature = "std")]
pub use file::{verify_file, FileError};
pub use fixups::{Authentication, Fixup, FixupTarget, Import};
pub use image::{Dysymtab, Image, Source, Symtab};
pub use named_symbols::NamedSymbols;
pub use parts::{
    Build, Command, DataInCode, Export, ExportKind, Indirect, Library, Relocation, Section,
    Segment, Table,
};
pub use profile::{ParseProfileError, Profile};
pub use rows::{Rows, UncountedRows};
pub use rule::{ParseRuleError, Rule};
pub use signature::{Blob, CdHash, CodeDirectory};
pub use symbol::{Symbol, SymbolKind, SymbolLibrary};
pub use symbol_index::SymbolIndex;
pub use verified::{Slice, Slices, Verified, VerifiedBuf};

/// Judges a file by the rules of a [`Profile`].
///
/// # Errors
///
/// The first broken rule, or that memory ran out.
///
/// # Panics
///
/// If the library that is linked is of another major version.
pub fn verify(file: &[u8], profile: Profile) -> Result<Verified<'_>, Error> {
    Verified::new(file, ffi::verify(file, profile.number()))
}

/// The name of the load commands with this `cmd` in `<mach-o/loader.h>`, such as `LC_SEGMENT_64`. `None`
/// if the library knows none.
///
/// ```
/// assert_eq!(kesvuot::command_name(0x19), Some("LC_SEGMENT_64"));
/// assert_eq!(kesvuot::command_name(0), None);
/// ```
#[must_use]
pub fn command_name(cmd: u32) -> Option<&'static str> {
    ffi::command(cmd)
}

/// The name of the platform of a build in `<mach-o/loader.h>`, such as `PLATFORM_MACOS`. `None` if the
/// library knows none.
///
/// ```
/// assert_eq!(kesvuot::platform_name(1), Some("PLATFORM_MACOS"));
/// assert_eq!(kesvuot::platform_name(0), None);
/// ```
#[must_use]
pub fn platform_name(platform: u32) -> Option<&'static str> {
    ffi::platform(platform)
}

/// The name of an architecture, such as `arm64e`, as LLVM's `lipo` prints it. The capability byte of the
/// `cpusubtype` does not matter. `None` if the library knows none.
///
/// ```
/// assert_eq!(kesvuot::arch_name(0x0100_000c, 0x8000_0002), Some("arm64e"));
/// assert_eq!(kesvuot::arch_name(0x0100_000c, 7), None);
/// ```
#[must_use]
pub fn arch_name(cputype: u32, cpusubtype: u32) -> Option<&'static str> {
    ffi::arch(cputype, cpusubtype)
}

/// The `cputype` and the `cpusubtype` of the architecture with this name, for which [`arch_name`] has it. The
/// `cpusubtype` has no capability byte. `None` if the library knows no such architecture.
///
/// ```
/// assert_eq!(kesvuot::arch_named("arm64e"), Some((0x0100_000c, 2)));
/// assert_eq!(kesvuot::arch_named("arm"), None);
/// ```
#[must_use]
pub fn arch_named(name: impl AsRef<[u8]>) -> Option<(u32, u32)> {
    let (status, numbers) = ffi::arch_named(name.as_ref());
    (status == ffi::OK).then_some(numbers)
}

/// The version of the library that is linked: major, minor and patch.
#[must_use]
pub fn version() -> (u32, u32, u32) {
    let version = ffi::version();
    (version >> 16, version >> 8 & 0xff, version & 0xff)
}

#[cfg(test)]
mod tests {
    use std::format;

    #[test]
    fn the_library_has_the_numbers_of_the_version_of_the_crate() {
        let (major, minor, patch) = super::version();
        let numbers = env!("CARGO_PKG_VERSION").trim_end_matches("-dev");
        assert_eq!(format!("{major}.{minor}.{patch}"), numbers);
    }
}
