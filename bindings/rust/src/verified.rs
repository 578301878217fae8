//! Files that were accepted, and their slices.

use alloc::borrow::ToOwned;
use alloc::string::String;
use alloc::vec::Vec;
use core::fmt;
use core::iter::FusedIterator;
use core::ops::Range;

use crate::{ffi, Error, Image, Profile, Rule};

/// A file that was accepted. Only [`verify`](crate::verify) makes one.
#[derive(Clone, Copy)]
pub struct Verified<'a> {
    bytes: &'a [u8],
    slice_count: u64,
}

impl<'a> Verified<'a> {
    pub(crate) fn new(
        bytes: &'a [u8],
        (status, verdict): (u32, ffi::Verdict),
    ) -> Result<Self, Error> {
        match status {
            ffi::OK => Ok(Verified {
                bytes,
                slice_count: verdict.slices,
            }),
            ffi::REFUSED => Err(Error::Refused {
                rule: Rule::from_number(verdict.rule),
                place: verdict.place,
            }),
            ffi::UNKNOWN_PROFILE => unreachable!("the library has all profiles of this crate"),
            _ => Err(Error::NoMemory),
        }
    }

    /// The bytes of the file.
    #[must_use]
    pub fn bytes(&self) -> &'a [u8] {
        self.bytes
    }

    /// The layout of the file as text, as `macho-check` prints it: a line for each slice, with those
    /// of its parts. Each call judges the file again.
    ///
    /// # Errors
    ///
    /// That memory ran out.
    pub fn layout(&self) -> Result<String, Error> {
        let (status, text) = ffi::layout(self.bytes);
        match status {
            ffi::OK => Ok(text.into_iter().map(char::from).collect()),
            ffi::REFUSED => unreachable!("the bytes of an accepted file do not change"),
            _ => Err(Error::NoMemory),
        }
    }

    /// How many slices the file has: 1 if it is not universal.
    #[must_use]
    pub fn slice_count(&self) -> u64 {
        self.slice_count
    }

    /// The slice with this index, from 0 on, in the order of the universal table. `None` past the
    /// last one. The time does not depend on the number of slices.
    #[must_use]
    pub fn slice(&self, index: u64) -> Option<Slice<'a>> {
        let (status, raw) = ffi::image(self.bytes, index);
        let is_read = status == ffi::OK;
        (is_read || status == ffi::UNREAD).then(|| Slice {
            image: Image::new(self.bytes, raw),
            is_read,
        })
    }

    /// All slices.
    #[must_use]
    pub fn slices(&self) -> Slices<'a> {
        Slices {
            file: *self,
            left: 0..self.slice_count,
        }
    }

    /// The slices without an image, in which nothing was judged. All of them have an image if the count is 0.
    ///
    /// ```
    /// # let path = concat!(env!("CARGO_MANIFEST_DIR"), "/../../tests/real/library");
    /// # let file = std::fs::read(path)?;
    /// # let verified = kesvuot::verify(&file, kesvuot::Profile::Layout)?;
    /// let unread: Vec<_> = verified.unread_slices().map(|slice| slice.arch()).collect();
    /// assert_eq!(unread, []);
    /// # Ok::<(), Box<dyn std::error::Error>>(())
    /// ```
    pub fn unread_slices(&self) -> impl Iterator<Item = Slice<'a>> {
        self.slices().filter(|slice| slice.image().is_none())
    }

    /// The image of the slice with this index. `None` past the last one, and if the slice is not
    /// read.
    #[must_use]
    pub fn image(&self, index: u64) -> Option<Image<'a>> {
        self.slice(index)?.image()
    }

    /// The images of all slices that are read. There is at least one.
    pub fn images(&self) -> impl Iterator<Item = Image<'a>> {
        self.slices().filter_map(|slice| slice.image())
    }
}

impl fmt::Debug for Verified<'_> {
    fn fmt(&self, f: &mut fmt::Formatter<'_>) -> fmt::Result {
        f.debug_struct("Verified")
            .field("size", &self.bytes.len())
            .field("slice_count", &self.slice_count)
            .finish()
    }
}

/// An accepted file that owns its bytes. [`Verified`] borrows them.
///
/// ```
/// use kesvuot::{Profile, VerifiedBuf};
///
/// fn load(path: &str) -> Result<VerifiedBuf, Box<dyn std::error::Error>> {
///     Ok(VerifiedBuf::verify(std::fs::read(path)?, Profile::Layout)?)
/// }
/// # let path = concat!(env!("CARGO_MANIFEST_DIR"), "/../../tests/real/program");
/// let file = load(path)?;
/// for image in file.as_verified().images() {
///     println!("{image:?}");
/// }
/// # assert_eq!(file.as_verified().images().count(), 1);
/// # Ok::<(), Box<dyn std::error::Error>>(())
/// ```
#[derive(Clone)]
pub struct VerifiedBuf {
    bytes: Vec<u8>,
    slice_count: u64,
}

impl VerifiedBuf {
    /// Judges a file as [`verify`](crate::verify) does, and keeps its bytes.
    ///
    /// # Errors
    ///
    /// The first broken rule, or that memory ran out. The bytes are dropped: to keep them, judge them
    /// first, and then use [`From`].
    ///
    /// # Panics
    ///
    /// If the library that is linked is of another major version.
    pub fn verify(bytes: impl Into<Vec<u8>>, profile: Profile) -> Result<Self, Error> {
        let bytes = bytes.into();
        let slice_count = crate::verify(&bytes, profile)?.slice_count;
        Ok(VerifiedBuf { bytes, slice_count })
    }

    /// The file, with its slices and images.
    #[must_use]
    pub fn as_verified(&self) -> Verified<'_> {
        Verified {
            bytes: &self.bytes,
            slice_count: self.slice_count,
        }
    }

    /// The bytes of the file.
    #[must_use]
    pub fn into_bytes(self) -> Vec<u8> {
        self.bytes
    }
}

/// A copy of the bytes. They are not judged again.
impl From<Verified<'_>> for VerifiedBuf {
    fn from(file: Verified<'_>) -> Self {
        VerifiedBuf {
            bytes: file.bytes.to_owned(),
            slice_count: file.slice_count,
        }
    }
}

impl fmt::Debug for VerifiedBuf {
    fn fmt(&self, f: &mut fmt::Formatter<'_>) -> fmt::Result {
        f.debug_struct("VerifiedBuf")
            .field("size", &self.bytes.len())
            .field("slice_count", &self.slice_count)
            .finish()
    }
}

/// A slice of an accepted file.
#[derive(Clone, Copy)]
pub struct Slice<'a> {
    /// For a slice that is not read, only its bytes and its architecture are known.
    image: Image<'a>,
    is_read: bool,
}

impl<'a> Slice<'a> {
    /// The bytes of the slice.
    #[must_use]
    pub fn bytes(&self) -> &'a [u8] {
        self.image.bytes()
    }

    /// Where the slice begins in the file: 0 exactly if the file is not universal.
    #[must_use]
    pub fn place(&self) -> u64 {
        self.image.place()
    }

    /// `cputype` of the image, or of the universal table if the slice is not read.
    #[must_use]
    pub fn cputype(&self) -> u32 {
        self.image.cputype()
    }

    /// `cpusubtype` of the image or the table, either without the capability byte (`CPU_SUBTYPE_MASK`).
    #[must_use]
    pub fn cpusubtype(&self) -> u32 {
        self.image.cpusubtype()
    }

    /// The name of the architecture, as [`Image::arch`] has it.
    #[must_use]
    pub fn arch(&self) -> Option<&'static str> {
        self.image.arch()
    }

    /// The image of the slice. `None` if the slice is of 32 bits or big-endian: what is in it was
    /// not judged.
    #[must_use]
    pub fn image(&self) -> Option<Image<'a>> {
        self.is_read.then_some(self.image)
    }
}

impl fmt::Debug for Slice<'_> {
    fn fmt(&self, f: &mut fmt::Formatter<'_>) -> fmt::Result {
        f.debug_struct("Slice")
            .field("place", &self.place())
            .field("size", &self.bytes().len())
            .field("cputype", &self.cputype())
            .field("cpusubtype", &self.cpusubtype())
            .field("is_read", &self.is_read)
            .finish()
    }
}

/// The slices of an accepted file, in the order of the universal table.
#[derive(Clone, Debug)]
pub struct Slices<'a> {
    file: Verified<'a>,
    left: Range<u64>,
}

impl<'a> Iterator for Slices<'a> {
    type Item = Slice<'a>;

    fn next(&mut self) -> Option<Slice<'a>> {
        self.file.slice(self.left.next()?)
    }

    fn size_hint(&self) -> (usize, Option<usize>) {
        self.left.size_hint()
    }

    fn nth(&mut self, n: usize) -> Option<Slice<'a>> {
        self.file.slice(self.left.nth(n)?)
    }
}

impl ExactSizeIterator for Slices<'_> {}

impl FusedIterator for Slices<'_> {}
