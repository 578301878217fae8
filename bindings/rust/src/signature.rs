//! The blobs of a code signature, and the code directories among them.

use core::fmt;

use crate::constants::CS_CDHASH_LEN;
use crate::parts::Text;
use crate::rows::Row;
use crate::{ffi, Image};

/// A blob of a code signature. (`CS_BlobIndex` and `CS_GenericBlob` of `<kern/cs_blobs.h>`)
#[derive(Clone, Copy, PartialEq, Eq)]
#[non_exhaustive]
pub struct Blob<'a> {
    /// The whole blob, with its magic and its length. What it holds begins after these 8 bytes.
    pub bytes: &'a [u8],
    /// `type` of its entry: a `CSSLOT` constant, such as `CSSLOT_CODEDIRECTORY`, or any other number.
    pub slot: u32,
    /// A `CSMAGIC` constant, such as `CSMAGIC_CODEDIRECTORY` (0xfade0c02), or any other number.
    pub magic: u32,
}

impl fmt::Debug for Blob<'_> {
    fn fmt(&self, f: &mut fmt::Formatter<'_>) -> fmt::Result {
        f.debug_struct("Blob")
            .field("slot", &self.slot)
            .field("magic", &self.magic)
            .field("len", &self.bytes.len())
            .finish_non_exhaustive()
    }
}

impl<'a> Row<'a> for Blob<'a> {
    type Raw = ffi::Blob;

    fn new(raw: ffi::Blob, image: &Image<'a>) -> Self {
        Blob {
            bytes: image.part(raw.bytes),
            slot: raw.slot,
            magic: raw.magic,
        }
    }
}

impl<'a> Blob<'a> {
    /// What the blob says, if it is a code directory. Its slot does not matter. `None` if it has another
    /// magic, a version below 0x20000, fewer bytes than the fields of its version, or a scatter vector.
    ///
    /// In a file that [`Profile::Linked`](crate::Profile::Linked) accepts, each blob in a slot of code
    /// directories (0, 0x1000 to 0x1004) is a code directory.
    #[must_use]
    pub fn code_directory(&self) -> Option<CodeDirectory<'a>> {
        let (status, raw) = ffi::read_code_directory(self.bytes);
        (status == ffi::OK).then(|| CodeDirectory::new(&raw, self.bytes))
    }
}

/// A code directory: what was signed, and the hashes of its pages. (`CS_CodeDirectory` of `<kern/cs_blobs.h>`)
///
/// In a file that [`Profile::Linked`](crate::Profile::Linked) accepts, the names and the hashes lie in the blob, the
/// type of the hashes is known, and `limit` is where the signature begins in the image. So there is a hash for each
/// page before that. That the pages have these hashes is what [`Profile::Sealed`](crate::Profile::Sealed) judges.
#[derive(Clone, Copy, PartialEq, Eq)]
#[non_exhaustive]
pub struct CodeDirectory<'a> {
    /// The whole blob, with its magic and its length.
    pub bytes: &'a [u8],
    /// The name of what was signed, without the zero byte that ends it. Empty if its offset is 0, or no zero byte ends
    /// it.
    pub identifier: &'a [u8],
    /// The team that signed it, in the same form. Only versions from 0x20200 on have a team.
    pub team: &'a [u8],
    /// The hashes of the code, one for each page, each of `hash_size` bytes. Empty if they do not all lie in the blob.
    pub hashes: &'a [u8],
    /// The special hashes, each of `hash_size` bytes. The hash of special slot 1 is the last. Empty if they do not all
    /// lie in the blob.
    pub special_hashes: &'a [u8],
    /// How many bytes of the image are hashed, from its start on: `codeLimit64`, or `codeLimit` if that is 0 or
    /// not there.
    pub limit: u64,
    /// 0x20000 or more.
    pub version: u32,
    /// `CS_ADHOC` (2) and others.
    pub flags: u32,
    /// How many hashes of the code there are.
    pub code_slots: u32,
    /// How many special hashes there are.
    pub special_slots: u32,
    /// The size of a hash in bytes. Any number.
    pub hash_size: u8,
    /// A `CS_HASHTYPE` constant, such as `CS_HASHTYPE_SHA256`, or any other number.
    pub hash_type: u8,
    /// The log2 of the size of a page in bytes. 0: one page has all bytes.
    pub page_size: u8,
}

impl fmt::Debug for CodeDirectory<'_> {
    fn fmt(&self, f: &mut fmt::Formatter<'_>) -> fmt::Result {
        f.debug_struct("CodeDirectory")
            .field("identifier", &Text(self.identifier))
            .field("team", &Text(self.team))
            .field("limit", &self.limit)
            .field("version", &self.version)
            .field("flags", &self.flags)
            .field("code_slots", &self.code_slots)
            .field("special_slots", &self.special_slots)
            .field("hash_type", &self.hash_type)
            .finish_non_exhaustive()
    }
}

impl<'a> CodeDirectory<'a> {
    /// Takes what the library has written about a blob.
    fn new(raw: &ffi::CodeDirectory, blob: &'a [u8]) -> Self {
        let part = |span: ffi::Span| &blob[span.offset as usize..][..span.size as usize];
        // The structure of the library has wider numbers for fields of one byte.
        CodeDirectory {
            bytes: blob,
            identifier: part(raw.identifier),
            team: part(raw.team),
            hashes: part(raw.hashes),
            special_hashes: part(raw.special_hashes),
            limit: raw.limit,
            version: raw.version,
            flags: raw.flags,
            code_slots: raw.code_slots,
            special_slots: raw.special_slots,
            hash_size: raw.hash_size as u8,
            hash_type: raw.hash_type as u8,
            page_size: raw.page_size as u8,
        }
    }

    /// The hash of the whole blob, by the directory's own type of hashes. `None` if the type is not known, which
    /// it is in a file that [`Profile::Linked`](crate::Profile::Linked) accepts. It takes time in proportion to the
    /// blob.
    #[must_use]
    pub fn cdhash(&self) -> Option<CdHash> {
        let (status, raw) = ffi::read_cdhash(self.bytes);
        (status == ffi::OK).then_some(CdHash {
            digest: raw.digest.0,
            size: raw.size as usize,
        })
    }
}

/// The hash of a code directory, by which systems know what was signed. It names the bytes of the directory alone:
/// that the pages have the hashes in it is what [`Profile::Sealed`](crate::Profile::Sealed) judges.
///
/// It displays as `codesign` prints it: the 20 bytes of [`as_bytes`](CdHash::as_bytes), in hexadecimal.
#[derive(Clone, Copy, PartialEq, Eq, Hash)]
pub struct CdHash {
    /// The bytes past the size are 0.
    digest: [u8; 48],
    size: usize,
}

impl CdHash {
    /// What `codesign` prints and servers look up: the first 20 bytes of the digest. (`CS_CDHASH_LEN`)
    #[must_use]
    pub fn as_bytes(&self) -> &[u8; CS_CDHASH_LEN as usize] {
        let first = &self.digest[..CS_CDHASH_LEN as usize];
        first.try_into().expect("a digest has more bytes")
    }

    /// All bytes of the hash: 20 of SHA-1 and of SHA-256 that is cut, 32 of SHA-256, and 48 of SHA-384.
    #[must_use]
    pub fn digest(&self) -> &[u8] {
        &self.digest[..self.size]
    }
}

impl fmt::Display for CdHash {
    fn fmt(&self, f: &mut fmt::Formatter<'_>) -> fmt::Result {
        self.as_bytes()
            .iter()
            .try_for_each(|byte| write!(f, "{byte:02x}"))
    }
}

impl fmt::Debug for CdHash {
    fn fmt(&self, f: &mut fmt::Formatter<'_>) -> fmt::Result {
        write!(f, "CdHash({self})")
    }
}
