//! The code signature of an image, read from its bytes by the structures of `<kern/cs_blobs.h>` alone, and compared
//! with what the crate gives. All its numbers are big-endian.

use kesvuot::{Blob, CodeDirectory, Image};

const CSMAGIC_EMBEDDED_SIGNATURE: u32 = 0xfade_0cc0;
const CSMAGIC_CODEDIRECTORY: u32 = 0xfade_0c02;
/// `CS_SuperBlob` up to its index, and an entry of that.
const SUPERBLOB_SIZE: usize = 12;
const ENTRY_SIZE: usize = 8;
/// The least versions of a code directory, and the bytes of the fields that each has.
const FIELDS_SIZES: [(u32, usize); 7] = [
    (0x20000, 44),
    (0x20100, 48),
    (0x20200, 52),
    (0x20300, 64),
    (0x20400, 88),
    (0x20500, 96),
    (0x20600, 108),
];
/// The bytes of a hash by `CS_HASHTYPE_SHA1`, `.._SHA256`, `.._SHA256_TRUNCATED` and `.._SHA384`.
const HASH_SIZES: [usize; 4] = [20, 32, 20, 48];

/// The number of this many bytes at an offset.
fn number(bytes: &[u8], at: usize, size: usize) -> u64 {
    let digits = &bytes[at..at + size];
    digits
        .iter()
        .fold(0, |value, &byte| value << 8 | u64::from(byte))
}

fn word(bytes: &[u8], at: usize) -> u32 {
    number(bytes, at, 4) as u32
}

fn place(bytes: &[u8], at: usize) -> usize {
    word(bytes, at) as usize
}

/// The slots and the bytes of the blobs, up to the first that is out of place.
fn blobs_of(table: &[u8]) -> Vec<(u32, &[u8])> {
    let mut blobs = Vec::new();
    if table.len() < SUPERBLOB_SIZE || word(table, 0) != CSMAGIC_EMBEDDED_SIGNATURE {
        return blobs;
    }
    let count = place(table, 8);
    let index_end = SUPERBLOB_SIZE + ENTRY_SIZE * count;
    let superblob = match table.get(..place(table, 4)) {
        Some(superblob) if index_end <= superblob.len() => superblob,
        _ => return blobs,
    };
    let mut least = index_end;
    for entry in superblob[SUPERBLOB_SIZE..index_end].chunks_exact(ENTRY_SIZE) {
        let start = place(entry, 4);
        let end = match superblob.get(start..start + 8) {
            Some(head) => start + place(head, 4),
            None => break,
        };
        if start < least || end < start + 8 || end > superblob.len() {
            break;
        }
        blobs.push((word(entry, 0), &superblob[start..end]));
        least = end;
    }
    blobs
}

/// The string at an offset of a blob, without the zero byte that ends it. Empty if the offset is 0, or no zero byte
/// ends it.
fn string_at(blob: &[u8], offset: usize) -> &[u8] {
    let rest = match offset {
        0 => &[],
        _ => blob.get(offset..).unwrap_or(&[]),
    };
    let end = rest.iter().position(|&byte| byte == 0);
    &rest[..end.unwrap_or(0)]
}

/// The names of a code directory, its hashes and its special hashes, and its limit. `None` if the blob is not a code
/// directory.
fn directory_of(blob: &[u8]) -> Option<([&[u8]; 4], u64)> {
    if word(blob, 0) != CSMAGIC_CODEDIRECTORY || blob.len() < FIELDS_SIZES[0].1 {
        return None;
    }
    let version = word(blob, 8);
    let (_, fields_size) = FIELDS_SIZES
        .iter()
        .rev()
        .find(|(least, _)| *least <= version)?;
    if blob.len() < *fields_size || version >= 0x20100 && word(blob, 44) != 0 {
        return None;
    }
    let has = |least: u32| version >= least;
    let team = if has(0x20200) { place(blob, 48) } else { 0 };
    let long_limit = if has(0x20300) { number(blob, 56, 8) } else { 0 };
    let limit = match long_limit {
        0 => number(blob, 32, 4),
        _ => long_limit,
    };
    let (hashes, size) = (place(blob, 16), usize::from(blob[36]));
    let (specials, slots) = (size * place(blob, 24), size * place(blob, 28));
    let of_code = blob.get(hashes..hashes + slots).unwrap_or(&[]);
    let special = hashes
        .checked_sub(specials)
        .and_then(|start| blob.get(start..hashes));
    let names = [string_at(blob, place(blob, 20)), string_at(blob, team)];
    Some(([names[0], names[1], of_code, special.unwrap_or(&[])], limit))
}

/// The fields that are numbers, at their offsets.
fn compare_numbers(found: &CodeDirectory, blob: &[u8]) {
    assert_eq!(
        [
            found.version,
            found.flags,
            found.special_slots,
            found.code_slots
        ],
        [8, 12, 24, 28].map(|at| word(blob, at))
    );
    assert_eq!(
        [found.hash_size, found.hash_type, found.page_size],
        [36, 37, 39].map(|at| blob[at])
    );
}

/// A hash of a known type has the size that `HASH_SIZES` lists for the type. The types count from 1.
fn compare_hash(found: &CodeDirectory) {
    let known = usize::from(found.hash_type).checked_sub(1);
    let size = known.and_then(|type_of| HASH_SIZES.get(type_of));
    let hash = found.cdhash();
    assert_eq!(hash.as_ref().map(|hash| hash.digest().len()), size.copied());
    assert!(hash.map_or(true, |hash| hash.digest().starts_with(hash.as_bytes())));
}

fn compare_blob(found: &Blob, slot: u32, bytes: &[u8]) {
    assert_eq!(
        (found.slot, found.magic, found.bytes),
        (slot, word(bytes, 0), bytes)
    );
    let directory = found.code_directory();
    let parts = directory.map(|found| {
        assert_eq!(found.bytes, bytes);
        compare_numbers(&found, bytes);
        compare_hash(&found);
        let parts = [
            found.identifier,
            found.team,
            found.hashes,
            found.special_hashes,
        ];
        (parts, found.limit)
    });
    assert_eq!(parts, directory_of(bytes));
}

/// Compares the blobs of the data of the first `LC_CODE_SIGNATURE`.
pub fn compare(image: &Image, table: &[u8]) {
    let (found, wanted): (Vec<_>, _) = (image.blobs().collect(), blobs_of(table));
    assert_eq!(found.len(), wanted.len());
    for (blob, (slot, bytes)) in found.iter().zip(wanted) {
        compare_blob(blob, slot, bytes);
    }
}
