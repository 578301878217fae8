//! The code signature and the thread of an image that is made here.

mod support;

use kesvuot::constants::{CSSLOT_CODEDIRECTORY, CS_HASHTYPE_SHA1};
use kesvuot::{Blob, CdHash, CodeDirectory, Error, Profile, Rule};
use support::image_of;

const ENTITLEMENTS: u32 = 5;
const SIGNATURE: u32 = 0x10000;

fn big(words: &[u32]) -> Vec<u8> {
    words.iter().flat_map(|word| word.to_be_bytes()).collect()
}

fn little(words: &[u32]) -> Vec<u8> {
    words.iter().flat_map(|word| word.to_le_bytes()).collect()
}

/// A code directory of 117 bytes: its fields; an identifier at 52, and a team at 55; two special hashes at 57, and one
/// of the code at 97.
fn directory() -> Vec<u8> {
    let fields = [0xfade_0c02, 117, 0x20200, 2, 97, 52, 2, 1, 48];
    let (sizes, offsets) = ([20, CS_HASHTYPE_SHA1, 0, 12], big(&[0, 0, 55]));
    let hashes = [[1; 20], [2; 20], [3; 20]].concat();
    [
        big(&fields),
        sizes.to_vec(),
        offsets,
        b"ab\0T\0".to_vec(),
        hashes,
    ]
    .concat()
}

/// A signature of a directory, entitlements and a CMS, of 173 bytes. Its blobs are at 36, 153 and 165.
fn signature() -> Vec<u8> {
    let superblob = [0xfade_0cc0, 173, 3, CSSLOT_CODEDIRECTORY, 36];
    let index = [ENTITLEMENTS, 153, SIGNATURE, 165];
    let entitlements = [big(&[0xfade_7171, 12]), b"<a/>".to_vec()].concat();
    let cms = big(&[0xfade_0b01, 8]);
    [big(&superblob), big(&index), directory(), entitlements, cms].concat()
}

/// An executable with `LC_CODE_SIGNATURE` (0x1d), whose data this is.
fn signed(data: &[u8]) -> Vec<u8> {
    let header = [0xfeed_facf, 0x0100_0007, 3, 2, 1, 16, 0, 0];
    let command = [0x1d, 16, 48, data.len() as u32];
    [little(&header), little(&command), data.to_vec()].concat()
}

fn blobs_of(file: &[u8]) -> Vec<Blob<'_>> {
    let image = image_of(file);
    let mut blobs = image.blobs();
    let found = blobs.by_ref().collect();
    assert!(blobs.next().is_none());
    found
}

#[test]
fn each_blob_is_given() {
    let file = signed(&signature());
    let found = blobs_of(&file);
    let rows: Vec<_> = found.iter().map(|blob| (blob.slot, blob.magic)).collect();
    let wanted = [
        (CSSLOT_CODEDIRECTORY, 0xfade_0c02),
        (ENTITLEMENTS, 0xfade_7171),
        (SIGNATURE, 0xfade_0b01),
    ];
    assert_eq!(rows, wanted);
    assert_eq!(found[0].bytes, directory());
    assert_eq!(&found[1].bytes[8..], b"<a/>");
    assert_eq!(found[2].bytes, &file[48 + 165..]);
    let directories: Vec<bool> = found
        .iter()
        .map(|blob| blob.code_directory().is_some())
        .collect();
    assert_eq!(directories, [true, false, false]);
}

#[test]
fn a_directory_has_names_and_hashes() {
    let file = signed(&signature());
    let found: CodeDirectory = blobs_of(&file)[0].code_directory().unwrap();
    assert_eq!(found.bytes, directory());
    assert_eq!((found.identifier, found.team), (&b"ab"[..], &b"T"[..]));
    assert_eq!(found.hashes, [3; 20]);
    assert_eq!(found.special_hashes, [[1; 20], [2; 20]].concat());
    assert_eq!((found.limit, found.version, found.flags), (48, 0x20200, 2));
    assert_eq!((found.code_slots, found.special_slots), (1, 2));
    let sizes = (found.hash_size, found.hash_type, found.page_size);
    assert_eq!(sizes, (20, CS_HASHTYPE_SHA1, 12));
}

/// The hash of the directory, with this type of hashes.
fn cdhash(hash_type: u8) -> Option<CdHash> {
    let mut data = signature();
    data[36 + 37] = hash_type;
    let file = signed(&data);
    blobs_of(&file)[0].code_directory().unwrap().cdhash()
}

fn hex(bytes: &[u8]) -> String {
    bytes.iter().map(|byte| format!("{byte:02x}")).collect()
}

/// Python's hashlib computed the wanted hashes of the same 117 bytes, for the types 1 to 4.
#[test]
fn a_directory_has_a_hash() {
    let wanted = [
        "b1f93469f6ce044e97c9493fbd367ca46d5c4f3d",
        "60528091ecb1e55c43ef03313db9fd6c2267ee3bece777f561702d41674769d2",
        "15393a6aca03417f79a7f6e8503337ce01e22de1",
        "12edd67794d436fc650177ed2712d122930191ca562e4c1386021907851fec2b1cbc889300ee56ca02c0fcda196c5832",
    ];
    for (hash_type, wanted) in (CS_HASHTYPE_SHA1..).zip(wanted) {
        let found = cdhash(hash_type).unwrap();
        assert_eq!(hex(found.digest()), wanted);
        assert_eq!(hex(found.as_bytes()), wanted[..40]);
        assert_eq!(found.to_string(), wanted[..40]);
        assert_eq!(format!("{found:?}"), format!("CdHash({})", &wanted[..40]));
        assert_eq!(cdhash(hash_type), Some(found));
    }
    assert_eq!((cdhash(0), cdhash(5)), (None, None));
    assert_ne!(cdhash(1), cdhash(2));
}

/// The second image of the library, which is signed. Its last page begins at 0x4000, and ends where the signature
/// begins, at 0x4060.
fn signed_image(library: &[u8]) -> Vec<u8> {
    let verified = kesvuot::verify(library, Profile::Layout).unwrap();
    verified.image(1).unwrap().bytes().to_vec()
}

#[test]
fn a_changed_page_has_another_hash() {
    let [program, library] = ["program", "library"].map(|name| {
        let folder = concat!(env!("CARGO_MANIFEST_DIR"), "/../../tests/real");
        std::fs::read(std::path::Path::new(folder).join(name)).unwrap()
    });
    let image = signed_image(&library);
    assert!(kesvuot::verify(&image, Profile::Sealed).is_ok());
    // A constant in the first page, and a letter of a name in the last.
    for (changed_at, place) in [(0x2a8, 0), (0x404a, 0x4000)] {
        let mut changed = image.clone();
        changed[changed_at] ^= 2;
        assert!(kesvuot::verify(&changed, Profile::Unambiguous).is_ok());
        let rule = Rule::SignatureHash;
        let refused = kesvuot::verify(&changed, Profile::Sealed).unwrap_err();
        assert_eq!(refused, Error::Refused { rule, place });
    }
    // The slices of the library begin at no page.
    let (unsigned, unpaged) = (Rule::SignatureMissing, Rule::FatPage);
    for (file, rule, place) in [(program, unsigned, 0), (library, unpaged, 8)] {
        let refused = kesvuot::verify(&file, Profile::Sealed).unwrap_err();
        assert_eq!(refused, Error::Refused { rule, place });
    }
}

/// How many blobs there are, and how many of them are directories, where a byte of the signature has another value.
fn counts_with(at: usize, value: u8) -> (usize, usize) {
    let mut data = signature();
    data[at] = value;
    let file = signed(&data);
    let found = blobs_of(&file);
    let directories = found.iter().filter_map(Blob::code_directory);
    (found.len(), directories.count())
}

#[test]
fn what_is_out_of_place_is_left_out() {
    // The magic number of the superblob, its length, and the count of its index
    assert_eq!(counts_with(3, 0xc1), (0, 0));
    assert_eq!((counts_with(7, 172), counts_with(7, 174)), ((2, 1), (0, 0)));
    assert_eq!((counts_with(11, 2), counts_with(11, 4)), ((2, 1), (0, 0)));
    // The first blob begins in the index, and the second in the first.
    assert_eq!(
        (counts_with(19, 35), counts_with(27, 152)),
        ((0, 0), (1, 1))
    );
    // The directory has another magic number, an older version, and fewer bytes than its fields.
    assert_eq!((counts_with(39, 3), counts_with(45, 1)), ((3, 0), (3, 0)));
    assert_eq!((counts_with(43, 51), counts_with(43, 52)), ((3, 0), (3, 1)));
    // A scatter vector
    assert_eq!(counts_with(36 + 47, 1), (3, 0));
    assert!(blobs_of(&signed(b"")).is_empty());
    assert!(blobs_of(&signed(&signature()[..172])).is_empty());
}

#[test]
fn parts_that_pass_the_blob_are_empty() {
    let with_length = |length: u8| {
        let mut data = signature();
        data[43] = length;
        let file = signed(&data);
        let found = blobs_of(&file)[0].code_directory().unwrap();
        [
            found.identifier,
            found.team,
            found.hashes,
            found.special_hashes,
        ]
        .map(<[u8]>::len)
    };
    assert_eq!(with_length(117), [2, 1, 20, 40]);
    assert_eq!(with_length(116), [2, 1, 0, 40]);
    assert_eq!(with_length(96), [2, 1, 0, 0]);
    assert_eq!(with_length(56), [2, 0, 0, 0]);
    assert_eq!(with_length(54), [0, 0, 0, 0]);
}

/// An executable with a segment at 2^32, and an `LC_UNIXTHREAD` (5) of an `x86_THREAD_STATE64` (4) with this `rip`.
fn with_thread(rip: u64) -> Vec<u8> {
    let header = [0xfeed_facf, 0x0100_0007, 3, 2, 2, 72 + 184, 0, 0];
    let names = [0x19, 72, 0, 0, 0, 0];
    let segment = [0, 1, 0x1000, 0, 0, 0, 288, 0, 5, 5, 0, 0];
    let mut words = [0; 42];
    words[32] = rip as u32;
    words[33] = (rip >> 32) as u32;
    let parts = [&header[..], &names, &segment, &[5, 184, 4, 42], &words];
    little(&parts.concat())
}

#[test]
fn a_thread_begins_at_code() {
    let entry = |rip| {
        let file = with_thread(rip);
        let image = image_of(&file);
        assert_eq!(image.entry(), None);
        image.thread_entry()
    };
    let base = 1 << 32;
    for inside in [base, base + 0x20, base + 287] {
        assert_eq!(entry(inside), Some(inside));
    }
    for outside in [0, base - 1, base + 288, u64::MAX] {
        assert_eq!(entry(outside), None);
    }
}
