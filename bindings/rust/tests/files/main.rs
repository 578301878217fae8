//! Whole files: the verdict, the layout, and each part of each image.
//!
//! The files of `tests/real` are always read. `tests/rust` makes others, of the vectors and reports
//! of the repository, and runs the tests that are ignored otherwise. `KESVUOT_TRIALS` is their
//! folder. In it are lists of files, a line each: what is wanted, a tab, and the path.

mod plain;
mod signature;
mod threads;

use std::path::Path;
use std::{env, fs, thread};

use kesvuot::{Error, PartKind, Profile, Rule, VerifiedBuf};

/// What is wanted of each file of a list, and the file.
fn trials(list: &str) -> Vec<(String, String)> {
    let folder = env::var("KESVUOT_TRIALS").expect("KESVUOT_TRIALS is a folder");
    let list = fs::read_to_string(Path::new(&folder).join(list)).unwrap();
    let lines = list.lines().map(|line| line.split_once('\t').unwrap());
    lines
        .map(|(wanted, path)| (wanted.to_owned(), path.to_owned()))
        .collect()
}

/// Names the file that a test is at when it fails.
struct At<'a>(&'a str);

impl Drop for At<'_> {
    fn drop(&mut self) {
        if thread::panicking() {
            eprintln!("this is {}", self.0);
        }
    }
}

/// Compares the verdicts by a profile on the files of its list, and all that is read of the accepted files.
fn judge_all(profile: Profile) {
    let trials = trials(&format!("{profile}-vectors"));
    let mut accepted = 0;
    for (wanted, path) in &trials {
        let _at = At(path);
        let file = fs::read(path).unwrap();
        match kesvuot::verify(&file, profile) {
            Ok(verified) => {
                assert_eq!(wanted, "accepted");
                verified.images().for_each(|image| plain::compare(&image));
                accepted += 1;
            }
            Err(error) => {
                assert_eq!(wanted, &error.to_string());
                explain(&file, error, profile);
            }
        }
    }
    assert!(0 < accepted && accepted < trials.len());
}

/// A refusal by a profile is explained, by a structure that has the place and lies in the file. The rule belongs to
/// the profile, or to one before it.
fn explain(file: &[u8], error: Error, profile: Profile) {
    if let Error::Refused { rule, place } = error {
        assert!(rule.profile().unwrap() <= profile);
        let at = kesvuot::explain(file, rule, place).unwrap().at.unwrap();
        assert!((at.start..=at.start + at.size).contains(&place));
        assert!(at.start + at.size <= file.len() as u64);
    }
}

#[test]
fn explanations() {
    let file = fs::read(path_of_real("library")).unwrap();
    let cut = &file[..file.len() - 1];
    let found = kesvuot::explain(cut, Rule::FatSliceOutside, 28).unwrap();
    // The second slice, as in `slices` below. Its entry is a `fat_arch` of 20 bytes.
    let (at, first, second) = (
        found.at.unwrap(),
        found.first.unwrap(),
        found.second.unwrap(),
    );
    assert_eq!(
        (at.kind, at.index, at.start, at.size, at.described),
        (PartKind::FatArch, Some(1), 28, 20, 28)
    );
    assert_eq!(
        (first.kind, first.index, first.start, first.size),
        (PartKind::Slice, Some(1), 4240, 16768)
    );
    assert_eq!(
        (second.kind, second.index, second.size),
        (PartKind::File, None, cut.len() as u64)
    );
    assert_eq!((found.value, found.limit), (4240 + 16768, cut.len() as u64));
    assert_eq!(
        (found.slice, found.command, found.section, found.symbol),
        (Some(1), None, None, None)
    );
    assert_eq!(kesvuot::explain(cut, Rule::FatSliceOutside, 27), None);
    assert_eq!(kesvuot::explain(cut, Rule::Unknown(0), 0), None);
}

/// Compares the layout of a file with the one in another file.
fn compare_layout(path: &str, wanted: &str) {
    let _at = At(path);
    let file = fs::read(path).unwrap();
    let verified = kesvuot::verify(&file, Profile::Layout).unwrap();
    let layout = verified.layout().unwrap();
    assert_eq!(layout, fs::read_to_string(wanted).unwrap());
    verified.images().for_each(|image| plain::compare(&image));
}

fn path_of_real(name: &str) -> String {
    format!("{}/../../tests/real/{name}", env!("CARGO_MANIFEST_DIR"))
}

#[test]
fn real_files() {
    for name in ["program", "library"] {
        let path = path_of_real(name);
        compare_layout(&path, &format!("{path}.layout"));
    }
}

/// An image of `LC_SEGMENT_64` with a section, `LC_SYMTAB` and `LC_DYSYMTAB`. Fields of the same
/// structure have different numbers, as far as a rule allows.
#[rustfmt::skip]
const WORDS: [u32; 72] = [
    0xfeed_facf, 0x0100_000c, 0x8000_0002, 2, 3, 256, 0x85, 4,
    0x19, 152, 0x61, 0, 0, 0, 0x1000, 1, 0x130, 0, 0, 0, 288, 0, 7, 5, 1, 6,
    0x62, 0, 0, 0, 0x63, 0, 0, 0, 0x1020, 1, 0x21, 0, 0x20, 3, 0x30, 2, 0x8000_0400, 4, 5, 6,
    0x2, 24, 1001, 0, 1002, 0,
    0xb, 80, 11, 0, 12, 0, 13, 0, 14, 0, 15, 0, 16, 0, 17, 0, 18, 0, 19, 0,
];

#[test]
fn different_fields() {
    let file: Vec<u8> = WORDS.iter().flat_map(|word| word.to_le_bytes()).collect();
    let verified = kesvuot::verify(&file, Profile::Layout).unwrap();
    plain::compare(&verified.image(0).unwrap());
}

#[test]
fn slices() {
    let file = fs::read(path_of_real("library")).unwrap();
    let verified = kesvuot::verify(&file, Profile::Layout).unwrap();
    assert_eq!((verified.bytes(), verified.slices().len()), (&file[..], 2));
    let mut slices = verified.slices();
    let second = slices.nth(1).unwrap();
    assert!(slices.next().is_none());
    // As `llvm-objdump --macho --universal-headers` prints them.
    assert_eq!((second.place(), second.bytes().len()), (4240, 16768));
    assert_eq!(second.bytes(), &file[4240..4240 + 16768]);
    assert!(verified.slice(2).is_none() && verified.image(2).is_none());
    let [first, second] = [0, 1].map(|index| verified.image(index).unwrap());
    assert_eq!(first.place_of(second.bytes()), None);
    assert_eq!(first.place_of(&file), None);
    assert_eq!(first.place_of(&first.bytes()[1..1]), None);
    let (start, end) = (0x30, 0x30 + 4184);
    assert_eq!(first.place_of(&file[start..end]), Some(0x30));
    assert_eq!(first.place_of(&file[start..=end]), None);
    assert_eq!(first.place_of(&file[start - 1..end]), None);
    assert_eq!(second.place_of(&second.bytes()[1..2]), Some(4241));
}

#[test]
fn a_file_that_owns_its_bytes() {
    let bytes = fs::read(path_of_real("library")).unwrap();
    let file = VerifiedBuf::verify(bytes.clone(), Profile::Layout).unwrap();
    assert_eq!(file.as_verified().bytes(), bytes);
    assert_eq!(file.as_verified().slice_count(), 2);
    file.as_verified()
        .images()
        .for_each(|image| plain::compare(&image));
    // What was read of the file lives as long as it does, and moves with it.
    let moved = Box::new(file);
    let image = moved.as_verified().image(1).unwrap();
    assert_eq!(image.place_of(image.bytes()), Some(4240));
    let copy = VerifiedBuf::from(kesvuot::verify(&bytes, Profile::Layout).unwrap());
    assert_eq!(
        format!("{copy:?}"),
        "VerifiedBuf { size: 21008, slice_count: 2 }"
    );
    assert_eq!(moved.into_bytes(), copy.into_bytes());
}

/// The profile of the rule is the first that refuses these bytes, and the profiles after it refuse them alike.
fn refuse(bytes: &[u8], rule: Rule, place: u64) {
    for &profile in Profile::ALL {
        let answer = VerifiedBuf::verify(bytes, profile);
        if Some(profile) < rule.profile() {
            assert!(answer.is_ok());
        } else {
            assert_eq!(answer.unwrap_err(), Error::Refused { rule, place });
        }
    }
}

#[test]
fn a_file_for_each_profile() {
    let [program, library] =
        ["program", "library"].map(|name| fs::read(path_of_real(name)).unwrap());
    refuse(&program[..12000], Rule::SegmentFile, 0x198);
    refuse(&[&library[..], b"more"].concat(), Rule::FatStrayByte, 21008);
    // No opcode of the bind stream, which begins at 0x3008, is 0xd0.
    let mut changed = program.clone();
    changed[0x3008] = 0xd0;
    refuse(&changed, Rule::BindOpcode, 0x3008);
    refuse(&program, Rule::SignatureMissing, 0);
}

#[test]
fn what_debug_shows() {
    let file = fs::read(path_of_real("program")).unwrap();
    let verified = kesvuot::verify(&file, Profile::Layout).unwrap();
    let image = verified.image(0).unwrap();
    // A part shows how long its bytes are, and not what they are.
    let shown = [
        format!("{verified:?}"),
        format!("{:?}", image.segments().nth(1).unwrap()),
        format!("{:?}", image.at(0x1_0000_0440).unwrap()),
        format!("{:?}", image.symbols()),
    ];
    let wanted = [
        "Verified { size: 12528, slice_count: 1 }",
        "Segment { name: \"__TEXT\", vmaddr: 4294967296, vmsize: 4096, fileoff: 0, filesize: 4096, .. }",
        "Bytes(3008 bytes)",
        "Rows { len: 5 }",
    ];
    assert_eq!(shown, wanted);
}

#[test]
#[ignore = "it needs KESVUOT_TRIALS"]
fn vectors() {
    for &profile in Profile::ALL {
        judge_all(profile);
    }
}

#[test]
#[ignore = "it needs KESVUOT_TRIALS"]
fn reports() {
    let trials = trials("reports");
    assert!(!trials.is_empty());
    for (layout, path) in &trials {
        compare_layout(path, layout);
    }
}
