//! The profiles, by their numbers in `kesvuot.h`.

use core::fmt;
use core::str::FromStr;

use crate::ffi;

/// A set of rules. [`verify`](crate::verify) judges a file by the rules of a profile, after all rules of the profiles
/// before it. A file that a profile accepts is also accepted by each profile before it.
///
/// ```
/// use kesvuot::{Error, Profile, Rule};
///
/// # let path = concat!(env!("CARGO_MANIFEST_DIR"), "/../../tests/real/program");
/// let file = std::fs::read(path)?;
/// assert!(kesvuot::verify(&file, Profile::Linked).is_ok());
/// let error = kesvuot::verify(&file, Profile::Sealed).unwrap_err();
/// assert_eq!(error, Error::Refused { rule: Rule::SignatureMissing, place: 0 });
/// # Ok::<(), std::io::Error>(())
/// ```
#[derive(Clone, Copy, Debug, PartialEq, Eq, PartialOrd, Ord, Hash)]
#[non_exhaustive]
pub enum Profile {
    // registry: profiles
    /// A loader that follows the headers and checks no bounds reads only bytes of the slice. `docs/rules/layout.md`
    /// explains the rules.
    Layout = 1,
    /// Every nonzero byte is accounted for, and no byte belongs to two elements, such as the headers, a section or a
    /// table. `docs/rules/strict.md` explains the rules.
    Strict = 2,
    /// The rules judge where the linked data of an image lies; what the opcodes of `LC_DYLD_INFO` and
    /// `LC_DYLD_INFO_ONLY`, the table of `LC_DYLD_CHAINED_FIXUPS` and the chains of pointers in the pages ask a dynamic
    /// loader for; what the image exports; where functions start and data is in code; how a code signature is built;
    /// what symbols, stubs and relocations refer to; where threads and initializers begin; and what all other commands
    /// of `loader.h` hold. `docs/rules/linked.md` explains the rules.
    Linked = 3,
    /// Readers that choose slices, segments, sections, load commands and entry points in the ways that the page of the
    /// rules lists choose the same ones, and a kernel that maps whole pages shows the bytes that the headers describe.
    /// They find one meaning of a name that the image defines, one bind of a location, one library of an undefined
    /// symbol, and one identity in a signature. `docs/rules/unambiguous.md` explains the rules.
    Unambiguous = 4,
    /// Each image has a code signature; each code directory has the hashes of all bytes before the signature and of the
    /// blobs in special slots; no byte of the signature can be executed; and each nonzero byte from the signature on is
    /// in the signature's header, its index or a blob. The profile does not say who signed, and it reads nothing
    /// outside of the file. `docs/rules/sealed.md` explains the rules.
    Sealed = 5,
    // registry: end
}

impl Profile {
    /// All profiles that this crate knows.
    pub const ALL: &'static [Profile] = &[
        // registry: names of profiles
        Profile::Layout,
        Profile::Strict,
        Profile::Linked,
        Profile::Unambiguous,
        Profile::Sealed,
        // registry: end
    ];

    /// The name of the profile, such as `strict`.
    #[must_use]
    pub fn name(self) -> &'static str {
        ffi::profile(self.number()).unwrap_or_default()
    }

    /// The number of the profile in `kesvuot.h`.
    pub(crate) fn number(self) -> u32 {
        self as u32
    }

    pub(crate) fn from_number(number: u32) -> Option<Profile> {
        let mut all = Profile::ALL.iter().copied();
        all.find(|profile| profile.number() == number)
    }
}

/// The name of the profile.
impl fmt::Display for Profile {
    fn fmt(&self, f: &mut fmt::Formatter<'_>) -> fmt::Result {
        f.pad(self.name())
    }
}

/// A text is not the name of a profile. The error lists the names.
#[derive(Clone, Copy, Debug, PartialEq, Eq, Hash)]
#[non_exhaustive]
pub struct ParseProfileError;

impl fmt::Display for ParseProfileError {
    fn fmt(&self, f: &mut fmt::Formatter<'_>) -> fmt::Result {
        f.write_str("not one of the profiles")?;
        for (index, profile) in Profile::ALL.iter().enumerate() {
            let comma = if index == 0 { "" } else { "," };
            write!(f, "{comma} {profile}")?;
        }
        Ok(())
    }
}

#[cfg(feature = "std")]
impl std::error::Error for ParseProfileError {}

/// The profile with this name, such as `strict`.
impl FromStr for Profile {
    type Err = ParseProfileError;

    fn from_str(name: &str) -> Result<Self, ParseProfileError> {
        let mut all = Profile::ALL.iter().copied();
        all.find(|profile| profile.name() == name)
            .ok_or(ParseProfileError)
    }
}

#[cfg(test)]
mod tests {
    use std::string::ToString;

    use super::*;

    #[test]
    fn each_name_is_read_as_its_profile() {
        let names = ["layout", "strict", "linked", "unambiguous", "sealed"];
        assert_eq!(names.len(), Profile::ALL.len());
        for (name, &profile) in names.iter().zip(Profile::ALL) {
            assert_eq!(
                (profile.name(), profile.to_string().as_str()),
                (*name, *name)
            );
            assert_eq!(name.parse(), Ok(profile));
        }
        for name in ["", "Layout", "strict ", "strictly", "unknown"] {
            assert_eq!(name.parse::<Profile>(), Err(ParseProfileError), "{name}");
        }
    }

    #[test]
    fn the_error_lists_the_names() {
        let error = "strictly".parse::<Profile>().unwrap_err();
        assert_eq!(
            error.to_string(),
            "not one of the profiles layout, strict, linked, unambiguous, sealed"
        );
    }

    #[test]
    fn each_profile_is_above_the_one_before() {
        assert!(Profile::ALL.windows(2).all(|two| two[0] < two[1]));
        for &profile in Profile::ALL {
            assert_eq!(Profile::from_number(profile.number()), Some(profile));
        }
        for number in [0, Profile::ALL.len() as u32 + 1, u32::MAX] {
            assert_eq!(
                (Profile::from_number(number), ffi::profile(number)),
                (None, None)
            );
        }
    }
}
