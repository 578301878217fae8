//! The rules, by their numbers in `kesvuot.h`.

use core::fmt;
use core::str::{self, FromStr};

use crate::{ffi, Profile};

macro_rules! rules {
    ($($(#[$doc:meta])* $name:ident = $number:literal,)*) => {
        /// A rule of a [`Profile`]. The variants are in the order of judgment, profile after profile.
        ///
        /// The pages of `docs/rules` say when each is violated, what usually violates it, and what
        /// to do.
        #[derive(Clone, Copy, Debug, PartialEq, Eq, PartialOrd, Ord, Hash)]
        #[non_exhaustive]
        pub enum Rule {
            $($(#[$doc])* $name,)*
            /// A rule of a newer library, by its number in `kesvuot.h`.
            Unknown(u32),
        }

        impl Rule {
            /// The rules that this crate knows.
            pub const ALL: &'static [Rule] = &[$(Rule::$name),*];

            /// The number of the rule in `kesvuot.h`.
            #[must_use]
            pub fn number(self) -> u32 {
                match self {
                    $(Rule::$name => $number,)*
                    Rule::Unknown(number) => number,
                }
            }

            pub(crate) fn from_number(number: u32) -> Rule {
                match number {
                    $($number => Rule::$name,)*
                    _ => Rule::Unknown(number),
                }
            }
        }
    };
}

rules! {
    // registry: rules
    /// The file begins with the magic number of no format that is read.
    Magic = 1,
    /// The header or the table of a universal file ends past the end of the file.
    FatTruncated = 2,
    /// A slice ends past the end of the file.
    FatSliceOutside = 3,
    /// A slice begins before the end of the table that names it.
    FatSliceInTable = 4,
    /// The offset of a slice is not a multiple of its alignment.
    FatAlign = 5,
    /// A slice has a byte in common with an earlier one.
    FatOverlap = 6,
    /// A slice has the architecture of an earlier one.
    FatDuplicate = 7,
    /// A slice begins with the magic number of no image.
    FatSliceMagic = 8,
    /// A universal file has no 64-bit little-endian slice.
    FatEmpty = 9,
    /// The bytes of an image end within its header.
    HeaderTruncated = 10,
    /// The header of a slice names another architecture than the table.
    ArchMismatch = 11,
    /// The image is of a kind that is not read.
    FileType = 12,
    /// The load commands end past the end of the image.
    CommandsOutside = 13,
    /// A load command is missing or cut, or its size is impossible.
    CommandWalk = 14,
    /// A load command is too small for its own fields.
    CommandShort = 15,
    /// A kind of load command that an image may have only once is repeated.
    CommandRepeated = 16,
    /// A library has no name of its own, or an executable or a bundle has one.
    DylibId = 17,
    /// A name begins within the fields of its command, or does not end in the command.
    Name = 18,
    /// The addresses of a segment end past 2^64.
    SegmentAddress = 19,
    /// A segment has more bytes in the file than in memory.
    SegmentSize = 20,
    /// The bytes of a segment end past the end of the image.
    SegmentFile = 21,
    /// A segment has an address in common with an earlier one.
    SegmentOverlap = 22,
    /// A section has an address outside its segment.
    SectionAddress = 23,
    /// The bytes of a section are not where its segment puts them.
    SectionFile = 24,
    /// The relocations of a section end past the end of the image.
    SectionRelocs = 25,
    /// A table that a load command names ends past the end of the image.
    TableRange = 26,
    /// A group of symbols ends past the end of the symbol table.
    SymbolGroup = 27,
    /// The name of a symbol does not end within the string table.
    SymbolName = 28,
    /// A symbol is defined in a section that the image does not have.
    SymbolSection = 29,
    /// An indirect entry names no symbol of the table.
    IndirectIndex = 30,
    /// The entry point that `LC_MAIN` names is at no executable byte of the file.
    Entry = 31,
    /// Strictly: a byte of a universal file that is not zero lies in no slice, after the table.
    FatStrayByte = 32,
    /// Strictly: the last load command does not end where the header says that the commands end.
    CommandsEnd = 33,
    /// Strictly: no segment has the header and all load commands.
    HeaderSegment = 34,
    /// Strictly: a segment has a byte of the file in common with an earlier one.
    SegmentFileOverlap = 35,
    /// Strictly: a part of the image that a structure describes has a byte in common with an earlier one.
    ElementOverlap = 36,
    /// Strictly: a byte of an image that is not zero lies in no segment.
    StrayByte = 37,
    /// Strictly: what is encrypted is not bytes of one segment, past the header and the load commands.
    EncryptedRange = 38,
    /// Strictly: a byte of a load command that is not zero lies past its fields, its records and its name.
    CommandSlack = 39,
    /// Strictly: a byte of a segment that is neither zero nor padding of code lies in no part that a structure
    /// describes.
    UnclaimedByte = 40,
    /// Linked: a command for linked data is of a kind of an earlier one.
    TableRepeated = 41,
    /// Linked: a command has variants of functions, by which loaders write, and which no rule reads.
    FunctionVariants = 42,
    /// Linked: linked data, symbols, strings or indirect symbols are not where a loader finds them, or can change in
    /// memory.
    TableHome = 43,
    /// Linked: the header cannot be read in memory, or can be written, or is not where loaders take the segment named
    /// `__TEXT` to be.
    HeaderHome = 44,
    /// Linked: an opcode of the rebases is not known, or its operands do not end.
    RebaseOpcode = 45,
    /// Linked: a rebase is not in the bytes of a segment that can be written.
    RebaseSlot = 46,
    /// Linked: there are more rebases than pointers that can be written.
    RebaseTotal = 47,
    /// Linked: an opcode of the binds is not known, or its operands do not end.
    BindOpcode = 48,
    /// Linked: a bind is to a library that the image does not load.
    BindLibrary = 49,
    /// Linked: a bind has no name.
    BindSymbol = 50,
    /// Linked: a bind is not in the bytes of a segment that can be written.
    BindSlot = 51,
    /// Linked: a stream has more binds than there are pointers that can be written.
    BindTotal = 52,
    /// Linked: the names that the binds of a stream look up have more bytes than the stream.
    BindNames = 53,
    /// Linked: the header of the chained fixups is not there, is cut, or is of a version or a format that is not known.
    ChainHeader = 54,
    /// Linked: the chains of a segment do not begin as the format says, or where a loader cannot write.
    ChainStarts = 55,
    /// Linked: the imports of the chained fixups end past their table, or the name of one does not end in it.
    ChainImports = 56,
    /// Linked: the names of the imports have more bytes than the table.
    ChainTotal = 57,
    /// Linked: an import is from a library that the image does not load.
    ChainLibrary = 58,
    /// Linked: a pointer of a chain does not end in its page and in the file bytes of its segment, or the next one
    /// begins in it, or a kernel decrypts the segment.
    ChainSlot = 59,
    /// Linked: a pointer of a chain binds an import that is not there.
    ChainBind = 60,
    /// Linked: a node of the export trie does not end in it.
    ExportNode = 64,
    /// Linked: the nodes of the export trie, each as often as it is met, have more bytes than it.
    ExportTotal = 65,
    /// Linked: what a node of the export trie says of a symbol does not end where it should, or is of no known kind.
    ExportTerminal = 66,
    /// Linked: an export is of a library that the image does not load.
    ExportLibrary = 67,
    /// Linked: an export has an address in no segment.
    ExportAddress = 68,
    /// Linked: a number of the function starts does not end, or a byte after the last one is not 0.
    FunctionNumber = 61,
    /// Linked: a function does not start in the file bytes of a mapped segment.
    FunctionStart = 62,
    /// Linked: an entry of the data in code is cut, of a kind that is not known, or not in the file bytes of an
    /// executable segment.
    DataInCode = 63,
    /// Linked: an initializer that a section names by an offset is at no executable byte of the file, or the offset is
    /// cut.
    InitOffset = 84,
    /// Linked: a blob of the code signature is not where it can be read, or does not begin as its magic number says.
    SignatureBlob = 69,
    /// Linked: a code directory is missing, cut, or of no known form, or something that it names is not inside of it.
    SignatureDirectory = 70,
    /// Linked: a code directory does not cover the bytes up to the signature.
    SignatureWhole = 71,
    /// Linked: a symbol is of a library that the image does not load.
    SymbolLibrary = 72,
    /// Linked: a symbol that a section defines has an address in no segment.
    SymbolValue = 73,
    /// Linked: the name that an indirect symbol stands in for does not end within the string table.
    SymbolIndirect = 74,
    /// Linked: the stubs or symbol pointers of a section have no size, do not fill it, or pass the end of the indirect
    /// symbol table.
    IndirectRange = 82,
    /// Linked: there is a table that only older loaders follow: of contents, modules or references, or of relocations
    /// beside other fixups.
    ObsoleteTable = 83,
    /// Linked: a relocation is of no symbol or section of the image, or of no pointer that can be written.
    Relocation = 75,
    /// Linked: the state of a thread is cut or not known, or its entry point is at no executable byte of the file.
    Thread = 76,
    /// Linked: what a load command holds is not inside of it or of the image, or the command has no place in it.
    CommandContent = 77,
    /// Unambiguous: a universal file has so many slices that readers take it for a Java class.
    FatCount = 86,
    /// Unambiguous: a slice is not for the processor that its entry names, or its processor is judged and the slice is
    /// not read.
    FatHeader = 87,
    /// Unambiguous: a slice does not begin at a page, or another slice begins in its last page.
    FatPage = 88,
    /// Unambiguous: a load command is of a kind that no rule knows.
    CommandKnown = 89,
    /// Unambiguous: a load command is of the kind, or for the platform, of an earlier one, and readers take only one of
    /// the two.
    CommandOnce = 90,
    /// Unambiguous: a segment has no name, the name of an earlier one or bytes past its name, or the base is not at the
    /// segment named `__TEXT`.
    SegmentName = 91,
    /// Unambiguous: a segment does not begin at a page, in memory or in the file.
    SegmentPage = 92,
    /// Unambiguous: the initial protection of a segment has a bit that its maximum protection lacks, or an unknown one.
    SegmentProtection = 93,
    /// Unambiguous: bytes of the image are encrypted, so other ones run.
    BytesEncrypted = 94,
    /// Unambiguous: a number of a segment or of a library means another one to readers that skip some.
    NumberShift = 95,
    /// Unambiguous: a section has the names of an earlier one, or bytes past its name, or another segment name than its
    /// segment.
    SectionName = 96,
    /// Unambiguous: a section has an address of an earlier one, or hides a byte of its segment, or lies over a segment
    /// that is not its own.
    SectionAlone = 97,
    /// Unambiguous: a second command says where the program begins, or the image is not a program, or readers find
    /// another byte there, or data.
    EntryOne = 98,
    /// Unambiguous: two binds of one location differ, or binds of two locations share bytes.
    BindOnce = 99,
    /// Unambiguous: a label of the export trie is empty, or another label of its node begins with it.
    ExportEdge = 100,
    /// Unambiguous: the groups of the symbol table say another kind of a symbol than its type, or a symbol without a
    /// name shows the first string.
    SymbolKind = 101,
    /// Unambiguous: the names of the external symbols have more bytes than the image.
    SymbolTotal = 102,
    /// Unambiguous: a symbol says something else of a name than an earlier symbol, or than the export trie.
    ExportSymbol = 103,
    /// Unambiguous: a bound pointer has an indirect entry with another name than its bind.
    IndirectName = 104,
    /// Unambiguous: a bind takes the name of an undefined symbol from another library than the symbol says.
    ImportLibrary = 105,
    /// Unambiguous: a blob of the code signature is in the slot of another one, or its magic number is not the one of
    /// its slot.
    SignatureSlot = 106,
    /// Unambiguous: a code directory says another identity than the first one, or readers find two things in it.
    DirectoryAgree = 107,
    /// Sealed: an image has no code signature with a code directory.
    SignatureMissing = 78,
    /// Sealed: a byte of the code signature lies in memory that may be executed.
    SignatureExecutable = 85,
    /// Sealed: a code directory is in the slot of an earlier one.
    DirectoryRepeated = 79,
    /// Sealed: a byte of the code signature that is not zero lies in no part of it.
    SignatureSlack = 80,
    /// Sealed: the hash of a page or of a blob is not the one in a code directory.
    SignatureHash = 81,
    // registry: end
}

impl Rule {
    /// The name of the rule, such as `section-file`. It is empty where the library has no rule of
    /// this number.
    #[must_use]
    pub fn name(self) -> &'static str {
        ffi::rule(self.number()).unwrap_or_default()
    }

    /// The profile that the rule belongs to. `None` where the library has no rule of this number, or the profile
    /// is newer than this crate.
    ///
    /// ```
    /// use kesvuot::{Profile, Rule};
    ///
    /// assert_eq!(Rule::StrayByte.profile(), Some(Profile::Strict));
    /// ```
    #[must_use]
    pub fn profile(self) -> Option<Profile> {
        Profile::from_number(ffi::rule_profile(self.number()))
    }
}

/// The name of the rule.
impl fmt::Display for Rule {
    fn fmt(&self, f: &mut fmt::Formatter<'_>) -> fmt::Result {
        f.pad(self.name())
    }
}

/// A text is not the name of a rule.
#[derive(Clone, Copy, Debug, PartialEq, Eq, Hash)]
#[non_exhaustive]
pub struct ParseRuleError;

impl fmt::Display for ParseRuleError {
    fn fmt(&self, f: &mut fmt::Formatter<'_>) -> fmt::Result {
        f.write_str("not the name of a rule")
    }
}

#[cfg(feature = "std")]
impl std::error::Error for ParseRuleError {}

/// The rule with this name, such as `section-file`. It is one of the rules of the library that is
/// linked, which may be newer than this crate.
impl FromStr for Rule {
    type Err = ParseRuleError;

    fn from_str(name: &str) -> Result<Self, ParseRuleError> {
        // The numbers of the rules have no gaps.
        (1..)
            .map(Rule::from_number)
            .take_while(|rule| !rule.name().is_empty())
            .find(|rule| rule.name() == name)
            .ok_or(ParseRuleError)
    }
}

#[cfg(test)]
mod tests {
    use std::borrow::ToOwned;
    use std::format;
    use std::fs;
    use std::path::Path;
    use std::string::{String, ToString};
    use std::vec::Vec;

    use super::*;

    /// The rules that the page of a profile explains under their names, each with the profile.
    fn explained(profile: Profile) -> Vec<(String, Option<Profile>)> {
        let folder = Path::new(env!("CARGO_MANIFEST_DIR")).join("../../docs/rules");
        let page = fs::read_to_string(folder.join(format!("{profile}.md"))).unwrap();
        page.lines()
            .filter_map(|line| line.strip_prefix("### `")?.strip_suffix('`'))
            .map(|rule| (rule.to_owned(), Some(profile)))
            .collect()
    }

    #[test]
    fn names_and_profiles_are_those_of_the_documents() {
        let rules = Rule::ALL.iter();
        let found: Vec<_> = rules
            .map(|rule| (rule.name().to_owned(), rule.profile()))
            .collect();
        let documents: Vec<_> = Profile::ALL.iter().flat_map(|&it| explained(it)).collect();
        assert_eq!(found, documents);
    }

    #[test]
    fn each_number_is_of_its_rule() {
        for &rule in Rule::ALL {
            assert_eq!(Rule::from_number(rule.number()), rule);
        }
    }

    #[test]
    fn each_name_is_read_as_its_rule() {
        for &rule in Rule::ALL {
            assert_eq!(rule.to_string().parse(), Ok(rule));
        }
        for name in ["", "Magic", "magic ", "section", "unknown"] {
            assert_eq!(name.parse::<Rule>(), Err(ParseRuleError), "{name}");
        }
    }

    #[test]
    fn a_number_without_a_rule_has_no_name_and_no_profile() {
        let next = Rule::ALL.iter().map(|rule| rule.number()).max().unwrap() + 1;
        for number in [0, next, u32::MAX] {
            let rule = Rule::from_number(number);
            assert_eq!(
                (rule, rule.number(), rule.name()),
                (Rule::Unknown(number), number, "")
            );
            assert_eq!(rule.profile(), None);
        }
    }
}
