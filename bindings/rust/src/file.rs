//! A file by its path.

use core::fmt;
use std::error;
use std::fs::{self, File};
use std::io::{self, Read};
use std::path::Path;
use std::vec::Vec;

use crate::{Error, Profile, VerifiedBuf};

/// The most bytes of a file that is read. `macho-check` has the same limit.
const LIMIT: u64 = 1 << 32;

/// Why a file by its path is not accepted.
#[derive(Debug)]
#[non_exhaustive]
pub enum FileError {
    /// The file was not read: it is missing, is not a regular file, is too long, or the system returned an error.
    Unread(io::Error),
    /// The file was read, and the library does not accept it.
    Judged(Error),
}

impl fmt::Display for FileError {
    fn fmt(&self, f: &mut fmt::Formatter<'_>) -> fmt::Result {
        match self {
            FileError::Unread(error) => error.fmt(f),
            FileError::Judged(error) => error.fmt(f),
        }
    }
}

impl error::Error for FileError {
    fn source(&self) -> Option<&(dyn error::Error + 'static)> {
        match self {
            FileError::Unread(error) => Some(error),
            FileError::Judged(error) => Some(error),
        }
    }
}

impl From<io::Error> for FileError {
    fn from(error: io::Error) -> Self {
        FileError::Unread(error)
    }
}

impl From<Error> for FileError {
    fn from(error: Error) -> Self {
        FileError::Judged(error)
    }
}

/// Reads a file into memory, and judges it as [`verify`](crate::verify) does. Links are followed. A
/// folder, a pipe, a socket or a device is not read, and neither is a file of more than 4 GiB.
///
/// ```
/// use kesvuot::Profile;
///
/// # let path = concat!(env!("CARGO_MANIFEST_DIR"), "/../../tests/real/program");
/// let file = kesvuot::verify_file(path, Profile::Strict)?;
/// for image in file.as_verified().images() {
///     println!("{image:?}");
/// }
/// # Ok::<(), kesvuot::FileError>(())
/// ```
///
/// # Errors
///
/// Why it was not read, the first broken rule, or that memory ran out.
///
/// # Panics
///
/// If the library that is linked is of another major version.
pub fn verify_file(path: impl AsRef<Path>, profile: Profile) -> Result<VerifiedBuf, FileError> {
    let bytes = read(path.as_ref(), LIMIT)?;
    Ok(VerifiedBuf::verify(bytes, profile)?)
}

/// The bytes of a regular file that has at most `limit` bytes.
fn read(path: &Path, limit: u64) -> io::Result<Vec<u8>> {
    // To open a pipe would wait for its writer, and to open a device may do something.
    check(&fs::metadata(path)?, limit)?;
    let file = File::open(path)?;
    let known = file.metadata()?;
    check(&known, limit)?;
    let mut bytes = Vec::with_capacity(known.len() as usize);
    // It may grow while it is read.
    file.take(limit.saturating_add(1)).read_to_end(&mut bytes)?;
    if bytes.len() as u64 > limit {
        return Err(too_long(limit));
    }
    Ok(bytes)
}

/// Whether there is a regular file that is not too long.
fn check(known: &fs::Metadata, limit: u64) -> io::Result<()> {
    if !known.is_file() {
        let why = "not a regular file";
        return Err(io::Error::new(io::ErrorKind::InvalidInput, why));
    }
    if known.len() > limit {
        return Err(too_long(limit));
    }
    Ok(())
}

fn too_long(limit: u64) -> io::Error {
    let why = std::format!("more than {limit} bytes");
    io::Error::new(io::ErrorKind::InvalidData, why)
}

#[cfg(test)]
mod tests {
    use std::process::Command;
    use std::string::ToString;
    use std::{env, format, process};

    use super::*;
    use crate::Rule;

    /// The path of a file of this test.
    fn path_of(name: &str) -> std::path::PathBuf {
        env::temp_dir().join(format!("kesvuot-{}-{name}", process::id()))
    }

    fn why(path: &Path, limit: u64) -> std::string::String {
        read(path, limit).unwrap_err().to_string()
    }

    #[test]
    fn files_of_all_kinds() {
        let path = path_of("file");
        fs::write(&path, b"no image").unwrap();
        assert_eq!(read(&path, 8).unwrap(), b"no image");
        assert_eq!(why(&path, 7), "more than 7 bytes");
        let refused = Error::Refused {
            rule: Rule::Magic,
            place: 0,
        };
        for &profile in Profile::ALL {
            let answer = verify_file(&path, profile);
            assert!(matches!(answer, Err(FileError::Judged(error)) if error == refused));
        }
        fs::remove_file(&path).unwrap();
        let missing = verify_file(&path, Profile::Layout).unwrap_err();
        assert!(
            matches!(missing, FileError::Unread(error) if error.kind() == io::ErrorKind::NotFound)
        );
        assert_eq!(why(&env::temp_dir(), LIMIT), "not a regular file");
        assert_eq!(why(Path::new("/dev/null"), LIMIT), "not a regular file");
    }

    #[test]
    fn a_pipe_is_not_waited_for() {
        let path = path_of("pipe");
        assert!(Command::new("mkfifo")
            .arg(&path)
            .status()
            .unwrap()
            .success());
        let answer = why(&path, LIMIT);
        fs::remove_file(&path).unwrap();
        assert_eq!(answer, "not a regular file");
    }
}
