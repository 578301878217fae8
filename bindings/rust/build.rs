//! Finds the library: in the folder `KESVUOT_LIB_DIR`, or else where pkg-config says. `cargo check` and `cargo doc`
//! need none, so where pkg-config does not find it, this says so, and leaves it to the linker.

use std::path::Path;
use std::process::{self, Command};
use std::{env, fs, mem};

const HOW: &str = "Install libkesvuot, or set KESVUOT_LIB_DIR to the folder of libkesvuot.a.";

fn main() {
    println!("cargo:rerun-if-changed=build.rs");
    println!("cargo:rerun-if-env-changed=KESVUOT_LIB_DIR");
    match env::var_os("KESVUOT_LIB_DIR") {
        Some(folder) => link_from(Path::new(&folder)).unwrap_or_else(|why| {
            eprintln!("{why}\n{HOW}");
            process::exit(1);
        }),
        None => link_by_pkg_config().unwrap_or_else(|why| {
            for line in why.lines().chain([HOW]) {
                println!("cargo:warning={line}");
            }
            println!("cargo:rustc-link-lib=kesvuot");
            // For cargo a file that is missing has changed, so the next build looks again.
            println!("cargo:rerun-if-changed=libkesvuot");
        }),
    }
}

/// Links the archive of a folder, or the shared library where there is no archive.
fn link_from(folder: &Path) -> Result<(), String> {
    // Cargo runs the linker in another folder.
    let folder =
        fs::canonicalize(folder).map_err(|error| format!("{}: {error}", folder.display()))?;
    let (archive, shared) = (folder.join("libkesvuot.a"), folder.join("libkesvuot.so"));
    let (kind, library) = if archive.exists() {
        ("static", archive)
    } else if shared.exists() {
        ("dylib", shared)
    } else {
        return Err(format!("{}: there is no libkesvuot", folder.display()));
    };
    println!("cargo:rerun-if-changed={}", library.display());
    println!("cargo:rustc-link-search=native={}", folder.display());
    println!("cargo:rustc-link-lib={kind}=kesvuot");
    Ok(())
}

fn link_by_pkg_config() -> Result<(), String> {
    for name in ["PKG_CONFIG", "PKG_CONFIG_PATH", "PKG_CONFIG_LIBDIR"] {
        println!("cargo:rerun-if-env-changed={name}");
    }
    for word in words_of(&libs_of_pkg_config()?) {
        if let Some(folder) = word.strip_prefix("-L") {
            println!("cargo:rustc-link-search=native={folder}");
        } else if let Some(library) = word.strip_prefix("-l") {
            println!("cargo:rustc-link-lib={library}");
        }
    }
    Ok(())
}

/// The words of a line, in which a backslash keeps the next character, such as a blank, in its word.
fn words_of(line: &str) -> Vec<String> {
    let mut words = Vec::new();
    let mut word = String::new();
    let mut letters = line.chars();
    while let Some(letter) = letters.next() {
        match letter {
            '\\' => word.extend(letters.next()),
            _ if letter.is_whitespace() => words.push(mem::take(&mut word)),
            _ => word.push(letter),
        }
    }
    words.push(word);
    words
}

/// What a linker needs for the library, such as `-L/usr/local/lib -lkesvuot`.
fn libs_of_pkg_config() -> Result<String, String> {
    let program = env::var("PKG_CONFIG").unwrap_or_else(|_| "pkg-config".to_owned());
    let output = Command::new(&program)
        .args(["--libs", "kesvuot >= 2 kesvuot < 3"])
        .output()
        .map_err(|error| format!("{program}: {error}"))?;
    if !output.status.success() {
        return Err(String::from_utf8_lossy(&output.stderr).into_owned());
    }
    String::from_utf8(output.stdout).map_err(|error| format!("{program}: {error}"))
}
