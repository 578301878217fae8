"""Builds readers in Rust for the programs of this folder that measure: over a crate of Debian, or of this repository."""

from __future__ import annotations

import subprocess
from pathlib import Path

# Where Debian's librust-.. packages are.
REGISTRY = Path("/usr/share/cargo/registry")
OF_DEBIAN = ["--config", 'source.crates-io.replace-with="debian"', "--config", f'source.debian.directory="{REGISTRY}"']

# A panic ends the program by a signal.
MANIFEST = """\
[package]
name = "by_{crate}"
version = "0.0.0"
edition = "2021"

[[bin]]
name = "by_{crate}"
path = "{source}"

[profile.release]
panic = "abort"

[dependencies]
{crate} = {{ {dependency} }}
"""


def debian_version(crate: str) -> str:
    """The newest version of a crate that Debian's packages have installed, or nothing."""
    versions = sorted(REGISTRY.glob(f"{crate}-[0-9]*"))
    return versions[-1].name.split("-", 1)[1] if versions else ""


def compile_rust(folder: Path, source: Path, crate: str, dependency: str, *words: str) -> Path:
    """The program of a source that uses a crate. The dependency is what Cargo.toml says of the crate."""
    package = folder / crate
    package.mkdir()
    (package / "Cargo.toml").write_text(MANIFEST.format(crate=crate, source=source, dependency=dependency))
    subprocess.run(["cargo", "build", "--quiet", "--release", "--offline", "--target-dir", package / "target", *words],
                   cwd=package, check=True)
    return package / "target" / "release" / f"by_{crate}"


def compile_over_debian(folder: Path, source: Path, crate: str, features: str) -> Path:
    """The program of a source that uses the newest version of a crate of Debian, with these features alone."""
    dependency = f'version = "={debian_version(crate)}", default-features = false, features = [{features}]'
    return compile_rust(folder, source, crate, dependency, *OF_DEBIAN)
