"""Where the version of VERSION stands again. VERSION is `X.Y.Z`, or `X.Y.Z-dev` before the release of X.Y.Z."""

from __future__ import annotations

import re
import sys
from typing import Dict, Tuple

VERSION_RT = "crates/macho_c/src/version.rt"
# What stands before a version in a file, and the form that the version has there: `{text}`, or `{python}` (PEP 440), or
# of its three numbers alone `{major}` and so on.
PLACES: Tuple[Tuple[str, str, str], ...] = (
    ("bindings/c/kesvuot.h", "#define KESVUOT_VERSION ", "0x{major:02x}{minor:02x}{patch:02x}"),
    (VERSION_RT, "const MAJOR: u32 = ", "{major};"),
    (VERSION_RT, "const MINOR: u32 = ", "{minor};"),
    (VERSION_RT, "const PATCH: u32 = ", "{patch};"),
    (VERSION_RT, "    ensures { result ≡ ", "0x{major:02x}_{minor:02x}_{patch:02x} }}"),
    ("crates/macho_verify/src/words.rt", "pub const VERSION: &str = ", '"macho-verify {text}\\n";'),
    ("bindings/python/kesvuot/_reports.py", "VERSION = ", '"{text}"'),
    ("bindings/python/METADATA", "Version: ", "{python}"),
    ("bindings/rust/Cargo.toml", "version = ", '"{text}"'),
    ("bindings/rust/Cargo.lock", 'name = "kesvuot"\nversion = ', '"{text}"'))
PATHS = sorted({path for path, _, _ in PLACES})


def forms_of(version: str) -> Dict[str, object]:
    match = re.fullmatch(r"(\d+)\.(\d+)\.(\d+)(-dev)?", version)
    if not match:
        sys.exit(f"VERSION: {version} is neither X.Y.Z nor X.Y.Z-dev")
    return {"text": version, "python": version.replace("-dev", ".dev0"),
            **dict(zip(("major", "minor", "patch"), map(int, match.groups()[:3])))}


def with_version(path: str, text: str, version: str) -> str:
    """The text of a file with this version where one stands in it, each at the end of a line."""
    forms = forms_of(version)
    for name, before, form in PLACES:
        if name == path:
            line = before + form.format(**forms)
            text, count = re.subn(rf"^{re.escape(before)}.*$", lambda _, line=line: line, text, flags=re.MULTILINE)
            if count != 1:
                sys.exit(f"{path}: {count} lines begin with `{before}`")
    return text
