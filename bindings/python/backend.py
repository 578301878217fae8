"""Packs the package for pip (PEP 517). Nothing is compiled, and nothing has to be fetched first.

    python3 backend.py FOLDER LIBRARY NOTICE..

writes a wheel that has the shared library and these notices into a folder, and prints its name: `make dist` calls it.
"""

from __future__ import annotations

import base64
import hashlib
import io
import os
import re
import sys
import tarfile
import zipfile
from email import message_from_string
from pathlib import Path
from typing import Any, Dict, Optional, Sequence

METADATA = Path("METADATA")
PACKAGE = sorted(path for pattern in ("*.py", "map.html", "py.typed") for path in Path("kesvuot").glob(pattern))
# The pages to which reports have links, and their folder, in the repository or in the archive of the sources.
DOCS = next(filter(Path.is_dir, (Path("pages"), Path("../../docs"))), Path("pages"))
PAGES = sorted(path.relative_to(DOCS) for name in ("rules/*.md", "guide/policies.md") for path in DOCS.glob(name))
# The command that pip installs.
ENTRY_POINTS = b"[console_scripts]\nkesvuot = kesvuot.__main__:main\n"
# The systems that the library is for, as pip names them: x86-64 Linux with the C library of 2006 or a later one. Versions
# of pip before 20.3 know the second name.
LINUX = ("manylinux_2_5_x86_64", "manylinux1_x86_64")
# The least time of a file in a zip archive. The same sources give the same wheel, and nothing is compressed, so any
# Python writes the same bytes.
TIME = (1980, 1, 1, 0, 0, 0)


def _full_name() -> str:
    """The name of the package, with its version."""
    fields = message_from_string(METADATA.read_text(encoding="utf-8"))
    return f"{fields['Name']}-{fields['Version']}"


def _line_of_record(name: str, content: bytes) -> str:
    digest = base64.urlsafe_b64encode(hashlib.sha256(content).digest()).decode().rstrip("=")
    return f"{name},sha256={digest},{len(content)}\n"


def _page(page: Path) -> bytes:
    """A page. Of a link to what is not in the package, the text stays."""
    def link(found: "re.Match[str]") -> str:
        target = os.path.normpath(page.parent / found[2].partition("#")[0])
        return found[0] if found[2].startswith("#") or Path(target) in PAGES else found[1]

    return re.sub(r"\[([^][]*)\]\(([^)]*)\)", link, (DOCS / page).read_text(encoding="utf-8")).encode()


def _write_wheel(folder: str, *systems: str, library: Optional[Path] = None, notices: Sequence[Path] = ()) -> str:
    """Writes a wheel of the package for these systems. Returns its name."""
    info, name = f"{_full_name()}.dist-info", f"{_full_name()}-py3-none-{'.'.join(systems)}.whl"
    files = {path.as_posix(): path.read_bytes() for path in PACKAGE}
    files.update({f"kesvuot/pages/{page.as_posix()}": _page(page) for page in PAGES})
    if library:
        files[f"kesvuot/{library.name}"] = library.read_bytes()
    files.update({f"{info}/licenses/{notice.name}": notice.read_bytes() for notice in notices})
    files[f"{info}/METADATA"] = METADATA.read_bytes()
    tags = "".join(f"Tag: py3-none-{system}\n" for system in systems)
    files[f"{info}/WHEEL"] = (
        f"Wheel-Version: 1.0\nGenerator: kesvuot\nRoot-Is-Purelib: {str(not library).lower()}\n{tags}").encode()
    files[f"{info}/entry_points.txt"] = ENTRY_POINTS
    record = f"{info}/RECORD"
    files[record] = ("".join(map(_line_of_record, files, files.values())) + f"{record},,\n").encode()
    with zipfile.ZipFile(os.path.join(folder, name), "w") as wheel:
        for path, content in files.items():
            entry = zipfile.ZipInfo(path, TIME)
            entry.external_attr = 0o100644 << 16
            wheel.writestr(entry, content)
    return name


def build_wheel(wheel_directory: str, config_settings: Optional[Dict[str, Any]] = None,
                metadata_directory: Optional[str] = None) -> str:
    """The package, with what says that it is one. Returns the name of the wheel."""
    del config_settings, metadata_directory
    return _write_wheel(wheel_directory, "any")


def build_sdist(sdist_directory: str, config_settings: Optional[Dict[str, Any]] = None) -> str:
    """An archive of the sources."""
    del config_settings
    name = f"{_full_name()}.tar.gz"
    sources = {path.as_posix(): path for path in (*PACKAGE, METADATA, Path("backend.py"), Path("pyproject.toml"))}
    sources.update({f"pages/{page.as_posix()}": DOCS / page for page in PAGES})
    with tarfile.open(os.path.join(sdist_directory, name), "w:gz", format=tarfile.PAX_FORMAT) as archive:
        for path, source in {**sources, "PKG-INFO": METADATA}.items():
            content = source.read_bytes()
            entry = tarfile.TarInfo(f"{_full_name()}/{path}")
            entry.size = len(content)
            archive.addfile(entry, io.BytesIO(content))
    return name


if __name__ == "__main__":
    target, shared, *texts = sys.argv[1:]
    print(_write_wheel(target, *LINUX, library=Path(shared), notices=list(map(Path, texts))))
