"""Files that scripts write."""

from __future__ import annotations

from pathlib import Path

from .calling import TOP, call


def write(path: Path, content: bytes | str) -> Path:
    path.parent.mkdir(parents=True, exist_ok=True)
    path.write_bytes(content.encode() if isinstance(content, str) else content)
    return path


def write_script(path: Path, text: str) -> Path:
    write(path, text).chmod(0o755)
    return path


def copy_crates(folder: Path) -> None:
    """Copies the sources of the crates, and nothing that was built."""
    for part in (TOP / "crates").glob("*/*"):
        if part.name != "out":
            target = folder / "crates" / part.parent.name
            target.mkdir(parents=True, exist_ok=True)
            call("cp", "-Rp", part, target)
