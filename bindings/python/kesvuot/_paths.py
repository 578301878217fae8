"""Paths of files and of members of archives, and how reports show them."""

from __future__ import annotations

import os
import re
from typing import Dict

from ._output import as_bytes

# Between the path of an archive and the name of a member. It is half of a letter that no path and no name has, and is
# shown as an exclamation mark.
SEPARATOR = "\ud800"
# How some letters of a path are written. An exclamation mark stands for the separator alone.
ESCAPES = {"\\": r"\\", "\n": r"\n", "\r": r"\r", "\t": r"\t"}
ESCAPES_OF_PATH = {**ESCAPES, "!": r"\x21", SEPARATOR: "!"}


def last_name(path: str) -> str:
    """The name of a file in its folder or archive."""
    return path.rpartition(SEPARATOR)[2].rpartition("/")[2]


def matched(path: str) -> str:
    """A path as patterns match it."""
    return path.replace(SEPARATOR, "!")


def printable(text: str, escapes: Dict[str, str] = ESCAPES) -> str:
    """A text on one line: a backslash has another before it, and what cannot be printed is written as the numbers of
    its bytes."""
    return "".join(escapes.get(letter) or (letter if letter.isprintable() else as_bytes(letter)) for letter in text)


def shown(path: str) -> str:
    """A path on one line, which no other path has."""
    return printable(path, ESCAPES_OF_PATH)


def path_of(text: str) -> str:
    """The path of a file that is shown as this text."""
    def byte(found: "re.Match[bytes]") -> bytes:
        return {b"\\": b"\\", b"n": b"\n", b"r": b"\r", b"t": b"\t"}.get(found[1]) or bytes.fromhex(found[1][1:].decode())

    return os.fsdecode(re.sub(rb"\\(\\|n|r|t|x[0-9a-f]{2})", byte, os.fsencode(text)))


def file_object(path: str) -> Dict[str, str]:
    """A path, for JSON, whose texts have no half of a letter. A name that is not UTF-8, or has an exclamation mark, is
    written as it is shown, and all bytes are there too, in hexadecimal."""
    plain = matched(path)
    try:
        plain.encode("utf-8")
        if "!" not in path:
            return {"file": plain}
    except UnicodeEncodeError:
        pass
    return {"file": shown(path), "name": shown(path), "name_bytes": os.fsencode(plain).hex()}


def located(path: str) -> str:
    """A path for a tool that opens the file: as it is, if it is of a file and can be written."""
    return path if path.isprintable() else shown(path)


def uri(path: str) -> str:
    """A path as a reference of a URI: from the folder of the run, if it is no absolute one."""
    from urllib.parse import quote  # pylint: disable=import-outside-toplevel # it loads much, and links are few
    quoted = "!".join(quote(part.encode("utf-8", "surrogateescape"), safe="/") for part in path.split(SEPARATOR))
    while quoted.startswith("./"):
        quoted = quoted[2:].lstrip("/")
    return f"file://{quoted}" if quoted.startswith("/") else quoted
