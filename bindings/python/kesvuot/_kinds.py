"""Which kind of file it is that was refused, where the kind is the reason: an object file is well-formed, but of a kind
that is not judged."""

from __future__ import annotations

from typing import Optional, Union

from ._names import FILETYPES, JUDGED_FILETYPES
from ._reading import MACH_O_MAGICS, Contents

# The bytes with which files of other kinds begin.
BEGINNINGS = {
    b"!<arch>\n": "static archive", b"!<thin>\n": "thin archive",
    b"\xce\xfa\xed\xfe": "32-bit Mach-O", b"\xfe\xed\xfa\xce": "big-endian 32-bit Mach-O",
    b"\xfe\xed\xfa\xcf": "big-endian 64-bit Mach-O", b"\x7fELF": "ELF", b"MZ": "DOS or Windows program",
    b"BC\xc0\xde": "LLVM bitcode", b"\xde\xc0\x17\x0b": "LLVM bitcode", b"dyld_v1": "shared cache",
    b"--- !tapi-tbd": "text stub of a library", b"PK\x03\x04": "zip archive", b"#!": "script"}

# What is printed of a file that does not itself say which kind it is of: of one of 0 to 3 bytes, and of any other.
SHORT, UNKNOWN = ("empty file", "file of 1 byte", "file of 2 bytes", "file of 3 bytes"), "not Mach-O"

# The least major version of a Java class, and the tags that an entry of its constant pool begins with.
JAVA_VERSION, JAVA_TAGS = 45, frozenset({1, *range(3, 13), *range(15, 21)})


def other_kind(rule: str, place: int, data: Contents) -> Optional[str]:
    """The kind of a file that broke the rule at the place, or None if its kind is one that is judged."""
    if rule == "magic" and len(data) < len(SHORT):
        return SHORT[len(data)]
    if rule == "magic":
        return _kind_of_beginning(data[:16]) or (None if bytes(data[:4]) in MACH_O_MAGICS else UNKNOWN)
    if rule == "file-type":
        filetype = int.from_bytes(data[place:place + 4], "little")
        return None if filetype in JUDGED_FILETYPES else FILETYPES.get(filetype)
    if rule.startswith("fat-") and _is_java(data):
        return "Java class"
    if rule == "fat-slice-magic":
        kind = _kind_of_beginning(data[place:place + 16])
        return kind and f"universal file with a slice that is a {kind}"
    if rule == "fat-empty" and int.from_bytes(data[4:8], "big") > 0:
        return "universal file without a 64-bit little-endian image"
    return None


def is_told(kind: Optional[str]) -> bool:
    """Whether a file of this kind itself says that it is of it. An empty output of a build, or one of zeros, does not."""
    return kind is not None and kind not in (*SHORT, UNKNOWN)


def _kind_of_beginning(first: Union[bytes, bytearray]) -> Optional[str]:
    return next((kind for beginning, kind in BEGINNINGS.items() if first.startswith(beginning)), None)


def _is_java(data: Contents) -> bool:
    """A Java class begins like a universal file: then with its version, a count of constants, and the tag of the first.
    In a universal file the byte of the tag is one of a cputype, and 0 in each that there is."""
    return (data[:4] == b"\xca\xfe\xba\xbe" and len(data) > 10
            and int.from_bytes(data[6:8], "big") >= JAVA_VERSION and data[10] in JAVA_TAGS)
