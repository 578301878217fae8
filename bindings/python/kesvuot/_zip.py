"""The members of a zip archive, by its central directory (PKWARE's APPNOTE.TXT, 4.3). `zipfile` holds all members of an
archive, and this reads one after the other."""

from __future__ import annotations

import struct
from typing import Iterator, List, NamedTuple

from ._reading import Unread
from ._streams import DECOMPRESSORS, STORED, Flow, Packed, Window, read_exactly

MEMBER, EMPTY = b"PK\3\4", b"PK\5\6"
# The end of the directory, and how much of a comment can follow it; the same of zip64, and what points to that.
END, MOST_COMMENT = struct.Struct("<4s4H2LH"), 0xFFFF
END_64, POINTER_64 = struct.Struct("<4sQ2H2L4Q"), struct.Struct("<4sLQL")
END_64_BEGINNING, POINTER_64_BEGINNING = b"PK\6\6", b"PK\6\7"
# The entry of a member in the directory, and the header before its data.
CENTRAL, LOCAL = struct.Struct("<4s4xHH4xL2L3H4x2HL"), struct.Struct("<4s2xHH4x12x2H")
CENTRAL_BEGINNING = b"PK\1\2"
EXTRA, WIDE_EXTRA = struct.Struct("<2H"), 1
# In place of a number that zip64 has among the extra fields.
WIDE = 0xFFFF_FFFF
# The bits of a member that is encrypted, or is a patch of another file.
ENCRYPTED, PATCHED = 1 | 1 << 6 | 1 << 13, 1 << 5


class Directory(NamedTuple):
    """Where the directory is, how many members it has, and where the archive begins, from which offsets count."""

    start: int
    size: int
    count: int
    base: int


class ZipMember(NamedTuple):
    """A member by the directory. Its mode is that of a file system, or 0 where the archive was made on one without."""

    name: str
    raw_name: bytes
    flags: int
    method: int
    crc: int
    packed_size: int
    size: int
    header: int
    mode: int

    def place(self, archive: Window) -> Packed:
        """Where its data is in the source of the archive."""
        if self.flags & ENCRYPTED:
            raise Unread("it is encrypted")
        if self.flags & PATCHED or (self.method != STORED and self.method not in DECOMPRESSORS):
            raise Unread(f"it is compressed by method {self.method}, which is not known")
        head = archive.read_at(self.header, LOCAL.size)
        if len(head) < LOCAL.size or not head.startswith(MEMBER):
            raise Unread("it is not where the directory says")
        _, _, method, name_size, extra_size = LOCAL.unpack(head)
        start = self.header + LOCAL.size
        if archive.read_at(start, name_size) != self.raw_name or method != self.method:
            raise Unread("it has another name or method than the directory says")
        return Packed(archive.start + start + name_size + extra_size, self.packed_size, method, self.size, self.crc)


def zip_count(archive: Window) -> int:
    """How many members there are by the end of the directory."""
    return _directory_of(archive).count


def zip_members(archive: Window) -> Iterator[ZipMember]:
    """The members, in the order of the directory. Raises Unread where the archive is broken, and at the end if readers
    could find other members."""
    directory = _directory_of(archive)
    entries = Flow(Window(archive, directory.start, directory.size).pieces())
    count, together = 0, 0
    while entries.peek(1):
        member = _next_member(entries, directory.base)
        count += 1
        together += LOCAL.size + len(member.raw_name) + member.packed_size
        if together > archive.size:
            raise Unread("its members overlap")
        yield member
    if count & 0xFFFF != directory.count & 0xFFFF:
        raise Unread(f"its directory has {count} members, and its end says {directory.count}")
    if directory.base:
        # A reader that begins at the first byte finds what the directory leaves out.
        raise Unread(f"its directory leaves out its first {directory.base} bytes")


def _directory_of(archive: Window) -> Directory:
    tail_size = min(archive.size, END.size + MOST_COMMENT)
    tail = archive.read_at(archive.size - tail_size, tail_size)
    at = len(tail)
    while True:
        at = tail.rfind(EMPTY, 0, at)
        if at < 0:
            raise Unread("it has no end of a zip archive")
        if at + END.size <= len(tail):
            _, disk, _, _, count, size, offset, comment = END.unpack_from(tail, at)
            if at + END.size + comment <= len(tail):
                break
        at += len(EMPTY) - 1
    end = archive.size - tail_size + at
    wide = _wide_end(archive, end)
    if wide:
        disk, count, size, offset, end = wide
    if disk:
        raise Unread("it is one of several parts")
    start = end - size
    if start < offset:
        raise Unread("its directory is not in it")
    return Directory(start, size, count, start - offset)


def _wide_end(archive: Window, end: int) -> List[int]:
    """The numbers of zip64, and where its end of the directory is, if there is one."""
    pointer = archive.read_at(max(end - POINTER_64.size, 0), POINTER_64.size)
    if len(pointer) < POINTER_64.size or not pointer.startswith(POINTER_64_BEGINNING):
        return []
    at = max(end - POINTER_64.size - END_64.size, 0)
    head = archive.read_at(at, END_64.size)
    if not head.startswith(END_64_BEGINNING):
        at = POINTER_64.unpack(pointer)[2]
        head = archive.read_at(at, END_64.size)
    if len(head) < END_64.size or not head.startswith(END_64_BEGINNING):
        raise Unread("it has no end of a zip64 archive")
    _, _, _, _, disk, _, _, count, size, offset = END_64.unpack(head)
    return [disk, count, size, offset, at]


def _next_member(entries: Flow, base: int) -> ZipMember:
    head = read_exactly(entries, CENTRAL.size)
    if not head.startswith(CENTRAL_BEGINNING):
        raise Unread("its directory is broken")
    _, flags, method, crc, packed_size, size, *sizes, _, mode, header = CENTRAL.unpack(head)
    name, extra, _ = (read_exactly(entries, it) for it in sizes)
    if WIDE in (packed_size, size, header):
        size, packed_size, header = _wide(extra, [size, packed_size, header])
    return ZipMember(_text(name), name, flags, method, crc, packed_size, size, base + header, mode)


def _wide(extra: bytes, numbers: List[int]) -> List[int]:
    """The numbers of a member, of which some are among its extra fields."""
    at = 0
    while at + EXTRA.size <= len(extra):
        kind, size = EXTRA.unpack_from(extra, at)
        at += EXTRA.size
        if kind == WIDE_EXTRA:
            fields = iter([extra[it:it + 8] for it in range(at, min(at + size, len(extra)), 8)])
            numbers = [int.from_bytes(next(fields, b""), "little") if it == WIDE else it for it in numbers]
            break
        at += size
    return numbers


def _text(name: bytes) -> str:
    """A name. Those without the flag of UTF-8 are in code page 437, and many are in UTF-8 all the same."""
    try:
        return name.decode("utf-8")
    except UnicodeDecodeError:
        return name.decode("cp437")
