"""The members of a tar archive (POSIX ustar and pax, and GNU's form), one after the other. `tarfile` holds all members
of an archive, and reads an extended header of any size."""

from __future__ import annotations

from typing import Dict, Iterator, NamedTuple, Optional, Tuple

from ._reading import Unread
from ._streams import STORED, Packed, Stream, Window, read_exactly

BLOCK_SIZE = 512
# The most bytes of an extended header, which may have a name.
MOST_EXTENDED = 1 << 20
# The digits of the largest number of 64 bits.
MOST_DIGITS = 20
NAME, MODE, SIZE, CHECKSUM, TYPE, MAGIC, PREFIX = (
    slice(0, 100), slice(100, 108), slice(124, 136), slice(148, 156), slice(156, 157), slice(257, 263), slice(345, 500))
USTAR = b"ustar\0"
# The bytes that say, in GNU's form, that a sparse file has one more block of header: of the header, and of a block.
MORE_SPARSE, MORE_OF_SPARSE = 482, 504
HARD_LINK, FOLDER, SPARSE, PAX, PAX_FOR_ALL, LONG_NAME, LONG_LINK = b"1", b"5", b"S", b"x", b"g", b"L", b"K"
# Hard and symbolic links, devices, folders and pipes have no data.
WITHOUT_DATA = frozenset((HARD_LINK, b"2", b"3", b"4", FOLDER, b"6"))
# A folder, also of GNU's form with a list of what is in it, and the name of the archive.
NO_MEMBER = frozenset((FOLDER, b"D", b"V"))
# The keys of an extended header that matter.
PATH, WIDE_SIZE, SPARSE_NAME, SPARSE_KEYS = "path", "size", "GNU.sparse.name", "GNU.sparse."


class TarMember(NamedTuple):
    """A member. Without a stream it is a link, a device or a pipe. `packed` is where it is in the source of the
    archive, if that can be read at any offset. `mode` has the bits of who may do what."""

    name: str
    stream: Optional[Stream] = None
    packed: Optional[Packed] = None
    fault: str = ""
    mode: int = 0


def is_tar(head: bytes) -> bool:
    """Whether a file of these first bytes is an archive: by the checksum, which the oldest form has too."""
    return len(head) >= BLOCK_SIZE and head[0] != 0 and _is_header(head[:BLOCK_SIZE])


def _is_header(block: bytes) -> bool:
    try:
        wanted = _number(block[CHECKSUM])
    except ValueError:
        return False
    rest = block[:CHECKSUM.start] + b" " * 8 + block[CHECKSUM.stop:]
    # Some old programs add bytes with their signs.
    return wanted == sum(rest) or wanted == sum(rest) - 256 * sum(byte > 127 for byte in rest)


def _number(field: bytes) -> int:
    """A number in octal digits, or in GNU's form in the bytes after the first one."""
    if field[:1] in (b"\x80", b"\xff"):
        return int.from_bytes(field[1:], "big") - (256 ** (len(field) - 1) if field[0] == 0xFF else 0)
    return _digits(field.split(b"\0")[0].strip(b" ") or b"0", 8)


def _digits(text: bytes, base: int) -> int:
    """A number of digits alone, which `int` does not ask for."""
    if not text.isdigit() or len(text) > MOST_DIGITS:
        raise ValueError
    return int(text, base)


def tar_members(archive: Stream) -> Iterator[TarMember]:
    """The members, in their order. Raises Unread where the archive is broken. A member is read, as far as it is
    wanted, before the next one is taken."""
    for_all: Dict[str, str] = {}
    own: Dict[str, str] = {}
    while True:
        if not archive.peek(1):
            raise Unread("it has no end: it is cut between two members")
        block = read_exactly(archive, BLOCK_SIZE)
        if not block.strip(b"\0"):
            # The end. Other readers stop at the first block of zeros too.
            return
        if not _is_header(block):
            raise Unread("the checksum of a header is wrong")
        kind = block[TYPE]
        if kind in (PAX, PAX_FOR_ALL, LONG_NAME, LONG_LINK):
            text = _extended(archive, _size(block))
            if kind == LONG_NAME:
                own[PATH] = _text(text.split(b"\0")[0])
            elif kind != LONG_LINK:
                (own if kind == PAX else for_all).update(_records(text))
            continue
        yield from _member(archive, block, {**for_all, **own})
        own = {}


def _member(archive: Stream, block: bytes, said: Dict[str, str]) -> Iterator[TarMember]:
    kind = block[TYPE]
    name = said.get(SPARSE_NAME) or said.get(PATH) or _name(block)
    size = 0 if kind in WITHOUT_DATA else _size(block, said.get(WIDE_SIZE))
    is_folder = kind in NO_MEMBER or (size == 0 and name.endswith("/"))
    is_sparse = kind == SPARSE or SPARSE_NAME in said or SPARSE_KEYS in said
    more = kind == SPARSE and block[MORE_SPARSE] != 0
    while more:
        more = read_exactly(archive, BLOCK_SIZE)[MORE_OF_SPARSE] != 0
    stream, packed = _part(archive, size)
    if is_sparse:
        yield TarMember(name, fault="it is a sparse file, whose holes are not read")
    elif kind in WITHOUT_DATA - NO_MEMBER:
        yield TarMember(name)
    elif not is_folder:
        yield TarMember(name, stream, packed, mode=_mode(block))
    _skip(archive, stream, size)


def _part(archive: Stream, size: int) -> Tuple[Stream, Optional[Packed]]:
    """The next bytes of an archive, which are those of a member."""
    if isinstance(archive, Window):
        start = archive.start + archive.at
        return Window(archive.source, start, size), Packed(start, size, STORED, size)
    return archive.part(size), None


def _skip(archive: Stream, part: Stream, size: int) -> None:
    """Goes to the next header."""
    padding = -size % BLOCK_SIZE
    if isinstance(archive, Window):
        if archive.size - archive.at < size:
            raise Unread("its last member is cut")
        archive.at += size + padding
        return
    part.drain()
    if padding:
        read_exactly(archive, padding)


def _size(block: bytes, said: Optional[str] = None) -> int:
    try:
        size = _number(block[SIZE]) if said is None else _digits(said.encode("ascii", "replace"), 10)
    except ValueError as error:
        raise Unread("the size of a member is no number") from error
    if size < 0:
        raise Unread("the size of a member is negative")
    return size


def _mode(block: bytes) -> int:
    try:
        return _number(block[MODE]) & 0o777
    except ValueError:
        return 0


def _name(block: bytes) -> str:
    name = block[NAME].split(b"\0")[0]
    prefix = block[PREFIX].split(b"\0")[0] if block[MAGIC] == USTAR else b""
    return _text(prefix + b"/" + name if prefix else name)


def _text(name: bytes) -> str:
    return name.decode("utf-8", "surrogateescape")


def _extended(archive: Stream, size: int) -> bytes:
    if size > MOST_EXTENDED:
        raise Unread(f"an extended header has {size} bytes")
    return read_exactly(archive, size + -size % BLOCK_SIZE)[:size]


def _records(text: bytes) -> Dict[str, str]:
    """The records of a pax header that matter: `LENGTH KEY=VALUE` and a newline each."""
    records: Dict[str, str] = {}
    while text.strip(b"\0"):
        length, blank, _ = text.partition(b" ")
        size = int(length) if length.isdigit() and len(length) < MOST_DIGITS else 0
        key, equals, value = text[len(length) + 1:size].partition(b"=")
        if not (blank and equals and value.endswith(b"\n") and size <= len(text)):
            raise Unread("an extended header is broken")
        name = _text(key)
        if name in (PATH, WIDE_SIZE, SPARSE_NAME):
            records[name] = _text(value[:-1])
        elif name.startswith(SPARSE_KEYS):
            records[SPARSE_KEYS] = ""
        text = text[size:]
    return records
