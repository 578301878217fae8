"""Reads a file into memory, as much of it as a verdict needs, and no more than the limit; or maps it, where the user
says that nobody else can write to it."""

from __future__ import annotations

import errno
import mmap
import os
import stat
from typing import Any, List, NamedTuple, Optional, Union

# The most bytes of a file that is judged. macho-check has the same limit.
LIMIT = 1 << 32
# Most files that are no image end here, or are told by these bytes.
HEAD_SIZE = 1 << 14
PIECE_SIZE = 1 << 22

# fat.h and loader.h: universal files, and 64-bit little-endian images. A file that begins with none of these is refused
# by `magic`, whatever follows.
JUDGED_MAGICS = frozenset(map(bytes.fromhex, ("cafebabe", "cafebabf", "cffaedfe")))
# These, and images of 32 bits or in the other byte order.
MACH_O_MAGICS = JUDGED_MAGICS | frozenset(map(bytes.fromhex, ("feedfacf", "cefaedfe", "feedface")))

Contents = Union[bytes, bytearray, mmap.mmap]


class Unread(Exception):
    """A file is not read, for this reason."""


class NotMachO(Exception):
    """What was found in a folder is no regular file, or none of Mach-O by its first bytes, which are in `head`."""

    def __init__(self, head: Optional[bytes] = None) -> None:
        super().__init__(head)
        self.head = head


class Stamp(NamedTuple):
    """By what a file system shows that a file has changed: its inode, its size, and the nanoseconds at which its bytes
    and anything of it have changed."""

    inode: int
    size: int
    modified: int
    changed: int


# Where the stamps of a file go, before and after it is read. It is then read whole.
Stamps = Optional[List[Stamp]]


def stamp_of(known: os.stat_result) -> Stamp:
    return Stamp(known.st_ino, known.st_size, known.st_mtime_ns, known.st_ctime_ns)


def read_given(path: str, maps: bool = False, stamps: Stamps = None, head: bytes = b"") -> Contents:
    """The bytes of a file that the user has named; `-` is standard input, of which `head` is read already. For a file
    that is refused by its first bytes they may be no more than these. A regular file that has to be read whole is
    mapped if `maps`, but standard input is read. Raises OSError, MemoryError or Unread."""
    if path == "-":
        return _read(0, os.fstat(0), stamps=stamps, head=head)
    # Opening a device may do something.
    mode = os.stat(path).st_mode
    if stat.S_ISCHR(mode) or stat.S_ISBLK(mode):
        raise Unread("a device is not read")
    return _open_and_read(path, 0, maps, stamps)


def read_found(path: str, maps: bool = False, stamps: Stamps = None) -> Contents:
    """The bytes of what was found in a folder. A link is not followed, and no pipe waited for. Raises NotMachO too."""
    return _open_and_read(path, os.O_NOFOLLOW | os.O_NONBLOCK, maps, stamps, is_found=True)


def read_regular(path: Any) -> Contents:
    """The bytes of a regular file, as much of them as a verdict needs. Raises OSError if there is none, or if it has
    more bytes than the limit."""
    path = os.fspath(path)
    # Opening a device may do something, and opening a pipe waits for its writer.
    _check_regular(os.stat(path), path)
    descriptor = os.open(path, os.O_RDONLY | os.O_CLOEXEC | os.O_NOCTTY | os.O_NONBLOCK)
    try:
        known = os.fstat(descriptor)
        _check_regular(known, path)
        return _read(descriptor, known)
    except Unread as error:
        raise OSError(errno.EFBIG, str(error), path) from error
    finally:
        os.close(descriptor)


def _check_regular(known: os.stat_result, path: Any) -> None:
    if stat.S_ISDIR(known.st_mode):
        raise IsADirectoryError(errno.EISDIR, os.strerror(errno.EISDIR), path)
    if not stat.S_ISREG(known.st_mode):
        raise OSError(errno.EINVAL, "not a regular file", path)


def _open_and_read(path: str, flags: int, maps: bool, stamps: Stamps, is_found: bool = False) -> Contents:
    descriptor = os.open(path, os.O_RDONLY | os.O_CLOEXEC | os.O_NOCTTY | flags)
    try:
        known = os.fstat(descriptor)
        data = _read(descriptor, known, maps, stamps, is_found)
        if stamps is not None:
            stamps += map(stamp_of, (known, os.fstat(descriptor)))
        return data
    finally:
        os.close(descriptor)


def _read(descriptor: int, known: os.stat_result, maps: bool = False, stamps: Stamps = None, is_found: bool = False,
          head: bytes = b"") -> Contents:
    """The bytes up to the end, or the first of them if they decide."""
    is_regular = stat.S_ISREG(known.st_mode)
    if is_found and not is_regular:
        raise NotMachO
    head = head or read_head(descriptor)
    if is_found and head[:4] not in MACH_O_MAGICS and not is_stub(head, known.st_mode):
        raise NotMachO(head)
    if is_regular and known.st_size > LIMIT:
        raise too_long()
    if head[:4] not in JUDGED_MAGICS and stamps is None:
        return head
    # A file whose read is short has ended.
    if is_regular and len(head) < HEAD_SIZE and len(head) == known.st_size:
        return head
    if is_regular and maps:
        return mmap.mmap(descriptor, 0, access=mmap.ACCESS_READ)
    return _read_on(descriptor, bytearray(head))


def is_stub(head: bytes, mode: int) -> bool:
    """Whether a file may be executed, and has no more than these bytes, too few for any program."""
    return len(head) < 4 and mode & 0o111 != 0


def read_head(descriptor: int) -> bytes:
    """The first bytes. There are fewer than 4 only in a file that is as short."""
    head = os.read(descriptor, HEAD_SIZE)
    while 0 < len(head) < 4:
        more = os.read(descriptor, HEAD_SIZE)
        if not more:
            break
        head += more
    return head


def _read_on(descriptor: int, data: bytearray) -> bytearray:
    """Reads to the end. In pieces, so that a signal can come between two."""
    while True:
        piece = os.read(descriptor, PIECE_SIZE)
        if not piece:
            return data
        data += piece
        if len(data) > LIMIT:
            raise too_long()


def too_long() -> Unread:
    return Unread(f"more than {LIMIT} bytes")
