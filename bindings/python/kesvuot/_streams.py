"""Bytes that are read piece by piece: out of a file, out of memory, and out of compressed data. Nothing is written, and
no more than a piece is in memory."""

from __future__ import annotations

import os
import struct
import zlib
from typing import Any, Callable, Dict, Iterator, NamedTuple, Optional, Union

from ._reading import Unread

# The first pieces are short: most members of an archive are left after their first bytes.
FIRST_SIZE, MOST_SIZE = 1 << 10, 1 << 18
# Compressed data may unpack to this many times its size, and to UNCOUNTED_SIZE at any ratio. Deflate reaches 1,032,
# by zeros, and programs stay below 10.
MOST_RATIO, UNCOUNTED_SIZE = 256, 1 << 26
# The memory that a decompressor may take. `xz -9` asks for 65 MiB.
MOST_MEMORY = 1 << 28
CUT = "it is cut"


class Spent(Exception):
    """More is unpacked than the user allows."""


class Allowance:
    """How much may still be unpacked."""

    def __init__(self, limit: int) -> None:
        self.limit = self.left = limit

    def spend(self, size: int) -> None:
        self.left -= size
        if self.left < 0:
            raise Spent(f"more than {self.limit} bytes to unpack (--max-unpacked)")


# Reading


class File:
    """The bytes of a regular file, at any offset."""

    def __init__(self, descriptor: int) -> None:
        self.descriptor = descriptor

    def read_at(self, start: int, size: int) -> bytes:
        """Up to `size` bytes, fewer only at the end."""
        return os.pread(self.descriptor, size, start)


class Memory:
    """Bytes in memory, at any offset."""

    def __init__(self, data: Union[bytes, bytearray]) -> None:
        self.data = memoryview(data)

    def read_at(self, start: int, size: int) -> bytes:
        return bytes(self.data[start:start + size])


class Window:
    """A range of a source, read from its start."""

    def __init__(self, source: Source, start: int, size: int) -> None:
        self.source = source
        self.start = start
        self.size = size
        self.at = 0

    def read_at(self, start: int, size: int) -> bytes:
        return self.source.read_at(self.start + start, min(size, max(self.size - start, 0)))

    def read(self, size: int) -> bytes:
        """Up to `size` bytes. There is none only at the end."""
        piece = self.read_at(self.at, size)
        self.at += len(piece)
        return piece

    def peek(self, size: int) -> bytes:
        """The next bytes, fewer than `size` only at the end. They are read again."""
        return self.read_at(self.at, size)

    def pieces(self, first: int = FIRST_SIZE) -> Iterator[bytes]:
        for size in _sizes(first):
            piece = self.read(size)
            if not piece:
                return
            yield piece


Source = Union[File, Memory, Window]


class Flow:
    """The same of pieces that come one after the other, perhaps out of compressed data."""

    def __init__(self, pieces: Iterator[bytes], unpacking: Optional[Unpacking] = None) -> None:
        self.pieces = pieces
        self.unpacking = unpacking
        self.kept, self.at = b"", 0
        self.fault: Optional[Exception] = None

    def _next(self) -> bytes:
        if self.fault:
            raise self.fault
        try:
            return next(self.pieces, b"")
        except (Unread, OSError) as fault:
            # What comes after it cannot be read either.
            self.fault = fault
            raise

    def read(self, size: int) -> bytes:
        if self.at == len(self.kept):
            self.kept, self.at = self._next(), 0
        piece = self.kept[self.at:self.at + size]
        self.at += len(piece)
        return piece

    def peek(self, size: int) -> bytes:
        while len(self.kept) - self.at < size:
            piece = self._next()
            if not piece:
                break
            self.kept, self.at = self.kept[self.at:] + piece, 0
        return self.kept[self.at:self.at + size]

    def drain(self) -> None:
        """Reads to the end."""
        while self.read(MOST_SIZE):
            pass

    def part(self, size: int) -> Flow:
        """The next bytes, this many, whose ratio counts by itself."""
        if self.unpacking:
            self.unpacking.packed_size = self.unpacking.size = 0
        return Flow(self._part(size))

    def _part(self, size: int) -> Iterator[bytes]:
        while size:
            piece = self.read(min(size, MOST_SIZE))
            if not piece:
                raise Unread(CUT)
            size -= len(piece)
            yield piece


Stream = Union[Window, Flow]


def _sizes(first: int) -> Iterator[int]:
    size = first
    while True:
        yield size
        size = min(size * 4, MOST_SIZE)


def read_exactly(stream: Stream, size: int) -> bytes:
    data = stream.read(size)
    while len(data) < size:
        piece = stream.read(size - len(data))
        if not piece:
            raise Unread(CUT)
        data += piece
    return data


# Decompressing


class Inflater:
    """The decompressor of zlib, with the calls of those of bz2 and lzma."""

    def __init__(self, bits: int) -> None:
        self.engine = zlib.decompressobj(bits)

    @property
    def eof(self) -> bool:
        return self.engine.eof

    @property
    def needs_input(self) -> bool:
        return not self.engine.unconsumed_tail

    @property
    def unused_data(self) -> bytes:
        return self.engine.unused_data

    def decompress(self, data: bytes, most: int) -> bytes:
        return self.engine.decompress(self.engine.unconsumed_tail + data, most)


def _bunzip2(_packed: Stream) -> Any:
    import bz2  # pylint: disable=import-outside-toplevel # it is seldom wanted, and a small Python has none
    return bz2.BZ2Decompressor()


def _unxz(_packed: Stream) -> Any:
    import lzma  # pylint: disable=import-outside-toplevel # the same
    return lzma.LZMADecompressor(lzma.FORMAT_XZ, memlimit=MOST_MEMORY)


# Before LZMA zip has a version, the size of the properties, and the properties.
LZMA_HEAD = struct.Struct("<2xHBI")


def _unlzma(packed: Stream) -> Any:
    import lzma  # pylint: disable=import-outside-toplevel # the same
    size, numbers, dictionary = LZMA_HEAD.unpack(read_exactly(packed, LZMA_HEAD.size))
    if size != 5 or numbers >= 9 * 5 * 5 or dictionary > MOST_MEMORY:
        raise Unread("its properties of LZMA are not known, or ask for too much memory")
    try:
        return lzma.LZMADecompressor(lzma.FORMAT_RAW, filters=[{
            "id": lzma.FILTER_LZMA1, "dict_size": dictionary, "lc": numbers % 9, "lp": numbers // 9 % 5,
            "pb": numbers // 45}])
    except lzma.LZMAError as error:
        raise Unread(f"its properties of LZMA: {error}") from error


# The kinds of compressed files, and the methods of zip.
GZIP, BZIP2, XZ = "gzip", "bzip2", "xz"
STORED, DEFLATED, BZIPPED, LZMA = 0, 8, 12, 14
Kind = Union[str, int]
DECOMPRESSORS: Dict[Kind, Callable[[Stream], Any]] = {
    GZIP: lambda _: Inflater(31), BZIP2: _bunzip2, XZ: _unxz, DEFLATED: lambda _: Inflater(-15), BZIPPED: _bunzip2,
    LZMA: _unlzma}


class Unpacking:
    """What a stream unpacks to. A compressed file may be several, one after the other, with zeros after them; what zip
    compresses is one, and its end is where the archive says. The two sizes are those of the member that is read."""

    def __init__(self, packed: Stream, kind: Kind, allowance: Optional[Allowance] = None) -> None:
        self.packed = packed
        self.kind = kind
        self.is_member = isinstance(kind, int)
        self.allowance = allowance
        self.packed_size = self.size = 0

    def pieces(self, first: int = FIRST_SIZE) -> Iterator[bytes]:
        engine, data = self._start(), b""
        for size in _sizes(first):
            wants_more = not data and engine.needs_input
            if wants_more:
                data = self._read(size)
            piece = self._decompress(engine, data, size)
            if piece:
                self._count(len(piece))
                yield piece
            elif wants_more and not data and not engine.eof:
                if self.is_member:
                    return
                raise Unread(CUT)
            data = b""
            if engine.eof:
                data = b"" if self.is_member else self._rest(engine.unused_data)
                if not data:
                    return
                engine = self._start()

    def _start(self) -> Any:
        try:
            return DECOMPRESSORS[self.kind](self.packed)
        except ImportError as error:
            raise Unread(f"this Python has no {error.name}") from error

    def _read(self, size: int) -> bytes:
        data = self.packed.read(size)
        self.packed_size += len(data)
        return data

    def _rest(self, data: bytes) -> bytes:
        """What follows the end of compressed data, without the zeros before it."""
        data = data.lstrip(b"\0")
        while not data:
            data = self._read(MOST_SIZE)
            if not data:
                break
            data = data.lstrip(b"\0")
        return data

    def _count(self, size: int) -> None:
        self.size += size
        if self.size > max(UNCOUNTED_SIZE, self.packed_size * MOST_RATIO):
            raise Unread(f"it unpacks to more than {MOST_RATIO} times its size")
        if self.allowance:
            self.allowance.spend(size)

    @staticmethod
    def _decompress(engine: Any, data: bytes, most: int) -> bytes:
        try:
            piece: bytes = engine.decompress(data, most)
            return piece
        except MemoryError:
            raise
        except Exception as error:  # zlib and lzma have their own errors, and bz2 an OSError
            raise Unread(f"its compressed data is broken: {error}") from error


# Members


class Packed(NamedTuple):
    """Where a member is in a source, how it is compressed, its size, and its CRC-32 if the archive has one."""

    start: int
    packed_size: int
    method: int
    size: int
    crc: Optional[int] = None


def unpack(source: Source, packed: Packed, allowance: Optional[Allowance] = None,
           first: int = FIRST_SIZE) -> Iterator[bytes]:
    """The bytes of a member, from a first piece on. Raises Unread at the end if there are not as many as the archive
    says, or with another CRC-32."""
    window = Window(source, packed.start, packed.packed_size)
    is_stored = packed.method == STORED
    pieces = window.pieces(first) if is_stored else Unpacking(window, packed.method, allowance).pieces(first)
    left, crc = packed.size, 0
    for piece in pieces:
        left -= len(piece)
        if left < 0:
            raise Unread("it has more bytes than the archive says")
        if packed.crc is not None:
            crc = zlib.crc32(piece, crc)
        yield piece
    if left:
        raise Unread("it has fewer bytes than the archive says")
    if packed.crc is not None and crc != packed.crc:
        raise Unread("its CRC-32 is not the one that the archive says")
