"""Reads the code signature of an image by cs_blobs.h, of which sealed.md has the fields. All numbers are
big-endian. It judges nothing. What it finds is compared with what the library gives, and with the lines of code
directories that `macho-verify sealed` prints after the entry of each image. In tests/ these lines are printed by

    python3 -m readers.code_signature FILE
"""

from __future__ import annotations

import hashlib
import sys
from pathlib import Path
from typing import Iterator, NamedTuple, Optional

from kesvuot.constants import LC_CODE_SIGNATURE
from reference import oracle

SUPERBLOB_MAGIC, DIRECTORY_MAGIC = 0xFADE0CC0, 0xFADE0C02
SUPERBLOB_SIZE, ENTRY_SIZE, BLOB_SIZE = 12, 8, 8
# From which version on a code directory has fields of how many bytes.
FIELDS_SIZES = ((0x20600, 108), (0x20500, 96), (0x20400, 88), (0x20300, 64), (0x20200, 52), (0x20100, 48), (0x20000, 44))
HAS_SCATTER, HAS_TEAM, HAS_LIMIT_64 = 0x20100, 0x20200, 0x20300
# The slots of code directories.
DIRECTORY_SLOTS = (0, 0x1000, 0x1001, 0x1002, 0x1003, 0x1004)
# By the type of its hashes: the word, the function, and how many bytes a hash has.
HASHES = {1: ("sha1", hashlib.sha1, 20), 2: ("sha256", hashlib.sha256, 32),
          3: ("sha256-truncated", hashlib.sha256, 20), 4: ("sha384", hashlib.sha384, 48)}
CDHASH_SIZE = 20


class Blob(NamedTuple):
    """A blob, by its bytes, the type of its entry, and its magic number."""
    content: bytes
    slot: int
    magic: int


class Directory(NamedTuple):
    """A code directory: its blob, its texts, its hashes, and its numbers in the order of kesvuot.h."""
    content: bytes
    identifier: bytes
    team: bytes
    hashes: bytes
    special_hashes: bytes
    limit: int
    version: int
    flags: int
    code_slots: int
    special_slots: int
    hash_size: int
    hash_type: int
    page_size: int


def number(content: bytes, start: int, size: int = 4) -> int:
    return int.from_bytes(content[start:start + size], "big")


def read_blobs(table: bytes) -> Iterator[Blob]:
    """The blobs of a signature, up to the first that is not past the index and the blob before it, or does not end in
    the superblob."""
    length, count = number(table, 4), number(table, 8)
    if len(table) < SUPERBLOB_SIZE or number(table, 0) != SUPERBLOB_MAGIC or length > len(table):
        return
    end = SUPERBLOB_SIZE + ENTRY_SIZE * count
    if end > length:
        return
    for place in range(SUPERBLOB_SIZE, end, ENTRY_SIZE):
        start = number(table, place + 4)
        if start < end or start + BLOB_SIZE > length:
            return
        size = number(table, start + 4)
        end = start + size
        if size < BLOB_SIZE or end > length:
            return
        yield Blob(table[start:end], number(table, place), number(table, start))


def part_of(blob: bytes, start: int, size: int) -> bytes:
    """The bytes of a blob from here on, or none if they are not all in it."""
    return blob[start:start + size] if 0 <= start and start + size <= len(blob) else b""


def text_at(blob: bytes, offset: int) -> bytes:
    """The text at an offset of a blob, which is none if the offset is 0, or no zero byte ends it."""
    text, zero, _ = blob[offset:].partition(b"\0")
    return text if offset and zero else b""


def read_directory(blob: bytes) -> Optional[Directory]:
    """What a blob says as a code directory, or None if it is none."""
    version = number(blob, 8)
    fields_size = next((size for least, size in FIELDS_SIZES if least <= version), None)
    if number(blob, 0) != DIRECTORY_MAGIC or fields_size is None or len(blob) < fields_size:
        return None
    if version >= HAS_SCATTER and number(blob, 44):
        return None
    hashes, hash_size, special_slots, code_slots = number(blob, 16), blob[36], number(blob, 24), number(blob, 28)
    special_size = special_slots * hash_size
    limit = number(blob, 56, 8) if version >= HAS_LIMIT_64 else 0
    return Directory(
        blob, text_at(blob, number(blob, 20)), text_at(blob, number(blob, 48) if version >= HAS_TEAM else 0),
        part_of(blob, hashes, code_slots * hash_size), part_of(blob, hashes - special_size, special_size),
        limit or number(blob, 32), version, number(blob, 12), code_slots, special_slots, hash_size, blob[37], blob[39])


def digest_of(directory: Directory) -> Optional[bytes]:
    """The hash of a code directory by its own type, or None if that is not known."""
    _, function, size = HASHES.get(directory.hash_type, ("", None, 0))
    return function(directory.content).digest()[:size] if function else None


def signature_of(image: oracle.Image) -> bytes:
    """The bytes of the first signature that has some."""
    commands = (it for it in image.listed if it.cmd == LC_CODE_SIGNATURE and it.datasize)
    first = next(commands, None)
    return image.data[first.dataoff:first.dataoff + first.datasize] if first else b""


def cdhash_line(blob: bytes) -> str:
    directory = read_directory(blob)
    return f"  cdhash {HASHES[directory.hash_type][0]} {digest_of(directory)[:CDHASH_SIZE].hex()}\n"


def cdhash_lines(data: bytes) -> list[str]:
    """The lines of each image of a file, in the order of the index of its signature."""
    return ["".join(cdhash_line(blob.content) for blob in read_blobs(signature_of(image)) if blob.slot in DIRECTORY_SLOTS)
            for image in oracle.File(data).slices if image.is_64_bit]


if __name__ == "__main__":
    sys.stdout.writelines(cdhash_lines(Path(sys.argv[1]).read_bytes()))
