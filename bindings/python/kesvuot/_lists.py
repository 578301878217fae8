"""Lists of names: how a store says which files are judged."""

from __future__ import annotations

import os
from typing import Iterator

from ._check import Stopped
from ._paths import shown

PIECE_SIZE = 1 << 16
STANDARD_INPUT = "-"


class ListError(Stopped):
    """A list cannot be read."""


def names_in(path: str, end: bytes) -> Iterator[str]:
    """The names in a list, each of which ends in this byte. No more than a piece of the list is held. The first one is
    read at once: a list that cannot be read is an error before anything is judged."""
    try:
        descriptor = 0 if path == STANDARD_INPUT else os.open(path, os.O_RDONLY | os.O_CLOEXEC)
    except OSError as error:
        raise ListError(f"{shown(path)}: {error.strerror}") from error
    return _names(descriptor, shown(path), end, _piece(descriptor, shown(path)))


def _piece(descriptor: int, list_name: str) -> bytes:
    try:
        return os.read(descriptor, PIECE_SIZE)
    except OSError as error:
        raise ListError(f"{list_name}: {error.strerror}") from error


def _names(descriptor: int, list_name: str, end: bytes, piece: bytes) -> Iterator[str]:
    rest = b""
    while True:
        *names, rest = (rest + piece).split(end)
        yield from map(_path, names)
        if not piece:
            break
        if len(rest) > PIECE_SIZE:
            raise ListError(f"{list_name}: a name of more than {PIECE_SIZE} bytes")
        piece = _piece(descriptor, list_name)
    if rest:
        yield _path(rest)


def _path(name: bytes) -> str:
    """The path of a name. In a list, - is a file of this name."""
    return "./-" if name == b"-" else os.fsdecode(name)
