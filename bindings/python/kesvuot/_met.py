"""Which files were met already. A file that is named again, or that has another name, is judged and counted once."""

from __future__ import annotations

import os
import stat
from typing import NamedTuple, Optional, Sequence, Set, Tuple

from ._reading import stamp_of
from ._table import Table

BITS = (1 << 63) - 1
# Of the number of a file: it was named, and not only found in a folder.
NAMED = 1
# Odd, so that no two inodes have one key, whatever bits of them differ.
SPREAD = 0x9E3779B97F4A7C15
STANDARD_INPUT = "-"


class Again(NamedTuple):
    """How a file is met again: it `is_named`, which it was not before, so that it has to have a verdict; and its path
    `is_new`, so that a manifest has no line of it."""

    is_named: bool
    is_new: bool


class Met:
    """The files that were met, by their device, inode, size and times: a file that has changed is another one. `given`
    are all paths of a run, or only the first ones if it `has_more`."""

    def __init__(self, given: Sequence[str], has_more: bool, keeps_paths: bool) -> None:
        # In one folder, only a file with several links can be met again.
        self.keeps_all = has_more or len(given) > 1
        self.files = Table()
        self.paths = Table() if keeps_paths else None
        self.has_input = False
        self.given: Set[Tuple[int, int]] = set()
        for path in given if self.keeps_all else ():
            known = _known(path)
            if known and path != STANDARD_INPUT:
                self.given.add(_key(known))

    def is_given(self, path: str) -> bool:
        """Whether what was found in a folder is also given as a path."""
        known = _known(path, is_found=True) if self.given else None
        return known is not None and _key(known) in self.given

    def again(self, path: str, is_found: bool) -> Optional[Again]:
        """How a file is met again. None if it is not, or if nobody knows."""
        if path == STANDARD_INPUT and not is_found:
            before, self.has_input = self.has_input, True
            return Again(False, False) if before else None
        known = _known(path, is_found)
        if known is None or not (self.keeps_all or known.st_nlink > 1):
            return None
        key, number = _key(known)
        numbers = set(self.files.find(key))
        was_met, was_named = not numbers.isdisjoint((number, number | NAMED)), number | NAMED in numbers
        is_named = not is_found and not was_named
        if is_named or not was_met:
            self.files.add(key, number if is_found else number | NAMED)
        is_new = not stat.S_ISLNK(known.st_mode) and self._is_new(path)
        return Again(is_named, is_new) if was_met else None

    def _is_new(self, path: str) -> bool:
        if self.paths is None:
            return False
        key = hash(os.path.abspath(path)) & BITS
        is_new = not any(self.paths.find(key))
        if is_new:
            self.paths.add(key, 1)
        return is_new


def _known(path: str, is_found: bool = False) -> Optional[os.stat_result]:
    try:
        return os.lstat(path) if is_found else os.stat(path)
    except (OSError, ValueError):
        # Whoever reads it says why.
        return None


def _key(known: os.stat_result) -> Tuple[int, int]:
    spread = known.st_ino * SPREAD % (1 << 64)
    number: int = hash((known.st_dev, stamp_of(known))) & BITS
    return spread ^ spread >> 32, (number | NAMED << 1) & ~NAMED
