"""Why a file is refused: what is at the place, and which parts and numbers conflict there."""

from __future__ import annotations

import ctypes
from typing import NamedTuple, Optional

from . import _library
from ._files import Refused, rule_numbers
from ._library import EXPLANATION, VERDICT, Bytes, Data, load

# The kinds of parts from 1 on, as KESVUOT_PART_.. of kesvuot.h has them.
KINDS = (
    # registry: parts
    "file", "magic", "fat-header", "fat-table", "fat-arch", "slice", "header", "headers", "command", "segment",
    "segment-memory", "section", "section-bytes", "section-memory", "relocations", "table", "group", "name", "symbol",
    "indirect", "opcode", "byte", "chain-header", "chain-array", "chain-entry", "chain-starts", "chain-import",
    "page-start", "chain-pointer", "function-start", "data-in-code-entry", "data-in-code", "export-node",
    "signature-entry", "signature-blob", "relocation", "code-page", "code-hash",
    # registry: end
)


class Part(NamedTuple):
    """A structure, or what a structure describes. It lies where the file says, which can be past the file: `size` bytes
    from the offset `start` in the file on. Of "segment-memory" and "section-memory" these are addresses, and of "group"
    indices of symbols. `described` is the offset of the structure that describes it, which can be itself. kesvuot.h
    says what each kind is, and what `index` counts."""

    kind: str
    index: Optional[int]
    start: int
    size: int
    described: int

    @property
    def end(self) -> int:
        """Where it ends."""
        return self.start + self.size


class Explanation(NamedTuple):
    """Why a file is refused. `at` is the structure that has the place, or the byte there. `first` is what breaks the
    rule, and `second` with what it conflicts or in which it should lie: None if there is no such part. `value` and
    `limit` are the numbers that the rule compares. docs/reference/explain.md has a table of what each rule gives.

    `slice`, `command`, `section` and `symbol` are the indices of those whose structure has the place, or None."""

    at: Part
    first: Optional[Part]
    second: Optional[Part]
    value: int
    limit: int
    slice: Optional[int]
    command: Optional[int]
    section: Optional[int]
    symbol: Optional[int]


def explain(data: Data, refused: Refused) -> Optional[Explanation]:
    """Explains a refusal of these bytes, by whichever profile. The file is not judged again. None if the refusal is not
    one of these bytes, as far as that is seen: no rule has the name, or nothing that the rule is about is at the place."""
    number = rule_numbers().get(refused.rule)
    if number is None or not 0 <= refused.place < 1 << 64:
        return None
    file = Bytes(data)
    verdict = ctypes.create_string_buffer(VERDICT.pack(refused.place, 0, number), VERDICT.size)
    written = ctypes.create_string_buffer(EXPLANATION.size)
    if load().kesvuot_explain(file.address, len(file.view), verdict, written) != _library.OK:
        return None
    fields = EXPLANATION.unpack(written)
    at, first, second = (_part(*fields[place:place + 5]) for place in (0, 5, 10))
    assert at, "a refusal without what is at its place"
    return Explanation(at, first, second, fields[15], fields[16], *map(_index, fields[17:]))


def _part(start: int, size: int, described: int, kind: int, index: int) -> Optional[Part]:
    return Part(KINDS[kind - 1], _index(index), start, size, described) if kind else None


def _index(number: int) -> Optional[int]:
    return None if number == _library.NO_INDEX else number
