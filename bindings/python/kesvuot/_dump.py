"""Bytes of a file in hexadecimal, with some of them marked."""

from __future__ import annotations

from typing import Iterator, List, NamedTuple, Sequence

# So many bytes are in a row.
ROW = 16


class Mark(NamedTuple):
    """Bytes that are marked, with what is said of them."""

    start: int
    size: int
    name: str


def dump(data: memoryview, start: int, end: int, marks: Sequence[Mark]) -> Iterator[str]:
    """Rows of the bytes from `start` up to `end`, as far as the file has them, each with its place in the file. Below
    a row is a line with the marks of its bytes."""
    width = max(len(f"{end:x}"), 4)
    for place in range(start, min(end, len(data)), ROW):
        row = data[place:min(place + ROW, end)]
        hexadecimal = row.hex(" ").ljust(3 * ROW - 1)
        yield f"{place:0{width}x}  {hexadecimal}  |{_text(row)}|"
        marked = [mark for mark in marks if mark.start < place + len(row) and mark.start + mark.size > place]
        if marked:
            yield f"{'':{width}}  {_line(place, len(row), marked):{3 * ROW - 1}}  {', '.join(_names(marked))}"


def _text(row: memoryview) -> str:
    """The bytes that are printable ASCII, and points for all others."""
    return "".join(chr(byte) if 0x20 <= byte <= 0x7E else "." for byte in row)


def _line(place: int, count: int, marks: List[Mark]) -> str:
    """A caret below each digit of a marked byte, and below the blank between two of one mark."""
    line = [" "] * (3 * count)
    for mark in marks:
        first, last = max(mark.start - place, 0), min(mark.start + mark.size - place, count)
        line[3 * first:3 * last - 1] = "^" * (3 * (last - first) - 1)
    return "".join(line).rstrip()


def _names(marks: List[Mark]) -> Iterator[str]:
    return (mark.name for mark in sorted(marks))
