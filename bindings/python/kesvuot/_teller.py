"""The words in which a refused file is told of: a story, and what tells it."""

from __future__ import annotations

from typing import List, NamedTuple, Tuple

from ._case import Case
from ._dump import Mark
from ._explanation import Part as FilePart
from ._structures import number_in

Number = Tuple[str, int]

NO_PART = FilePart("", None, 0, 0, 0)
# So many opcodes of a stream, imports, or blobs are looked at for one sentence. With more, it says less.
MOST_STEPS = 1 << 18


class Reading(NamedTuple):
    """Who reads a file in one way, and what they see."""

    who: str
    sees: str


class Story(NamedTuple):
    """A sentence, the numbers with what they are, the two readings of a file that is ambiguous, and bytes of the file
    that the sentence is about, besides fields of structures."""

    says: str
    numbers: List[Number]
    readings: Tuple[Reading, ...] = ()
    marks: Tuple[Mark, ...] = ()

    def read_as(self, who: str, sees: str) -> Story:
        """The same with one more reading."""
        return self._replace(readings=(*self.readings, Reading(who, sees)))

    def marking(self, *marks: Mark) -> Story:
        """The same with more bytes."""
        return self._replace(marks=(*self.marks, *marks))


class Teller:
    """The words for a case: its names and numbers."""

    def __init__(self, case: Case) -> None:
        self.case = case
        it = case.explanation
        self.at_part, self.first_part, self.second_part = (part or NO_PART for part in (it.at, it.first, it.second))
        self.at = case.name(self.at_part)
        self.first, self.second = case.names
        self.value, self.limit = it.value, it.limit
        # What a part should end in: the slice, which is the whole file if there is no other.
        self.whole = f"slice {it.slice}" if case.entry else "the file"

    def story(self, says: str, value: str = "", limit: str = "") -> Story:
        """A story, with the names of its two numbers, if they have some."""
        numbers = [(name, number) for name, number in ((value, self.value), (limit, self.limit)) if name]
        return Story(says[0].upper() + says[1:], numbers)

    def goes_past(self, what: str, verb: str, value: str) -> Story:
        """A part ends past the slice."""
        return self.story(f"{what} {verb} at {self.value:#x}, past the end of {self.whole}, {self.limit:#x}.", value,
                          f"length of {self.whole}")

    def shares(self) -> Story:
        """Two parts share bytes or addresses, from `value` up to and including `limit`."""
        is_memory = self.first_part.kind in ("segment-memory", "section-memory")
        one, some = ("address", "addresses") if is_memory else ("byte", "bytes")
        shared = f"{some} {self.value:#x} up to {self.limit + 1:#x}" if self.value < self.limit else \
            f"{one} {self.value:#x}"
        return self.story(f"{self.first} and {self.second} share the {shared}.", f"first shared {one}",
                          f"last shared {one}")

    def lies_between(self, says: str) -> Story:
        """A byte lies between two parts, of which either may not be there."""
        sides = [f"{word} {part}" for word, part in (("after", self.first), ("before", self.second)) if part]
        return self.story(f"the byte {self.value:02x} {says}{', ' if sides else ''}{' and '.join(sides)}.", "byte")

    def segment_number(self, field: str) -> int:
        """A number of the command of the second part, which is a segment."""
        return number_in(self.case.data[self.second_part.described:], "segment_command_64", field)
