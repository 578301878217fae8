"""Numbers by keys, of which there may be as many as files in a store."""

from __future__ import annotations

from array import array
from typing import Iterator

# Of each slot: its number is marked.
MARK = 1 << 63


class Table:
    """Numbers by keys of 64 bits, in memory that processes share after a fork: 16 bytes for each slot, and two to four
    slots for each number. Different numbers may have one key. A number is from 1 to 2^63 - 1."""

    def __init__(self) -> None:
        self.count = 0
        self.slots = 16
        self.keys, self.numbers = array("Q", bytes(8 * self.slots)), array("Q", bytes(8 * self.slots))

    def find(self, key: int) -> Iterator[int]:
        """The numbers that have the key."""
        return (self.numbers[slot] & ~MARK for slot in self._slots(key))

    def add(self, key: int, number: int) -> None:
        """Adds a number."""
        if 2 * self.count >= self.slots:
            self._grow()
        self.count += 1
        self._put(key, number)

    def mark(self, key: int, number: int) -> None:
        """Marks a number that has the key."""
        for slot in self._slots(key):
            if self.numbers[slot] & ~MARK == number:
                self.numbers[slot] |= MARK

    def unmarked(self) -> Iterator[int]:
        """The numbers that are not marked."""
        return (number for number in self.numbers if number and not number & MARK)

    def _slots(self, key: int) -> Iterator[int]:
        slot = key % self.slots
        while self.numbers[slot]:
            if self.keys[slot] == key:
                yield slot
            slot = (slot + 1) % self.slots

    def _put(self, key: int, number: int) -> None:
        slot = key % self.slots
        while self.numbers[slot]:
            slot = (slot + 1) % self.slots
        self.keys[slot], self.numbers[slot] = key, number

    def _grow(self) -> None:
        before = self.keys, self.numbers
        self.slots *= 2
        self.keys, self.numbers = array("Q", bytes(8 * self.slots)), array("Q", bytes(8 * self.slots))
        for key, number in zip(*before):
            if number:
                self._put(key, number)
