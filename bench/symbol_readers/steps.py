"""What the readers in Python share: their words, and the lines that they print."""

from __future__ import annotations

import sys
from pathlib import Path
from time import process_time_ns
from typing import Any, Callable, NamedTuple


class Sums(NamedTuple):
    """What a reader adds up over the symbols. The section of a symbol counts from 1, and 0 is none. Of fixups these are
    the addresses, the segments from 1 on, and the indices of the imports."""

    count: int
    values: int
    sections: int
    lengths: int


def run(open_images: Callable[[Path], list], **loops: Callable[[list], Sums]) -> None:
    """Takes each step in each round, as often as the words ask for, and prints how many nanoseconds of the processor
    that took. For a loop it also prints the sums."""
    rounds, repeats, path = int(sys.argv[1]), int(sys.argv[2]), Path(sys.argv[3])

    def time_of(step: Callable[[Any], Any], given: Any) -> tuple[int, Any]:
        began = process_time_ns()
        for _ in range(repeats):
            last = step(given)
        return process_time_ns() - began, last

    for _ in range(rounds):
        taken, images = time_of(open_images, path)
        print("open", taken)
        for name, loop in loops.items():
            taken, sums = time_of(loop, images)
            print(name, taken, sums.count, sums.values % (1 << 64), sums.sections, sums.lengths)
