"""Text that a report can only write after other text, which comes later."""

from __future__ import annotations

from tempfile import SpooledTemporaryFile
from typing import Any, Callable

# So many bytes are kept in memory, and more in a file.
KEPT_IN_MEMORY = 1 << 20


class Waiting:
    """Such a text."""

    def __init__(self) -> None:
        # pylint: disable=consider-using-with
        self._file = SpooledTemporaryFile(KEPT_IN_MEMORY, "w+", encoding="utf-8")

    def __bool__(self) -> bool:
        return self._file.tell() > 0

    def add(self, text: str) -> None:
        self._file.write(text)

    def write_to(self, write: Callable[[str], Any]) -> None:
        """Writes all of it."""
        self._file.seek(0)
        for piece in iter(lambda: self._file.read(1 << 16), ""):
            write(piece)

    def close(self) -> None:
        self._file.close()
