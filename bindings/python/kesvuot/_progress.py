"""How far a run is, in the last line of a terminal."""

from __future__ import annotations

import os
import sys
import time

BAR_WIDTH = 30
# The line is rewritten at most once in this time.
SECONDS_BETWEEN = 0.1


def is_terminal(stream: object) -> bool:
    """Whether a stream of this process is a terminal. It is None where the process has none."""
    try:
        return stream is not None and stream.isatty()  # type: ignore[attr-defined]
    except (OSError, ValueError):
        return False


def _clock(seconds: float) -> str:
    minutes, rest = divmod(int(seconds), 60)
    hours, minutes = divmod(minutes, 60)
    return f"{hours}:{minutes:02}:{rest:02}" if hours else f"{minutes}:{rest:02}"


class Progress:
    """A bar on a terminal, and nothing elsewhere."""

    def __init__(self, total: int, is_wanted: bool) -> None:
        self.total = total
        self.is_wanted = is_wanted and total > 0 and is_terminal(sys.stderr)
        self.is_drawn = False
        self.began = time.monotonic()
        self.drawn_at = self.began

    def show(self, files: int, size: int) -> None:
        """Draws the bar, unless it was drawn just now. `files` are done, and have this many bytes."""
        now = time.monotonic()
        if self.is_wanted and (now - self.drawn_at >= SECONDS_BETWEEN or files == self.total):
            self.drawn_at = now
            self.is_drawn = True
            self._write("\r" + self._line(files, size, max(now - self.began, 0.001))[:self._columns()] + "\033[K")

    def _line(self, files: int, size: int, seconds: float) -> str:
        # Files may come while it runs.
        done = min(files / self.total, 1)
        filled = "#" * int(BAR_WIDTH * done)
        left = seconds * (1 - done) / done if done else 0
        return (f"[{filled:.<{BAR_WIDTH}}] {files}/{max(self.total, files)} files, {size / seconds / 1e6:.1f} MB/s, "
                f"{_clock(left)} left")

    def clear(self) -> None:
        """Clears the bar, before something else is written."""
        if self.is_drawn:
            self.is_drawn = False
            self._write("\r\033[K")

    def _write(self, text: str) -> None:
        try:
            print(text, end="", file=sys.stderr, flush=True)
        except OSError:
            self.is_wanted = False

    @staticmethod
    def _columns() -> int:
        try:
            return max(os.get_terminal_size(2).columns - 1, 0) or 79
        except OSError:
            return 79
