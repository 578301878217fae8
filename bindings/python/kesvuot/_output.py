"""Standard output and standard error, either of which may be closed, full or a terminal."""

from __future__ import annotations

import codecs
import io
import os
import signal
import sys
from typing import Callable, Iterator, List, NoReturn, Tuple

from ._progress import is_terminal

# The name of standard output as a file.
STANDARD_OUTPUT = "-"
# What a terminal shows in which colour (ECMA-48).
GREEN, RED, YELLOW, PLAIN = "\033[32m", "\033[31m", "\033[33m", "\033[0m"


# What an encoding does with a letter that it does not have: its bytes are written as numbers.
AS_BYTES = "kesvuot.bytes"


def as_bytes(letters: str) -> str:
    """The bytes of some letters of a path, as numbers."""
    return "".join(f"\\x{byte:02x}" for byte in letters.encode("utf-8", "surrogateescape"))


def _encoded(error: UnicodeError) -> Tuple[str, int]:
    if not isinstance(error, UnicodeEncodeError):
        raise error
    return as_bytes(error.object[error.start:error.end]), error.end


codecs.register_error(AS_BYTES, _encoded)


class WriteFailed(Exception):
    """Standard output, or a file that was asked for, is closed, or takes no more."""

    def __init__(self, reason: str = "write failed") -> None:
        super().__init__(reason)


class ReaderGone(WriteFailed):
    """Whoever read standard output reads no more, as `head` does after its lines."""


def write_failed(error: OSError) -> WriteFailed:
    """What to raise after such an error of standard output."""
    return ReaderGone() if isinstance(error, BrokenPipeError) else WriteFailed()


class Output:
    """Standard output. Before each text, the last line of the terminal is cleared."""

    def __init__(self, encoding: str = "", errors: str = AS_BYTES) -> None:
        if not isinstance(sys.stdout, io.TextIOWrapper):
            raise WriteFailed
        try:
            # A path may have letters that the encoding does not. What was written before goes out first.
            sys.stdout.reconfigure(encoding=encoding or None, errors=errors)
        except OSError as error:
            raise write_failed(error) from error
        self.stream = sys.stdout
        self.clear: Callable[[], None] = lambda: None

    def write(self, text: str) -> None:
        self.clear()
        try:
            self.stream.write(text)
        except OSError as error:
            raise write_failed(error) from error

    def flush(self) -> None:
        try:
            self.stream.flush()
        except OSError as error:
            raise write_failed(error) from error


def has_colours(stream: object) -> bool:
    """Whether what a stream shows may have colours (no-color.org)."""
    return is_terminal(stream) and not os.environ.get("NO_COLOR") and os.environ.get("TERM") != "dumb"


def coloured(text: str, colour: str, stream: object) -> str:
    return f"{colour}{text}{PLAIN}" if has_colours(stream) else text


# A row of a table.
Cells = Tuple[str, ...]


def columns(rows: Callable[[], Iterator[Cells]]) -> Iterator[str]:
    """Rows with columns of one width. They are read twice, because there may be millions."""
    widths: List[int] = []
    for row in rows():
        widths += [0] * (len(row) - len(widths))
        for number, cell in enumerate(row):
            widths[number] = max(widths[number], len(cell))
    for row in rows():
        yield ("  " + "  ".join(cell.ljust(width) for cell, width in zip(row, widths))).rstrip()


def open_errors() -> None:
    """Standard error, which argparse needs, goes nowhere if it is closed."""
    if sys.stderr is None:
        sys.stderr = open(os.devnull, "w", encoding="ascii")  # pylint: disable=consider-using-with
    elif isinstance(sys.stderr, io.TextIOWrapper):
        sys.stderr.reconfigure(errors=AS_BYTES)


def say(text: str) -> None:
    """Writes a line to standard error, if it takes one: the status says the same."""
    try:
        if sys.stderr is not None:
            print(f"kesvuot: {text}", file=sys.stderr, flush=True)
    except OSError:
        discard(2)


def discard(descriptor: int) -> None:
    """Whatever is not yet written goes nowhere when Python ends, instead of failing again."""
    null = os.open(os.devnull, os.O_WRONLY)
    if null != descriptor:
        os.dup2(null, descriptor)


def end_by(number: int) -> NoReturn:
    """Ends this process by a signal, as it ends one that does nothing about it: nothing more is written."""
    signal.signal(number, signal.SIG_DFL)
    os.kill(os.getpid(), number)
    # The parent process has blocked the signal. A shell has this status for it.
    os._exit(128 + number)  # pylint: disable=protected-access
