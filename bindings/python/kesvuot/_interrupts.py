"""What Control-C, and other signals that end a command, do to it."""

# `signal` takes a while to load, and so does `typing`. Until then Control-C would leave a traceback.
import _signal
import sys


def end_at_interrupts() -> None:
    """Control-C ends the process at once and without a traceback, also in the middle of a call: with the status 130 in
    a shell. It is ignored where whoever has started the process wants it so."""
    if _signal.getsignal(_signal.SIGINT) is _signal.default_int_handler:
        _signal.signal(_signal.SIGINT, _signal.SIG_DFL)


def _is_command() -> bool:
    """Whether Python loads the package for `python3 -m kesvuot`: until it has found the module, `argv` begins with
    `-m`."""
    words = getattr(sys, "orig_argv", ["-m", "kesvuot"])
    return sys.argv[:1] == ["-m"] and "-m" in words and words[words.index("-m") + 1:][:1] == ["kesvuot"]


if _is_command():
    end_at_interrupts()

# pylint: disable=wrong-import-position
from contextlib import contextmanager
from typing import Any, Iterator, List, TypeVar

Result = TypeVar("Result")


# What ends a command that nobody waits for any more: Control-C, a time-out of CI, and a terminal that is closed.
SIGNALS = (_signal.SIGINT, _signal.SIGTERM, _signal.SIGHUP)


class Interrupts:
    """Which signal has come, if one has, in a run whose output should be whole then too. It is acted on between two
    results, or while one is waited for: in this process not before a call of the library has ended."""

    def __init__(self) -> None:
        self.number = 0
        self._waits = False
        self._watched: List[int] = []

    def watch(self) -> None:
        """From now on the signals are acted on, except those that are ignored."""
        self._watched = [number for number in SIGNALS if _signal.getsignal(number) is _signal.SIG_DFL]
        for number in self._watched:
            _signal.signal(number, self._come)

    def _come(self, number: int, *_: Any) -> None:
        # What is written after it comes once.
        for each in self._watched:
            _signal.signal(each, _signal.SIG_IGN)
        self.number = number
        if self._waits:
            raise KeyboardInterrupt

    def until(self, results: Iterator[Result]) -> Iterator[Result]:
        """The results up to a signal."""
        try:
            while not self.number:
                self._waits = True
                result = next(results)
                self._waits = False
                yield result
        except (KeyboardInterrupt, StopIteration):
            self._waits = False


@contextmanager
def held_interrupts() -> Iterator[None]:
    """The signals come after what is done in it."""
    before = _signal.pthread_sigmask(_signal.SIG_BLOCK, SIGNALS)
    try:
        yield
    finally:
        _signal.pthread_sigmask(_signal.SIG_SETMASK, before)


def forget_interrupts() -> None:
    """The signals end a process that was started while they were held, except those that are ignored."""
    for number in SIGNALS:
        if _signal.getsignal(number) is not _signal.SIG_IGN:
            _signal.signal(number, _signal.SIG_DFL)
    _signal.pthread_sigmask(_signal.SIG_UNBLOCK, SIGNALS)
