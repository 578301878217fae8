"""Ends a script by a signal, with all that it has started."""

from __future__ import annotations

import os
import signal
import threading
from pathlib import Path
from typing import Callable, Iterator, NoReturn

# Not SIGPIPE, which a program sends that does not read its input: Python ignores that signal.
SIGNALS = (signal.SIGINT, signal.SIGTERM, signal.SIGHUP)
# A thread has this while it starts a process.
STARTING = threading.Lock()


class Ended(KeyboardInterrupt):
    """A signal has to end the script. unittest lets no other exception of a test pass."""

    def __init__(self, number: int) -> None:
        super().__init__()
        self.number = number


def started_by(process: int) -> Iterator[int]:
    """The processes that a process has started, and those that they have started."""
    for children in Path(f"/proc/{process}/task").glob("*/children"):
        try:
            found = children.read_text(encoding="ascii").split()
        except OSError:
            continue
        for child in map(int, found):
            yield child
            yield from started_by(child)


def handle(handler: Callable[[int, object], object] | signal.Handlers) -> None:
    for number in SIGNALS:
        signal.signal(number, handler)


def raise_ended(number: int, _frame: object) -> NoReturn:
    handle(signal.SIG_IGN)
    raise Ended(number)


def end_all() -> None:
    """Ends what the script has started."""
    for process in list(started_by(os.getpid())):
        try:
            os.kill(process, signal.SIGTERM)
        except ProcessLookupError:
            pass


def end_by(number: int) -> NoReturn:
    """Ends the script itself by the signal."""
    signal.signal(number, signal.SIG_DFL)
    os.kill(os.getpid(), number)
    raise SystemExit(128 + number)


def end_with_children(run: Callable[[], int]) -> NoReturn:
    """Runs the function, and ends with the status that it returns. By a signal, or where nobody reads what it prints,
    it ends with all that was started."""
    handle(raise_ended)
    try:
        status = run()
    except Ended as ended:
        end_all()
        end_by(ended.number)
    except BrokenPipeError:
        end_all()
        end_by(signal.SIGPIPE)
    raise SystemExit(status)


def end_with_threads(run: Callable[[], int]) -> NoReturn:
    """The same for a function that has threads, which start processes under STARTING. Python runs handlers in the main
    thread alone, and a signal does not end its wait for a lock if it reaches another thread, or comes just before that
    wait. So the function runs in another thread, and this one reads a pipe, to which Python writes each signal."""
    reader, writer = os.pipe()
    os.set_blocking(writer, False)
    signal.set_wakeup_fd(writer)
    handle(lambda _number, _frame: None)
    status = 1

    def work() -> None:
        nonlocal status
        number = 0
        try:
            status = run()
        except BrokenPipeError:
            number = signal.SIGPIPE
        finally:
            os.write(writer, bytes([number]))

    threading.Thread(target=work, daemon=True).start()
    number = os.read(reader, 1)[0]
    if number:
        # Threads whose processes end would start others.
        with STARTING:
            end_all()
            end_by(number)
    handle(signal.SIG_DFL)
    raise SystemExit(status)
