"""The one way to call a program: with words, input, an environment and limits."""

from __future__ import annotations

import os
import resource
import shutil
import subprocess
import time
from dataclasses import dataclass
from pathlib import Path
from typing import IO, Callable, Mapping, Sequence, Union

TOP = Path(__file__).resolve().parents[2]

Word = Union[str, bytes, Path]
# A file by its name, or one that is open, or a constant of subprocess.
Stream = Union[Path, IO[bytes], int]


@dataclass(frozen=True)
class Answer:
    """How a program ended and what it wrote. The status is that of a shell: of a program that a signal has ended it is
    128 and the number of the signal."""
    status: int
    out: bytes = b""
    err: bytes = b""

    @property
    def text(self) -> str:
        """What a shell puts in place of the call: the standard output without the newlines at its end."""
        return self.out.decode(errors="surrogateescape").rstrip("\n")

    @property
    def error(self) -> str:
        return self.err.decode(errors="surrogateescape").rstrip("\n")


def open_stream(stream: Stream, mode: str) -> Stream:
    return open(stream, mode) if isinstance(stream, Path) else stream


def call(*words: Word, stdin: Union[Stream, bytes] = subprocess.DEVNULL, stdout: Stream = subprocess.PIPE,
         stderr: Stream = subprocess.PIPE, folder: Path = TOP, environment: Mapping[str, str] | None = None,
         kib: int | None = None, closed: Sequence[int] = (), kept: Sequence[int] = ()) -> Answer:
    """Calls a program. The input is bytes, or a stream; what goes to another stream than a pipe is not in the answer.
    The environment is that of this script, if none is given. `kib` limits the address space. The streams whose numbers
    are in `closed` are closed, and the open files in `kept` stay open."""
    def prepare() -> None:
        if kib is not None:
            resource.setrlimit(resource.RLIMIT_AS, (1024 * kib, 1024 * kib))
        for number in closed:
            os.close(number)

    given = {"input": stdin} if isinstance(stdin, bytes) else {"stdin": open_stream(stdin, "rb")}
    streams = {**given, "stdout": open_stream(stdout, "wb"), "stderr": open_stream(stderr, "wb")}
    try:
        ran = subprocess.run([os.fspath(word) for word in words], cwd=folder, env=environment, pass_fds=kept,
                             preexec_fn=prepare if kib is not None or closed else None, check=False, **streams)
    finally:
        for name, stream in (("stdin", stdin), ("stdout", stdout), ("stderr", stderr)):
            if isinstance(stream, Path):
                streams[name].close()
    status = ran.returncode if ran.returncode >= 0 else 128 - ran.returncode
    return Answer(status, ran.stdout or b"", ran.stderr or b"")


def shell(line: str, *words: Word, both: bool = False, **given) -> Answer:
    """Runs a line of sh, whose words are `$1` and so on. With `both`, standard error is in the output."""
    if both:
        given["stderr"] = subprocess.STDOUT
    return call("sh", "-c", line, "sh", *words, **given)


def with_variables(**variables: object) -> dict[str, str]:
    """The environment of this script with these variables. Those that are None are left out."""
    changed = {**os.environ, **{name: str(value) for name, value in variables.items() if value is not None}}
    return {name: value for name, value in changed.items() if variables.get(name, value) is not None}


def has_tool(name: str) -> bool:
    return shutil.which(name) is not None


# How long a busy machine has for what an idle one does at once.
MOST_SECONDS = 120


def wait_until(condition: Callable[[], bool]) -> bool:
    """Waits until the condition holds, and returns whether it does."""
    end = time.monotonic() + MOST_SECONDS
    while not condition():
        if time.monotonic() > end:
            return False
        time.sleep(0.1)
    return True
