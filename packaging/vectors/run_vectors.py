#!/usr/bin/env python3
"""Runs a command on each vector, and says where it crashes, hangs, takes much memory, or accepts what it cannot read.

    run-vectors [OPTION].. -- COMMAND {}

{} stands for the path of the file. The command accepts a file if it ends with the status 0, and does not print the text
of --refusal. A line is printed of each file on which it did one of these, with what the file shows:

    crash    a signal ended it, its status is above 128, or Python, Go or Rust printed the trace of an error that nothing
             caught
    hang     it was still running after the timeout, and was ended
    memory   it had more memory than the limit at one time
    accepts  it accepts a file of which it cannot read all that the file names without leaving the file, a table or a
             segment. --profile linked counts what fixups, exports and signatures name, and layout the rest alone

The status is 0 if no such line is printed, 1 if one is, and 2 where the command cannot be run.
"""

from __future__ import annotations

import argparse
import json
import os
import re
import resource
import signal
import subprocess
import sys
import tempfile
import threading
from concurrent.futures import ThreadPoolExecutor
from pathlib import Path
from typing import BinaryIO, NamedTuple

HERE = Path(__file__).resolve().parent
PROFILES = ("layout", "linked")
TRACE = re.compile(rb"^(?:Traceback \(most recent call last\):|panic: |goroutine \d+ \[running\]"
                   rb"|thread '.*' (?:\(\d+\) )?panicked at )", re.MULTILINE)
# So much of what a command prints is looked at, at its beginning and at its end.
PIECE = 1 << 20


class Limits(NamedTuple):
    seconds: float = 10
    mib: int = 1024


class Ran(NamedTuple):
    """What a command did: `accepts`, `refuses`, `crash`, `hang` or `memory`; and how, where that says more."""

    word: str
    how: str = ""


def run(command: list[str], limits: Limits = Limits(), refusal: str = "") -> Ran:
    """What a command does within these limits. A text with which it refuses a file is only looked for if it is given."""
    with tempfile.TemporaryFile() as out:
        process = subprocess.Popen(command, stdin=subprocess.DEVNULL, stdout=out, stderr=out, start_new_session=True)
        late = threading.Event()

        def end() -> None:
            late.set()
            end_group(process.pid)

        timer = threading.Timer(limits.seconds, end)
        timer.start()
        limit_memory(process.pid, limits)
        _, ended, usage = os.wait4(process.pid, 0)
        timer.cancel()
        end_group(process.pid)
        process.returncode = -os.WTERMSIG(ended) if os.WIFSIGNALED(ended) else os.WEXITSTATUS(ended)
        printed = ends_of(out)
    mib = usage.ru_maxrss >> (20 if sys.platform == "darwin" else 10)
    if mib > limits.mib:
        return Ran("memory", f"{mib} MiB")
    if late.is_set():
        return Ran("hang", f"after {limits.seconds:g} s")
    return outcome(process.returncode, printed, refusal)


def ends_of(file: BinaryIO) -> bytes:
    """The beginning and the end of what a command has printed. Linux counts the memory of this process as memory of the
    commands that it starts later, so it has to stay small."""
    file.seek(0)
    first = file.read(PIECE)
    file.seek(max(len(first), file.seek(0, os.SEEK_END) - PIECE))
    return first + b"\n" + file.read(PIECE)


def outcome(status: int, printed: bytes, refusal: str) -> Ran:
    """What a command did that has ended by itself."""
    if status < 0 or status > 128:
        return Ran("crash", signal_name(-status if status < 0 else status - 128))
    if TRACE.search(printed):
        return Ran("crash", "an error that nothing caught")
    if status:
        return Ran("refuses", f"status {status}")
    return Ran("refuses", refusal) if refusal and refusal.encode() in printed else Ran("accepts")


def limit_memory(process: int, limits: Limits) -> None:
    """Lets no command take all memory of the machine: it gets four times the limit."""
    most = 4 * limits.mib << 20
    if hasattr(resource, "prlimit"):
        try:
            resource.prlimit(process, resource.RLIMIT_DATA, (most, most))
        except ProcessLookupError:
            pass


def end_group(group: int) -> None:
    try:
        os.killpg(group, signal.SIGKILL)
    except (ProcessLookupError, PermissionError):
        pass


def signal_name(number: int) -> str:
    try:
        return signal.Signals(number).name
    except ValueError:
        return f"status {128 + number}"


def is_found(vector: dict, ran: Ran, profile: str) -> bool:
    """Whether what the command did with the file is told."""
    if ran.word == "accepts":
        return vector["bounds"] is not None and PROFILES.index(vector["bounds"]) <= PROFILES.index(profile)
    return ran.word != "refuses"


def read_vectors(word: str) -> list[dict]:
    vectors = map(json.loads, (HERE / "vectors.jsonl").read_text(encoding="ascii").splitlines())
    return [vector for vector in vectors if word in vector["name"]]


def command_for(command: list[str], vector: dict) -> list[str]:
    return [word.replace("{}", str(HERE / vector["file"])) for word in command]


def read_words(words: list[str]) -> argparse.Namespace:
    begin = words.index("--") if "--" in words else len(words)
    parser = argparse.ArgumentParser(description=__doc__, formatter_class=argparse.RawDescriptionHelpFormatter,
                                     usage="run-vectors [OPTION].. -- COMMAND {}")
    parser.add_argument("--profile", choices=PROFILES, default="layout", help="what the command reads (layout)")
    parser.add_argument("--timeout", type=float, default=10, metavar="SECONDS", help="for one file (10)")
    parser.add_argument("--memory", type=int, default=1024, metavar="MIB", help="the most for one file (1024)")
    parser.add_argument("--jobs", type=int, default=os.cpu_count() or 1, metavar="N", help="how many run at one time")
    parser.add_argument("--refusal", default="", metavar="TEXT", help="what it prints of a file that it refuses")
    parser.add_argument("--only", default="", metavar="WORD", help="the vectors whose names have it")
    parser.add_argument("--json", action="store_true", help="print each line as an object")
    options = parser.parse_args(words[:begin])
    options.command = words[begin + 1:]
    if not any("{}" in word for word in options.command):
        parser.error("there is no command with {} after --")
    return options


def main(words: list[str]) -> int:
    options = read_words(words)
    vectors = read_vectors(options.only)
    limits = Limits(options.timeout, options.memory)
    found = 0
    with ThreadPoolExecutor(options.jobs) as pool:
        try:
            ran = pool.map(lambda vector: run(command_for(options.command, vector), limits, options.refusal), vectors)
            for vector, done in zip(vectors, ran):
                if is_found(vector, done, options.profile):
                    found += 1
                    print(told(vector, done, options.json), flush=True)
        except OSError as error:
            print(f"run-vectors: {error}", file=sys.stderr)
            return 2
    print(f"{len(vectors)} files, {found} told", file=sys.stderr)
    return 1 if found else 0


def told(vector: dict, ran: Ran, as_json: bool) -> str:
    if as_json:
        return json.dumps({"name": vector["name"], "did": ran.word, "how": ran.how, "shows": vector["shows"]})
    how = f" ({ran.how})" if ran.how else ""
    return f"{ran.word}{how}: {vector['file']}: {vector['shows']}"


if __name__ == "__main__":
    sys.exit(main(sys.argv[1:]))
