"""Runs scripts side by side, shows what they say one after the other, and counts their cases by their closing lines."""

from __future__ import annotations

import argparse
import os
import re
import subprocess
import sys
import threading
import time
from concurrent.futures import Future, ThreadPoolExecutor
from dataclasses import dataclass
from pathlib import Path
from typing import Callable, Mapping, NamedTuple, NoReturn, Sequence

from .calling import TOP, Word, has_tool
from .processes import STARTING, end_with_threads
from .programs import build_trials

# What takes long comes first. The early ones run a program of their own or none, so they run beside the proofs, which go
# before them. The next ones run the programs or stubs, and tests/mutants the prover. Those of the library wait until it
# is built.
EARLY_SCRIPTS = "floor dyld counts agreed".split()
PROGRAM_SCRIPTS = ("mutants program command refusals oracle strict linked unambiguous other_readers sealed claims sizes"
                   " limits vectors packed_vectors edited").split()
LIBRARY_SCRIPTS = ("cost rebuild library python cluster tool gate stores policies archives map explain slots code"
                   " exports examples rust go fuzz recipes install").split()
SCRIPTS = [*EARLY_SCRIPTS, *PROGRAM_SCRIPTS, *LIBRARY_SCRIPTS]
# What needs neither a proof nor the library. The gate leaves out the first one: it runs what it has proved.
QUICK_SCRIPTS = ["trial_runs", "command", *EARLY_SCRIPTS, "edited"]
# The niceness of a process that runs when no other one does. (setpriority(2))
LEAST_URGENT = 19
CLOSING_LINE = re.compile(r"(\d+) passed, (\d+) failed")


@dataclass
class Counts:
    passed: int = 0
    failed: int = 0

    def add(self, other: Counts) -> None:
        self.passed += other.passed
        self.failed += other.failed

    def __str__(self) -> str:
        return f"{self.passed} passed, {self.failed} failed"


class Work(NamedTuple):
    """What the processors of this process have done since the start of the machine, in hundredths of a second."""

    done: int
    # A virtual machine was ready to work, and its host ran something else. (proc(5): steal)
    stolen: int

    @classmethod
    def now(cls) -> Work:
        usable = {f"cpu{number}" for number in os.sched_getaffinity(0)}
        rows = [line.split() for line in Path("/proc/stat").read_text("ascii").splitlines()]
        user, nice, system, _, _, irq, softirq, steal = (
            sum(int(row[column]) for row in rows if row[0] in usable) for column in range(1, 9))
        return cls(user + nice + system + irq + softirq, steal)

    def stolen_since(self, before: Work) -> int:
        """How many percent of the time that the machine could have worked its host took for others."""
        done, stolen = self.done - before.done, self.stolen - before.stolen
        return 100 * stolen // max(done + stolen, 1)


class Terminal:
    """Prints lines, and below them how far the scripts are, where standard error is a terminal."""

    def __init__(self, total: int) -> None:
        self.total = total
        self.done = 0
        self.running: list[str] = []
        self.began = time.monotonic()
        self.lock = threading.Lock()
        self.ended = threading.Event()
        if sys.stderr.isatty():
            threading.Thread(target=self.keep_drawing, daemon=True).start()

    def seconds(self) -> int:
        return int(time.monotonic() - self.began)

    def progress(self) -> str:
        return f"{self.done} of {self.total} scripts, {self.seconds()} s: {' '.join(self.running)}"

    def draw(self, text: str) -> None:
        if sys.stderr.isatty():
            columns = os.get_terminal_size(sys.stderr.fileno()).columns or 80
            sys.stderr.write(f"\r\033[K{text[:columns - 1]}")
            sys.stderr.flush()

    def keep_drawing(self) -> None:
        while not self.ended.wait(1):
            with self.lock:
                self.draw(self.progress())

    def begin(self, name: str) -> None:
        with self.lock:
            self.running.append(name)

    def end(self, name: str) -> None:
        with self.lock:
            self.running.remove(name)
            self.done += 1

    def print(self, text: str) -> None:
        with self.lock:
            self.draw("")
            print(text, flush=True)

    def close(self) -> None:
        self.ended.set()
        with self.lock:
            self.draw("")


def run_lines(words: Sequence[Word], show: Callable[[str], None], environment: Mapping[str, str] | None = None,
              niceness: int = 0) -> int:
    """Runs a program without input, shows each line that it writes, and returns its status."""
    with STARTING:
        process = subprocess.Popen(words, stdin=subprocess.DEVNULL, stdout=subprocess.PIPE, stderr=subprocess.STDOUT,
                                   env=environment)
    if niceness:
        os.setpriority(os.PRIO_PROCESS, process.pid, niceness)
    with process:
        for line in process.stdout:
            show(line.decode(errors="replace").rstrip("\n"))
    return process.returncode


class Script:
    """A script of tests/, with the lines that it has printed."""

    def __init__(self, name: str, terminal: Terminal) -> None:
        self.name = name
        self.terminal = terminal
        self.lines: list[str] = []
        self.status = 0
        self.is_shown = False
        self.lock = threading.Lock()

    def run(self, niceness: int = 0) -> None:
        self.terminal.begin(self.name)
        self.status = run_lines([TOP / "tests" / self.name], self.keep, niceness=niceness)
        self.terminal.end(self.name)

    def keep(self, line: str) -> None:
        with self.lock:
            self.lines.append(line)
            if self.is_shown:
                self.show_line(line)

    def show_line(self, line: str) -> None:
        self.terminal.print(f"tests/{self.name}: {line}" if CLOSING_LINE.fullmatch(line) else line)

    def show(self) -> None:
        """Prints what it has said, and from now on what it says."""
        with self.lock:
            for line in self.lines:
                self.show_line(line)
            self.is_shown = True

    def fault(self, why: str) -> Counts:
        self.terminal.print(f"FAILED  tests/{self.name}: ended with status {self.status}, {why}")
        return Counts(0, 1)

    def counts(self) -> Counts:
        """The counts of its closing line. Where it has failed and counts no failure, that is one."""
        closing = [match for match in map(CLOSING_LINE.fullmatch, self.lines) if match]
        if not closing:
            return self.fault("and no closing line")
        counts = Counts(*map(int, closing[-1].groups()))
        if self.status != 0 and counts.failed == 0:
            counts.add(self.fault("and counts no failure"))
        return counts


class Gate:
    """Runs the scripts with these names."""

    def __init__(self, names: Sequence[str], is_proved: bool, is_quick: bool = False) -> None:
        self.is_proved = is_proved
        self.is_quick = is_quick
        self.terminal = Terminal(len(names) + is_proved)
        self.scripts = [Script(name, self.terminal) for name in names]
        self.counts = Counts()
        self.skips = 0
        self.work = Work.now()
        self.pool = ThreadPoolExecutor(len(os.sched_getaffinity(0)))

    def show(self, script: Script, ran: Future) -> None:
        script.show()
        ran.result()
        self.counts.add(script.counts())

    def begin(self, names: Sequence[str], niceness: int = 0) -> list[tuple[Script, Future]]:
        return [(script, self.pool.submit(script.run, niceness)) for script in self.scripts if script.name in names]

    def prove(self) -> None:
        """Runs rt ci, on a core more than the other scripts have."""
        proofs = Script("proofs", self.terminal)
        with ThreadPoolExecutor(1) as pool:
            self.show(proofs, pool.submit(proofs.run))

    def skip(self, case: str, why: str) -> None:
        self.skips += 1
        self.terminal.print(f"skipped {case}: {why}")

    def build_library(self) -> None:
        """Builds the library into build/lib, where no case has failed before."""
        if self.counts.failed:
            self.skip("the library", "other cases have failed")
        elif not has_tool("cc") or not has_tool("objcopy"):
            self.skip("the library", "there is no cc, or no objcopy")
        else:
            # Scripts run beside it, so it proves by one job.
            if run_lines([TOP / "packaging/library"], self.terminal.print, {"RT_JOBS": "1", **os.environ}):
                self.fault("the library", "it was not built")

    def fault(self, case: str, why: str) -> None:
        self.counts.add(Counts(0, 1))
        self.terminal.print(f"FAILED  {case}: {why}")

    def build_trials(self) -> None:
        """Two of the scripts run macho_trials, and would build it at one time."""
        why = build_trials()
        if why:
            self.fault("macho_trials", why)

    def run(self) -> int:
        if self.is_quick:
            for script, ran in self.begin([script.name for script in self.scripts]):
                self.show(script, ran)
            return self.close()
        early = self.begin(EARLY_SCRIPTS, LEAST_URGENT if self.is_proved else 0)
        if self.is_proved:
            self.prove()
        elif any(script.name in ("refusals", "vectors") for script in self.scripts):
            self.build_trials()
        needs_library = any(script.name in LIBRARY_SCRIPTS for script in self.scripts)
        library = self.pool.submit(self.build_library) if needs_library else None
        begun = self.begin(PROGRAM_SCRIPTS)
        if library:
            library.result()
        for script, ran in [*early, *begun, *self.begin(LIBRARY_SCRIPTS)]:
            self.show(script, ran)
        return self.close()

    def close(self) -> int:
        self.terminal.close()
        seconds, stolen = self.terminal.seconds(), Work.now().stolen_since(self.work)
        print(f"that took {seconds // 60} min {seconds % 60} s on {len(os.sched_getaffinity(0))} processors" +
              (f", of whose time the host took {stolen} percent for others" if stolen else ""))
        if self.is_quick:
            print("nothing was proved: ./test proves everything, and runs all tests")
        print(self.counts, flush=True)
        return 0 if not self.counts.failed and self.counts.passed + self.skips else 1


def main(words: Sequence[str], description: str) -> NoReturn:
    parser = argparse.ArgumentParser(description=description, formatter_class=argparse.RawDescriptionHelpFormatter)
    how = parser.add_mutually_exclusive_group()
    how.add_argument("--gate", action="store_true", help="run rt ci first")
    how.add_argument("--quick", action="store_true", help="run what needs neither a proof nor the library")
    parser.add_argument("names", nargs="*", metavar="NAME", help=f"a script: {', '.join(SCRIPTS)}")
    chosen = parser.parse_args(words)
    unknown = set(chosen.names) - set(SCRIPTS)
    if unknown:
        parser.error(f"no script of the gate: {', '.join(sorted(unknown))}")
    names = [name for name in SCRIPTS if not chosen.names or name in chosen.names]
    gate = Gate(QUICK_SCRIPTS, False, True) if chosen.quick else Gate(names, chosen.gate)
    end_with_threads(gate.run)
