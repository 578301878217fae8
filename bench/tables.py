"""What the programs of this folder that measure have in common: the library, times of the processor, tables in CSV, and
the folders of tests/ and packaging/vectors, which are found once this is imported."""

from __future__ import annotations

import argparse
import csv
import os
import resource
import subprocess
import sys
from pathlib import Path
from typing import Optional

TOP = Path(__file__).resolve().parent.parent
sys.path[1:1] = [str(TOP / "tests"), str(TOP / "packaging/vectors")]


def library_folder(script: str) -> Path:
    """The folder of libkesvuot.a: KESVUOT_LIB_DIR if that is set, build/lib otherwise."""
    build = TOP / "build" / "lib"
    folder = Path(os.environ.get("KESVUOT_LIB_DIR", build)).resolve()
    if not (folder / "libkesvuot.a").exists():
        raise SystemExit(f"{script}: {folder / 'libkesvuot.a'} is not there: call `make lib`")
    return folder


def parser_of(description: str) -> argparse.ArgumentParser:
    """The words of a program that times made files and others."""
    parser = argparse.ArgumentParser(description=description.split("\n", 1)[0])
    parser.add_argument("--only", action="append", metavar="WORD", help="the made files whose names contain it")
    parser.add_argument("--rounds", type=int, default=5, metavar="N", help="how often each is timed (5)")
    parser.add_argument("--list", action="store_true", help="print the names of the made files")
    parser.add_argument("files", nargs="*", type=Path, metavar="FILE", help="other files")
    return parser


def chosen(names: list[str], options: argparse.Namespace) -> list[str]:
    """The names that --only takes. With --list they are printed, and that is all."""
    names = [name for name in names if any(word in name for word in options.only or [""])]
    if options.list:
        print("\n".join(names))
        raise SystemExit
    return names


def processor_time() -> float:
    """The milliseconds of processor time of all child processes that have ended."""
    usage = resource.getrusage(resource.RUSAGE_CHILDREN)
    return 1000 * (usage.ru_utime + usage.ru_stime)


def times_of(command: list, rounds: int, timeout: Optional[float] = None) -> list[float]:
    """The milliseconds of processor time of each run of a command, whose output goes nowhere."""
    times = []
    for _ in range(rounds):
        begin = processor_time()
        subprocess.run(command, check=False, stdout=subprocess.DEVNULL, stderr=subprocess.DEVNULL, timeout=timeout)
        times.append(processor_time() - begin)
    return times


def print_row(*cells: object) -> None:
    """Prints a row of a table, the first of which has the names of its columns."""
    csv.writer(sys.stdout, lineterminator="\n").writerow(cells)
    sys.stdout.flush()
