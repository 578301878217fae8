"""Tables of docs/audit that are counted or collected: how many lines of definitions there are to read, and what each
script of tests/ says of itself."""

from __future__ import annotations

import re
import sys
from pathlib import Path
from typing import List

TOP = Path(__file__).resolve().parent.parent
sys.path.insert(0, str(TOP / "tests"))
from support import definitions
from support.scripts import SCRIPTS

# Scripts that the gate runs first, or that it leaves out.
OTHERS = ["proofs", "mutants"]


def lines_of(path: Path) -> int:
    return len(path.read_text(encoding="utf-8").splitlines())


def reading(_: str) -> List[str]:
    """How many files and lines of definitions each group has."""
    rows = ["| Definitions of | Files | Lines | Together |", "|---|---:|---:|---:|"]
    total = 0
    for group, files in definitions.listed():
        lines = sum(map(lines_of, files))
        total += lines
        rows.append(f"| {group} | {len(files)} | {lines:,} | {total:,} |")
    return rows


def comment_of(script: str) -> str:
    """The first sentence of the comment with which a script begins."""
    first, _, text = (TOP / "tests" / script).read_text(encoding="utf-8").partition("\n")
    if "python" in first:
        comment = re.match(r'"""(.*?)"""', text, re.DOTALL)[1]
    else:
        comment = re.sub("^# ?", "", re.match("(?:#.*\n)+", text)[0], flags=re.MULTILINE)
    return re.split(r"(?<=\.)\s", " ".join(comment.split()))[0]


def script_rows(_: str) -> List[str]:
    rows = ["| Script | What it does |", "|---|---|"]
    return rows + [f"| `tests/{name}` | {comment_of(name)} |" for name in [*OTHERS, *sorted(SCRIPTS)]]
