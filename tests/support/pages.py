"""The blocks of code in the documents."""

from __future__ import annotations

import re

from .calling import TOP


def blocks(page: str, heading: str = "") -> list[str]:
    """The blocks of code of a page below the heading `## HEADING`, up to the next heading of any level. Without a
    heading, those above the first `##`."""
    text = "\n" + (TOP / page).read_text(encoding="utf-8")
    start = text.index(f"\n## {heading}\n") + 1 if heading else 0
    below = re.split(r"^##.*\n", text[start:], flags=re.MULTILINE)[1 if heading else 0]
    found = re.findall(r"(?:^    .*\n(?:\n(?=    ))*)+", below, re.MULTILINE)
    return [re.sub("^    ", "", block, flags=re.MULTILINE) for block in found]


def session(block: str) -> list[tuple[str, str]]:
    """The commands of a block, the lines that begin with `$`, each with the lines below it."""
    return [(command, out) for command, out in re.findall(r"^\$ (.*)\n((?:(?!\$ ).*\n)*)", block, re.MULTILINE)]
