"""What the page of a rule says of it, as _rules.py of the package for Python has it."""

from __future__ import annotations

import re
import sys
import textwrap
from pathlib import Path
from typing import List

LABELS = ("Violated when", "Why", "Usual cause", "What to do", "Received", "How to look")
README = Path(__file__).resolve().parent.parent / "docs/rules/README.md"


def rule_lines(rule: str, name: str, page: str) -> List[str]:
    """The entry of a rule, from the text of the page with this name."""
    section = re.search(rf"^### `{rule}`\n(.*?)(?=^##|\Z)", page, re.MULTILINE | re.DOTALL)
    if not section:
        sys.exit(f"docs/{name} does not explain {rule}")
    literals = [f'"{name}"', *(_literal(_part(section[1], label)) for label in LABELS), _shell_lines(section[1])]
    body = ",\n".join(f"        {it}" for it in literals)
    return [f'    "{rule}": Rule(', *f"{body}),".split("\n")]


def _plain(text: str) -> str:
    """A text of the page on one line, without markup."""
    text = re.sub(r"\[([^]]*)\]\([^)]*\)", r"\1", text)
    text = re.sub(r"\*\*([^*]*)\*\*", r"\1", text).replace("`", "")
    return " ".join(text.split())


def _part(section: str, label: str) -> str:
    """The text below a label, without what it shows of a shell."""
    found = re.search(rf"^- \*\*{label}:?\*\*,?:?(.*?)(?=^- \*\*|^#|\Z)", section, re.MULTILINE | re.DOTALL)
    if not found and label == "Received":
        # Most rules have the same text, which the first page has.
        return _part(README.read_text(encoding="utf-8"), label).partition("Where a section has none: ")[2]
    if not found:
        sys.exit(f"a rule has no text for `{label}`: {section[:100]}")
    return _plain(re.sub(r"\n\n {6}.*", "", found[1], flags=re.DOTALL).replace("\n  - ", "\n"))


def _literal(text: str) -> str:
    """A text as a literal of Python, in lines of at most 120 letters."""
    lines = textwrap.wrap(text, 100, break_long_words=False, break_on_hyphens=False)
    quoted = [f'"{line}{" " if number < len(lines) else ""}"'
              for number, line in enumerate((it.replace("\\", r"\\").replace('"', r"\"") for it in lines), 1)]
    return "\n        ".join(quoted)


def _shell_lines(section: str) -> str:
    """The lines of a shell that a section shows, as a literal of Python."""
    lines = [_literal(line) for line in re.findall("^      ([a-z].*)", section, re.MULTILINE)]
    return "(" + ",\n         ".join(lines) + ("," if len(lines) == 1 else "") + ")"
