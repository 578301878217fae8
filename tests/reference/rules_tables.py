"""Prints the tables of docs/rules for bench/floor.c and tests/fuzz.c: the rules of each profile, the filetypes that
are judged, the listed commands and their bounded tables. oracle.py reads all but the rules there. In tests/:

    python3 -m reference.rules_tables >rules_tables.h

Each table is a macro with a row `X(..)` for each of its lines. A row of a command ends with the index of the first of
its tables, and how many it has.
"""

from __future__ import annotations

from pathlib import Path
from typing import Iterable, Iterator

from support.programs import PROFILES

from . import oracle

# The structure of each bounded table, and the table. Those of one structure stand side by side.
TABLES = [(structure, *table) for structure, tables in oracle.BOUNDED_TABLES.items() for table in tables]


def macro(name: str, rows: Iterable[str]) -> str:
    return f"#define {name}(X)" + "".join(f" \\\n    X({row})" for row in rows) + "\n"


def rules_of_profiles() -> dict[str, list[str]]:
    """The names of the rules, each a heading of the page of its profile."""
    return {profile.upper(): oracle.rows_of("^### `([a-z-]+)`$", profile) for profile in PROFILES}


def rule_rows(names: Iterable[str]) -> Iterator[str]:
    for name in names:
        yield f'{name.upper().replace("-", "_")}, "{name}"'


def filetype_rows() -> Iterator[str]:
    for filetype, (names_itself, word) in oracle.FILETYPES.items():
        yield f'{filetype}, {str(names_itself).lower()}, "{word}"'


def command_rows() -> Iterator[str]:
    owners = [structure for structure, *_ in TABLES]
    for command, (_, structure, _, name) in oracle.COMMANDS.items():
        count = owners.count(structure)
        yield f"{command}, {structure}, {name or 0}, {owners.index(structure) if count else 0}, {count}"


def header() -> str:
    constants = [f"#define {command} {cmd:#x}u\n" for command, (cmd, *_) in oracle.COMMANDS.items()]
    return "\n".join((
        "// Made by tests/reference/rules_tables.py of docs/rules.\n",
        "".join(constants),
        *(macro(f"{profile}_RULES", rule_rows(names)) for profile, names in rules_of_profiles().items()),
        macro("FILETYPES", filetype_rows()),
        macro("LISTED_COMMANDS", command_rows()),
        macro("BOUNDED_TABLES", (", ".join(map(str, table)) for table in TABLES)),
    ))


def write_header(folder: Path) -> None:
    (folder / "rules_tables.h").write_text(header(), encoding="ascii")


if __name__ == "__main__":
    print(header(), end="")
