"""The mutants of the crates: wrong bodies that the prover must refuse. They are in crates/*/must-fail/mutants.md: a
heading with the name of each, and the lines of its edit. The gate tries those with "(gate)" after the name."""

from __future__ import annotations

import re
from typing import Iterator, NamedTuple

from .calling import TOP

GATE = " (gate)"
FUNCTION = re.compile(r"^( *)(?:pub(?:\(\w+\))? )?(?:const )?(?:unsafe )?(?:extern \"C\" )?fn (\w+)", re.MULTILINE)
BLOCK = re.compile(r"^(?:unsafe )?(?:impl(?:<[^\n]*?>)? (?:([^\n]*?) for )?|(?:pub )?trait )([A-Z]\w*).*?^}",
                   re.MULTILINE | re.DOTALL)


class Function(NamedTuple):
    """A function: the path of its module in the crate, what the prover calls the block of its methods, and its name."""
    module: str
    owner: str
    name: str

    @property
    def path(self) -> str:
        """How the name ends by which the prover knows it."""
        return "::".join(part for part in (self.owner or self.module, self.name) if part)


class Mutant(NamedTuple):
    crate: str
    name: str
    is_gated: bool
    # The text of the edit, as the kit reads it.
    text: str

    def __str__(self) -> str:
        return f"{self.crate}/{self.name}"

    def parts(self) -> tuple[str, str, str]:
        """The file in the crate, the old text and the new one."""
        file, old, new = (line.partition(": ")[2] for line in self.text.splitlines())
        return file, old, new

    def is_one_change(self) -> bool:
        """Whether it changes one text, which stands once in its file."""
        if [line.partition(": ")[0] for line in self.text.splitlines()] != ["file", "old", "new"]:
            return False
        file, old, new = self.parts()
        return old != new and (TOP / "crates" / self.crate / file).read_text(encoding="utf-8").count(old) == 1

    def function(self) -> Function | None:
        """The function that it changes, or None where that is a constant, a macro or another item."""
        file, old, _ = self.parts()
        source = (TOP / "crates" / self.crate / file).read_text(encoding="utf-8")
        place = source.index(old)
        found = [match for match in FUNCTION.finditer(source, 0, place + len(old))]
        if not found or re.search(f"^{found[-1][1]}}}", source[found[-1].end():place], re.MULTILINE):
            return None
        module = "::".join(part for part in file[len("src/"):-len(".rt")].split("/") if part not in ("lib", "main"))
        owner = [block[2] + re.sub(r"\w+::|'\w+|\W", "", block[1] or "") for block in BLOCK.finditer(source)
                 if block.start() < place < block.end()]
        return Function(module, owner[-1] if owner and found[-1][1] else "", found[-1][2])


def listed_in(crate: str) -> Iterator[Mutant]:
    """The mutants of a crate."""
    text = (TOP / f"crates/{crate}/must-fail/mutants.md").read_text(encoding="utf-8")
    for name, lines in re.findall(r"^## (.*)\n((?: {4}.*\n)*)", text, re.MULTILINE):
        is_gated = name.endswith(GATE)
        text = re.sub("^ {4}", "", lines, flags=re.MULTILINE)
        yield Mutant(crate, name[:-len(GATE)] if is_gated else name, is_gated, text)


def read_mutants() -> list[Mutant]:
    """All mutants, by crate and name."""
    return sorted(mutant for path in TOP.glob("crates/*/must-fail/mutants.md") for mutant in listed_in(path.parts[-3]))


def write_list(crate: str, mutants: list[Mutant]) -> None:
    """Writes the list of a crate, by name."""
    entries = [f"## {mutant.name}{GATE * mutant.is_gated}\n" +
               re.sub("^", "    ", mutant.text.rstrip("\n"), flags=re.MULTILINE) + "\n" for mutant in sorted(mutants)]
    heading = (f"# Mutants of {crate}\n\n`tests/mutants --all {crate}` tries them. `tests/mutants --gate {crate}/NAME` "
               f"marks one for the gate.\n")
    (TOP / f"crates/{crate}/must-fail/mutants.md").write_text("\n".join([heading, *entries]), encoding="utf-8")


def mark(names: set[str], is_gated: bool) -> None:
    """Has the gate try the mutants with these names, or leave them out."""
    mutants = [mutant._replace(is_gated=is_gated) if str(mutant) in names else mutant for mutant in read_mutants()]
    for crate in {name.partition("/")[0] for name in names}:
        write_list(crate, [mutant for mutant in mutants if mutant.crate == crate])
