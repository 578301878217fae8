"""The files of definitions that docs/audit/assumptions.md lists, and those that the contracts of the verdicts reach."""

from __future__ import annotations

import re
from pathlib import Path
from typing import Dict, Iterator, List, NamedTuple, Set, Tuple

from .calling import TOP

PAGE = TOP / "docs/audit/assumptions.md"
# The groups of the page that a verdict reaches, with the crate of the verdict.
VERDICTS = {"the layout": "macho_rules", "strict": "macho_strict", "linked": "macho_linked",
            "unambiguous": "macho_unambiguous", "sealed": "macho_sealed"}
# The line with which a definition begins. Fields of a record are indented further.
BEGINS = re.compile(
    r"(?P<indent> *)(?:(?:abbrev|unfoldable|pub|private) )*(?P<kind>(?:record|data) )?(?P<name>[^\s:({]+)")
# A crate, a file of its specs, and a name there.
Place = Tuple[str, str, str]


def listed() -> Iterator[Tuple[str, List[Path]]]:
    """The groups of the table of the page, each with its files."""
    group, files = "", []
    for line in PAGE.read_text(encoding="utf-8").splitlines():
        heading = re.match(r"\| \*\*(.*)\*\* \|", line)
        named = re.match(r"\| `(\w+/specs/)(\w*)`([^|]*)\|", line)
        if heading or group and not line.startswith("|"):
            if files:
                yield group, files
            group, files = heading[1] if heading else "", []
        elif group and named:
            names = [named[2]] if named[2] else re.findall(r"`(\w+)`", named[3])
            files += [TOP / "crates" / f"{named[1]}{name}.antt" for name in names]


class Definitions(NamedTuple):
    """What a file of specs/ imports, and the text of each definition in it."""

    imports: Dict[str, Place]
    texts: Dict[str, str]


def imports_of(text: str) -> Dict[str, Place]:
    uses = re.findall(r"^(?:pub |ghost )?use Rattle\.(\w+)\.specs\.(\w+)\.\{([^}]*)\}", text, re.MULTILINE)
    names = [(crate, file, *name.split(" as ")) for crate, file, names in uses for name in names.split(", ")]
    return {name[-1]: (name[0], name[1], name[2]) for name in names}


def texts_of(text: str) -> Dict[str, str]:
    """The texts of the definitions. One whose name comes again, such as its clauses, has all of them."""
    texts: Dict[str, str] = {}
    name, record = "", None
    for line in re.sub("--.*", "", text).splitlines():
        begins = re.match(BEGINS, line)
        if begins and record is not None and len(begins["indent"]) <= record:
            record = None
        if begins and record is None and re.match(r" *(abbrev|unfoldable|pub|private|record|data) ", line):
            name = begins["name"]
            record = len(begins["indent"]) if begins["kind"] else None
        texts[name] = f"{texts.get(name, '')}{line}\n"
    return texts


def reached(crate: str) -> Set[Path]:
    """The files whose definitions the contract of the verdict of a crate reaches."""
    verdict = (TOP / f"crates/{crate}/src/verdict.rt").read_text(encoding="utf-8")
    contract = re.search(r"^pub fn verify.*?^\{", verdict, re.MULTILINE | re.DOTALL)[0]
    known: Dict[Path, Definitions] = {}
    waiting = names_in(contract, imports_of(verdict))
    seen = set(waiting)
    files = set()
    while waiting:
        crate, file, name = waiting.pop()
        path = TOP / f"crates/{crate}/specs/{file}.antt"
        if not path.exists():
            continue
        if path not in known:
            text = path.read_text(encoding="utf-8")
            known[path] = Definitions(imports_of(text), texts_of(text))
        imports, texts = known[path]
        here = {other: (crate, file, other) for other in texts}
        if name in texts:
            files.add(path)
            found = names_in(texts[name], {**imports, **here})
        else:
            # A name that the file passes on.
            found = [imports[name]] if name in imports else []
        waiting += [place for place in found if place not in seen]
        seen.update(found)
    return files


def names_in(text: str, places: Dict[str, Place]) -> List[Place]:
    words = set(re.findall(r"[^\s(){},.\[\]]+", text))
    return [place for name, place in places.items() if name in words]
