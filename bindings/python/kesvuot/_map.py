"""The map of a file: a page of HTML that shows its parts to scale, and where they are in memory."""

from __future__ import annotations

import json
import os
import pkgutil
from typing import Any, Dict, Iterable, Iterator, List, NamedTuple, Optional

from ._case import is_same
from ._check import NO_VERDICT, REFUSED, Choice, Outcome
from ._explanation import Explanation, Part as FilePart
from ._files import File, Refused
from ._named import file_of, judge_named
from ._names import size_text
from ._output import STANDARD_OUTPUT, Output, WriteFailed, say
from ._pages import PAGES
from ._parts import Part, parts_of
from ._reading import Contents
from ._paths import shown
from ._reports import reason_text, rule_text, section
from ._rules import RULES
from ._stories import Told, told_of

# The page, and where in it the map is put.
PAGE, PLACE = "map.html", "@MAP@"
# A page with more parts than this would keep a browser busy. Those of these kinds are drawn first.
PART_LIMIT = 100_000
FIRST_KINDS = frozenset(("slice", "slice not read", "segment", "headers", "unclaimed", "broken walk"))


class Marks(NamedTuple):
    """The index of the part that breaks the rule, and of that with which it conflicts, or in which it should lie. Of
    each there is one or none."""

    broken: List[int]
    others: List[int]


class Mapped(NamedTuple):
    """The parts of a file, how many bytes of it were read, and what is told of it if it was refused."""

    parts: List[Part]
    size: int
    told: Optional[Told] = None


def map_file(name: str, profile: str, target: str, most_unpacked: int) -> int:
    """Writes the map of a file by its name, and returns the status. For a file without a verdict there is none."""
    path = file_of(name)
    if _is_same(path, target):
        say(f"{shown(target)}: the map would replace the file")
        return Outcome(path, NO_VERDICT).status
    outcome = judge_named(name, Choice(
        profile, walks=False, extra=_mapped, of_refused=_mapped_refused, most_unpacked=most_unpacked))
    if outcome.extra is None:
        # A compressed member has not been unpacked.
        say(f"{shown(outcome.path)}: {outcome.reason if outcome.word == NO_VERDICT else reason_text(outcome)}")
    else:
        _write(target, page_of(outcome, profile))
    return outcome.status


def _mapped(file: File) -> Mapped:
    return Mapped(parts_of(file.data, file), len(file.data))


def _mapped_refused(data: Contents, refused: Refused) -> Mapped:
    return Mapped(parts_of(memoryview(data)), len(data), told_of(data, refused))


def _is_same(path: str, target: str) -> bool:
    try:
        return target != STANDARD_OUTPUT and path != "-" and os.path.samefile(path, target)
    except OSError:
        # One of them is not there.
        return False


def _write(target: str, text: Iterable[str]) -> None:
    if target == STANDARD_OUTPUT:
        output = Output("utf-8")
        for piece in text:
            output.write(piece)
        output.flush()
        return
    try:
        with open(target, "w", encoding="utf-8", errors="backslashreplace") as page:
            page.writelines(text)
    except OSError as error:
        raise WriteFailed(f"{shown(target)}: {error.strerror}") from error


def page_of(outcome: Outcome, profile: str) -> Iterator[str]:
    """The page, in pieces."""
    before, _, after = (pkgutil.get_data(__package__, PAGE) or b"").decode("utf-8").partition(PLACE)
    parts: List[Part] = outcome.extra.parts
    told = outcome.extra.told
    marks = marks_of(told.case.explanation, parts, outcome.extra.size) if told else Marks([], [])
    kept = _kept(parts, marks)
    yield before
    yield from _json(_object(outcome, profile, marks, kept), [parts[number] for number in kept])
    yield after


def _kept(parts: List[Part], marks: Marks) -> List[int]:
    """The indices of the parts that are drawn."""
    if len(parts) <= PART_LIMIT:
        return list(range(len(parts)))
    marked = {*marks.broken, *marks.others}
    ranked = sorted(range(len(parts)), key=lambda number: 0 if number in marked else
                    1 if parts[number].kind in FIRST_KINDS else 2)
    return sorted(ranked[:PART_LIMIT])


def _json(whole: Dict[str, Any], parts: List[Part]) -> Iterator[str]:
    """An object with its parts, without a `<`, which could end the element that it is in."""
    yield escaped(json.dumps(whole)[:-1] + ', "parts": [')
    for number, part in enumerate(parts):
        yield (",\n" if number else "\n") + escaped(json.dumps(_part_object(part, whole["size"])))
    yield "]}"


def escaped(text: str) -> str:
    """A text of JSON, with another spelling of each `<`."""
    return text.replace("<", "\\u003c")


def _object(outcome: Outcome, profile: str, marks: Marks, kept: List[int]) -> Dict[str, Any]:
    whole = {"file": shown(outcome.path), "size": outcome.extra.size, "size_text": size_text(outcome.extra.size),
             "profile": profile, "verdict": outcome.word, "left_out": len(outcome.extra.parts) - len(kept)}
    if outcome.word == REFUSED:
        rule = RULES[outcome.rule]
        places = {number: place for place, number in enumerate(kept)}
        broken, others = ([places[number] for number in some if number in places] for some in marks)
        told = outcome.extra.told
        whole.update(verdict=reason_text(outcome), rule=outcome.rule, place=outcome.place, text=rule_text(outcome.rule),
                     says=told.story.says if told else "", why=rule.why, cause=rule.cause, remedy=rule.remedy,
                     received=rule.received,
                     link=PAGES.shared(section(outcome.rule)), broken=broken, others=others,
                     readings=[reading._asdict() for reading in told.story.readings] if told else [])
    return whole


def _part_object(part: Part, size: int) -> Dict[str, Any]:
    """A part, with its places as far as they are in the file. Addresses are hexadecimal, because numbers of JavaScript
    have only 53 bits."""
    start, end = min(part.start, size), min(part.start + part.size, size)
    whole: Dict[str, Any] = {"kind": part.kind, "name": part.name, "column": part.column, "start": start, "end": end}
    if part.start + part.size > size:
        whole["claims"] = f"{part.start:#x} up to {part.start + part.size:#x}"
    if part.slice is not None:
        whole["slice"] = part.slice
    if part.described is not None:
        whole["described"] = part.described
    if part.memory:
        whole.update(address=f"{part.address:#x}", memory=f"{part.memory:#x}")
    if part.note:
        whole["note"] = part.note
    return whole


# The parts that conflict


def marks_of(explanation: Explanation, parts: List[Part], size: int) -> Marks:
    """What is marked in a refused file of this many bytes. In place of a part that is not drawn, because it has neither
    bytes of the file nor addresses, the command or the entry that describes it is marked."""
    marks = _marks_of(explanation, parts, size)
    broken, others = ([it for number in some for it in _drawn(number, parts, size)] for some in marks)
    return Marks(broken, sorted(set(others) - set(broken)))


def _marks_of(explanation: Explanation, parts: List[Part], size: int) -> Marks:
    it = explanation
    # The parts before and after a byte have nothing to do with it, nor has that with the base, from which an entry
    # counts, with the entry.
    is_base = it.first and it.first.kind == "segment-memory" and it.first.described != it.at.described
    if it.at.kind == "byte":
        return Marks(_holding(it.at.start, parts, size), [])
    broken = [] if is_base else _same(it.first, parts)
    broken = broken or _same(it.at, parts) or _holding(it.at.start, parts, size)
    return Marks(broken, sorted(set(_same(it.second, parts)) - set(broken)))


def _drawn(number: int, parts: List[Part], size: int) -> List[int]:
    part = parts[number]
    if part.start < min(part.start + part.size, size) or _is_in_memory(part, parts):
        return [number]
    return [] if part.described is None else _holding(part.described, parts, size)


def _is_in_memory(part: Part, parts: List[Part]) -> bool:
    """Whether the address space shows a part: a segment with addresses, or a section in one."""
    ends = (part.address, part.address + part.memory - 1)
    return part.memory > 0 and any(
        it.kind == "segment" and it.slice == part.slice and it.address <= end < it.address + it.memory
        for it in parts for end in ends)


def _same(wanted: Optional[FilePart], parts: List[Part]) -> List[int]:
    return [] if wanted is None else [number for number, part in enumerate(parts) if is_same(part, wanted)][:1]


def _holding(place: int, parts: List[Part], size: int) -> List[int]:
    """The least part with bytes of the file that has a place: of some of one size the last, as of bytes that are all of
    a gap."""
    holding = [number for number, part in enumerate(parts)
               if part.start < size and part.start <= place < part.start + part.size]
    return [min(holding, key=lambda number: (parts[number].size, -number))] if holding else []
