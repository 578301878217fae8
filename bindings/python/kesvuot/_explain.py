"""Why a file is refused, as a colleague would say it; or what was not judged of an accepted one."""

from __future__ import annotations

import json
import shlex
import sys
import textwrap
from functools import partial
from typing import Any, Dict, Iterator, List, Optional, Tuple

from ._archives import HEAD_SIZE, TAR, ZIP, archive_kind
from ._case import Case
from ._check import ACCEPTED, NO_VERDICT, REFUSED, Choice, Outcome
from ._dump import Mark, dump
from ._command_stories import HELD
from ._explanation import Part as FilePart
from ._files import ARCHITECTURES, File, Image
from ._named import judge_named
from ._names import command_name
from ._output import GREEN, RED, Output, coloured, say
from ._pages import PAGES, see
from ._parts import image_parts, slices_of
from ._profiles import PROFILES, later
from ._paths import SEPARATOR, shown
from ._reports import check_object, reason_text, rule_text, section
from ._rules import RULES
from ._stories import Told, told_of
from ._structures import LISTED, size_of
from .constants import LC_THREAD, LC_UNIXTHREAD

# The form of the object of JSON (docs/explain.schema.json). A field may be added without a new version.
EXPLAIN_VERSION = 1
# Texts are at most so wide. What is shown of bytes may be wider.
WIDTH = 80
# The name of a row is at most so wide.
NAME_WIDTH = 40
# So many bytes are shown of a command with a name, and before and after bytes that are no structure.
SHOWN_OF_COMMAND, SHOWN_BEFORE, SHOWN_AFTER = 128, 16, 32
MEMORY = frozenset(("segment-memory", "section-memory"))

# What is said to whoever made a file, and to whoever received it.
REMEDIES, THE_SAME = ("What to do", "If you received the file"), "the same."
# The names of the kinds of archives, and the end of the name of a compressed image.
KINDS, OF_A_MACH_O = {ZIP: "zip archive", TAR: "tar archive"}, " of a Mach-O"
# How many names of what is not judged are shown.
MOST_NAMES = 20
# The tables whose contents each profile judges in part, and those whose contents the linked profile judges.
JUDGED_TABLES = {"symbols", "strings", "indirect symbols"}
JUDGED_BY_LINKED = {"rebase opcodes", "bind opcodes", "weak bind opcodes", "lazy bind opcodes", "chained fixups",
                    "export trie", "exports trie", "function starts", "data in code", "code signature",
                    "external relocations", "local relocations"}
# The commands of no rule of rules/layout.md that it judges.
COMMANDS_OF_LINKED = {LC_THREAD, LC_UNIXTHREAD, *HELD}

Rows = List[Tuple[str, ...]]


def explain_file(name: str, profile: str, as_json: bool, most_unpacked: int) -> int:
    """Prints the explanation of a file by its name, and returns the status."""
    output = Output()
    outcome = _with_kind(judge_named(name, Choice(
        profile, walks=False, extra=partial(_not_judged, profile), of_refused=told_of, most_unpacked=most_unpacked)))
    if as_json:
        output.write(json.dumps(_object(outcome, profile), indent=1) + "\n")
    elif outcome.word == NO_VERDICT:
        say(f"{shown(outcome.path)}: {outcome.reason}")
    else:
        for line in (_accepted if outcome.word == ACCEPTED else _refused)(outcome, profile):
            output.write(f"{line}\n")
    output.flush()
    return outcome.status


def _with_kind(outcome: Outcome) -> Outcome:
    """The outcome of a file, with its kind if it is an archive or compressed."""
    told: Optional[Told] = outcome.extra if outcome.word == REFUSED else None
    if not told or outcome.rule != "magic" or SEPARATOR in outcome.path:
        return outcome
    kind = archive_kind(outcome.path, bytes(told.case.data[:HEAD_SIZE]))
    return outcome._replace(kind=KINDS.get(kind, kind)) if kind else outcome


# Accepted files


def _not_judged(profile: str, file: File) -> Rows:
    """What was not judged: rows of what it is in, and what it is."""
    rows: Rows = [(f"profile {other}", PROFILES[other].adds) for other in later(profile)]
    kinds = [part for part in slices_of(file.data) if part.kind in ("slice", "slice not read")]
    for part, found in zip(file.slices, kinds):
        name = f"slice {part.index} ({part.arch})"
        if not isinstance(part, Image):
            rows.append((name, "all that is in it, because it is no 64-bit little-endian image"))
            continue
        judged = {*LISTED, *(COMMANDS_OF_LINKED if _is_linked(profile) else ())}
        commands = [command_name(command.cmd) for command in part.commands if command.cmd not in judged]
        if commands:
            rows.append((name, f"the fields of {_enumerated(commands)}"))
        tables = [it.name for it in image_parts(file.data, found, part) if _is_left(it.kind, it.name, profile)]
        if tables:
            rows.append((name, f"the contents of {_enumerated(tables)}"))
    return rows


def _is_linked(profile: str) -> bool:
    """Whether the profile has the rules of the linked one."""
    return "linked" not in later(profile)


def _enumerated(names: List[str]) -> str:
    """Names, each once, or the first of them."""
    different = list(dict.fromkeys(names))
    more = [f"{len(different) - MOST_NAMES} more"] if len(different) > MOST_NAMES else []
    return ", ".join([*different[:MOST_NAMES], *more])


def _is_left(kind: str, name: str, profile: str) -> bool:
    """Whether the contents of a part are not judged."""
    judged = JUDGED_TABLES | (JUDGED_BY_LINKED if _is_linked(profile) else set())
    if kind == "relocations":
        return not _is_linked(profile)
    return kind == "encrypted range" or (kind == "table" and name not in judged)


def _accepted(outcome: Outcome, profile: str) -> Iterator[str]:
    yield f"{shown(outcome.path)}: {coloured(ACCEPTED, GREEN, sys.stdout)}, by the profile {profile}"
    yield ""
    if outcome.extra:
        yield "Not judged:"
    for name, what in outcome.extra:
        yield from _wrapped(f"{name}: {what}", "  ", "    ")
    page = PAGES.link(PROFILES[profile].leaves)
    if page:
        yield from _wrapped(f"See {page} for what is not judged in any file.", "")


def _wrapped(text: str, first: str, rest: Optional[str] = None) -> List[str]:
    return textwrap.wrap(text, WIDTH, initial_indent=first, subsequent_indent=first if rest is None else rest,
                         break_long_words=False, break_on_hyphens=False)


# Refused files


def _refused(outcome: Outcome, _profile: str) -> Iterator[str]:
    reason = reason_text(outcome).partition(":")
    yield f"{shown(outcome.path)}: {coloured(reason[0], RED, sys.stdout)}:{reason[2]}"
    told: Optional[Told] = outcome.extra
    if told:
        yield ""
        yield from _wrapped(told.story.says, "")
        if told.case.counts_from_slice:
            yield from _wrapped(f"Offsets in fields count from the start of the slice, {told.case.slice.start:#x}.", "")
        yield ""
        yield from _table(_rows(told))
        for heading, start, end, marks in _dumps(told):
            yield ""
            yield f"{heading}:"
            yield ""
            yield from (f"  {line}" for line in dump(told.case.data, start, end, marks))
    yield ""
    yield from _texts(outcome, told)


def _texts(outcome: Outcome, told: Optional[Told]) -> Iterator[str]:
    """What the page says of the rule."""
    rule = RULES[outcome.rule]
    for text in (rule_text(outcome.rule), f"Why: {rule.why}", f"Usual cause: {rule.cause}",
                 *map(": ".join, zip(REMEDIES, _remedies(outcome))), f"How to look: {rule.look}"):
        yield from _wrapped(text, "")
    yield ""
    yield from (f"  {line}" for line in lines_to_look(outcome, told))
    page = PAGES.link(section(outcome.rule))
    if page:
        yield ""
        yield see(page).strip()


def _remedies(outcome: Outcome) -> Tuple[str, str]:
    """What whoever made the file can do, and whoever received it: of an archive, to judge what is in it."""
    name = shlex.quote(outcome.path) if outcome.path.isprintable() else "FILE"
    if outcome.kind in KINDS.values():
        return f"the file is an archive. Its members are judged by: kesvuot check {name}", THE_SAME
    compression = (outcome.kind or "").partition(OF_A_MACH_O)
    if compression[1]:
        return f"unpack the file, and judge what is in it: {compression[0]} -dc {name} | kesvuot check -", THE_SAME
    return RULES[outcome.rule].remedy, RULES[outcome.rule].received


def lines_to_look(outcome: Outcome, told: Optional[Told]) -> List[str]:
    """The lines of a shell, for this file and place. For a slice llvm-objdump gets the architecture."""
    path = outcome.path if not outcome.path.startswith("-") else f"./{outcome.path}"
    lines = [line.replace("PLACE", f"{outcome.place:#x}") for line in RULES[outcome.rule].lines]
    if told and told.case.arch in ARCHITECTURES.values():
        lines = [line.replace("llvm-objdump --macho", f"llvm-objdump --macho --arch={told.case.arch}")
                 for line in lines]
    is_plain = outcome.path != "-" and path.isprintable()
    return [line.replace("FILE", shlex.quote(path)) for line in lines] if is_plain else lines


def _rows(told: Told) -> Rows:
    """Where the place is, which parts are in conflict, and which numbers are compared."""
    it = told.case.explanation
    rows: Rows = [("offset", ", ".join([f"{told.case.place:#x}", *(name for name, _ in _holders(told.case))]))]
    second = None if it.second == it.first else it.second
    rows += [(name, _range(part)) for name, part in zip(told.case.names, (it.first, second)) if part]
    return rows + [(name, f"{number:#x}") for name, number in told.story.numbers]


def _holders(case: Case) -> Iterator[Tuple[str, FilePart]]:
    """The slice that the place is about, and the command, the section and the symbol in which it lies."""
    it = case.explanation
    if it.slice is not None:
        part = case.slice
        yield (f"slice {it.slice} ({case.arch or part.name})",
               FilePart("slice", it.slice, part.start, part.size, part.described or 0))
    if it.command is not None:
        part = next((it for it in case.parts if it.kind == "command" and it.start <= case.place < it.start + it.size),
                    None)
        command = FilePart("command", it.command, part.start, part.size, part.start) if part else it.at
        yield case.name(command), command
    if it.section is not None or it.symbol is not None:
        yield case.name(it.at), it.at


def _table(rows: Rows) -> Iterator[str]:
    """Rows of a name and a text. A long name has lines of its own."""
    width = max(len(name) for name, _ in rows if len(name) <= NAME_WIDTH)
    for name, text in rows:
        if len(name) > NAME_WIDTH:
            yield from _wrapped(name, "  ", "    ")
            name = ""
        yield from _wrapped(text, f"  {name:{width}}  ", " " * (width + 4))


def _range(part: FilePart) -> str:
    """The bytes of a part, its addresses, or the symbols that it has."""
    what = "addresses" if part.kind in MEMORY else "symbols" if part.kind == "group" else "bytes"
    if not part.size:
        return f"no {what}"
    return f"{what} {part.start:#x} up to {part.end:#x}"


def _dumps(told: Told) -> Iterator[Tuple[str, int, int, List[Mark]]]:
    """What is shown of the bytes: a heading, where they begin and end, and what is marked. What is at the place comes
    first, then each other structure whose fields the rule reads, and then what else the sentence is about."""
    case, left = told.case, list(told.story.marks)
    at = case.explanation.at
    if not any(spot.start == at.start for spot in case.spots):
        yield _bytes_at(Mark(at.start, at.size, case.name(at)))
    for spot in case.spots:
        end = spot.start + size_of(spot.structure)
        if case.rule == "name" and spot.start == at.start:
            end = min(max(end, at.end), spot.start + SHOWN_OF_COMMAND)
        near = [mark for mark in left if spot.start <= mark.start < spot.start + SHOWN_OF_COMMAND]
        left = [mark for mark in left if mark not in near]
        fields = [Mark(place, size, f'{name} "{value}"' if isinstance(value, str) else f"{name} {value:#x}")
                  for name, place, size, value in case.fields(spot)]
        yield (f"{spot.structure} at {spot.start:#x}", spot.start, max(end, *(mark.start + mark.size for mark in near), 0),
               fields + near)
    yield from map(_bytes_at, left)


def _bytes_at(mark: Mark) -> Tuple[str, int, int, List[Mark]]:
    """Bytes that are in no structure, with some around them."""
    return f"bytes at {mark.start:#x}", max(mark.start - SHOWN_BEFORE, 0), mark.start + SHOWN_AFTER, [mark]


# JSON


def _object(outcome: Outcome, profile: str) -> Dict[str, Any]:
    whole = {"schema": "kesvuot-explain", "version": EXPLAIN_VERSION, "profile": profile, **check_object(outcome)}
    if outcome.word == ACCEPTED:
        whole["not_judged"] = [{"part": part, "what": what} for part, what in outcome.extra]
    elif outcome.rule:
        rule, told, remedies = RULES[outcome.rule], outcome.extra, _remedies(outcome)
        whole.update(why=rule.why, cause=rule.cause, remedy=remedies[0], received=remedies[1], look=rule.look,
                     lines=lines_to_look(outcome, told), explanation=told and _told_object(told))
    return whole


def _told_object(told: Told) -> Dict[str, Any]:
    case, it = told.case, told.case.explanation
    holders = {part.kind: _part_object(case, part) for _, part in _holders(case)}
    return {"says": told.story.says, "at": _part_object(case, it.at), "first": _part_object(case, it.first),
            "second": _part_object(case, it.second), "value": it.value, "limit": it.limit,
            **{name: holders.get(name) for name in ("slice", "command", "section", "symbol")},
            "numbers": [{"name": name, "value": number} for name, number in told.story.numbers],
            "fields": [{"structure": spot.structure, "name": name, "place": place, "size": size, "value": value}
                       for spot in case.spots for name, place, size, value in case.fields(spot)],
            "marks": [{"name": mark.name, "place": mark.start, "size": mark.size} for mark in told.story.marks]}


def _part_object(case: Case, part: Optional[FilePart]) -> Optional[Dict[str, Any]]:
    if part is None:
        return None
    structure = case.structure(part)
    return {"kind": part.kind, "name": case.name(part), "start": part.start, "size": part.size,
            "structure": structure and structure[0], "described": part.described, "index": part.index}
