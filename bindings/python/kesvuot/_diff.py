"""What of two files differs, in words: their layouts, and what is in their sections, exports, symbols and signatures."""

from __future__ import annotations

import json
import sys
from hashlib import sha256
from itertools import zip_longest
from struct import unpack_from
from typing import Any, Dict, Iterator, List, NamedTuple

from ._check import ACCEPTED, NO_VERDICT, Choice, Outcome, Target, judge
from ._entitlements import Unreadable, entitlement_values
from ._files import File, Image, Slice
from ._layout import cdhashes_of, exports_of, libraries_of, signatures_of
from ._names import (
    FILETYPES, LIBRARIES, command_name, count_text, plain, platform_name, protection_text, version_text)
from ._output import GREEN, RED, Output, coloured, say
from ._paths import file_object, shown
from ._reports import check_object, reason_text
from ._rows import Command
from ._show import signature_text
from ._structures import LISTED, STRUCTURES, number_in, structure_of
from ._symbols import SymbolKind
from .constants import (
    LC_BUILD_VERSION, LC_CODE_SIGNATURE, LC_DYSYMTAB, LC_ID_DYLIB, LC_MAIN, LC_SEGMENT_64, LC_SYMTAB, LC_UUID,
    LC_VERSION_MIN_IPHONEOS, LC_VERSION_MIN_MACOSX, LC_VERSION_MIN_TVOS, LC_VERSION_MIN_WATCHOS)

# The form of the object of JSON (docs/diff.schema.json). A field may be added without a new version.
DIFF_VERSION = 1

SAME, DIFFERENT, NOT_COMPARED = range(3)
# Those of which fields are compared, and not all bytes.
READ = {LC_SEGMENT_64, LC_UUID, LC_BUILD_VERSION, LC_MAIN, LC_VERSION_MIN_MACOSX, LC_VERSION_MIN_IPHONEOS,
        LC_VERSION_MIN_TVOS, LC_VERSION_MIN_WATCHOS, *LIBRARIES}
# All but cmd and cmdsize.
FIELDS = {cmd: [field.name for field in STRUCTURES[LISTED[cmd]][2:]] for cmd in (LC_SYMTAB, LC_DYSYMTAB)}
# The first fields of each command, and the bytes of its greatest number.
HEAD, POINTER_SIZE = ("cmd", "cmdsize"), 8
# So many bytes of a command are shown, and of a longer one a hash.
SHOWN_BYTES = 40
# The names of symbols have together no more bytes than so many for each byte of the strings. In a hostile file they can
# be far longer.
NAMES_FOR_STRINGS = 4
# What two builds of the same sources differ in.
UUID, SIGNATURE = "uuid", "signature"
# The kinds of facts that are counted where only addresses differ.
MANY = {"export": "exports", "symbol": "symbols"}
OTHER_FIELDS = "other fields of the header or the load commands"


class Fact(NamedTuple):
    """Something that is compared: its kind, its name, and its value. Of a section, an export or a symbol `place` is
    where it is, and of a section `content` is a hash of what is in it."""

    kind: str
    name: str
    value: str
    place: str = ""
    content: str = ""

    @property
    def whole(self) -> str:
        return f"{self.value}, {self.place}" if self.place else self.value


class Layout(NamedTuple):
    """What is compared of a slice: facts; a hash of its headers; and one of its bytes without its UUID and signature."""

    facts: List[Fact]
    headers: bytes
    rest: bytes


class Side(NamedTuple):
    """A file: its slices by their architectures, and a hash of all bytes."""

    slices: Dict[str, Layout]
    digest: bytes


class Change(NamedTuple):
    """What differs: what it is, and its value on both sides, empty where it is not there. `says` are the words for a
    change that is no other value, such as of a section that only moved."""

    kind: str
    what: str
    one: str
    other: str
    says: str = ""

    def lines(self) -> Iterator[str]:
        if self.says:
            yield f"{self.what} {self.says}"
            return
        if self.one:
            yield f"- {self.what}: {self.one}"
        if self.other:
            yield f"+ {self.what}: {self.other}"


def diff(one: str, other: str, profile: str, as_json: bool = False) -> int:
    """Prints what differs, and returns the status: as that of diff(1), and 2 if a file is not accepted."""
    output = Output()
    choice = Choice(profile, walks=False, extra=_side)
    outcomes = [judge(Target(path), choice) for path in (one, other)]
    are_accepted = all(outcome.word == ACCEPTED for outcome in outcomes)
    slices = _differences(*(outcome.extra.slices for outcome in outcomes)) if are_accepted else {}
    if as_json:
        output.write(json.dumps(_object(outcomes, profile, slices), indent=1) + "\n")
    elif are_accepted:
        for line in list(_lines(slices)) or [_same(outcomes)]:
            output.write(f"{_coloured(line)}\n")
    for outcome in outcomes if not as_json else ():
        if outcome.word != ACCEPTED:
            say(f"{shown(outcome.path)}: {outcome.reason if outcome.word == NO_VERDICT else reason_text(outcome)}")
    output.flush()
    return NOT_COMPARED if not are_accepted else DIFFERENT if slices else SAME


def _same(outcomes: List[Outcome]) -> str:
    return "the layouts are the same, and " + ("so are all bytes" if _has_same_bytes(outcomes) else "other bytes differ")


def _has_same_bytes(outcomes: List[Outcome]) -> bool:
    return len({outcome.extra.digest for outcome in outcomes}) == 1


def _coloured(line: str) -> str:
    colour = {"  -": RED, "- ": RED, "  +": GREEN, "+ ": GREEN}
    return next((coloured(line, it, sys.stdout) for start, it in colour.items() if line.startswith(start)), line)


def _lines(slices: Dict[str, List[Change]]) -> Iterator[str]:
    """The words: one line for each slice that differs in what two builds differ in, or in what signing changes."""
    for name, changes in slices.items():
        kinds = {change.kind for change in changes}
        if name and kinds <= {UUID, SIGNATURE}:
            alone = " and ".join(word for kind, word in ((UUID, "UUID"), (SIGNATURE, "signature")) if kind in kinds)
            yield f"slice {name}: the two differ in {alone} alone"
            continue
        if name:
            yield f"slice {name}:"
        yield from (f"{'  ' if name else ''}{line}" for change in changes for line in change.lines())


def _object(outcomes: List[Outcome], profile: str, slices: Dict[str, List[Change]]) -> Dict[str, Any]:
    are_accepted = all(outcome.word == ACCEPTED for outcome in outcomes)
    files = [file_object(it.path) if are_accepted else check_object(it) for it in outcomes]
    whole: Dict[str, Any] = {"schema": "kesvuot-diff", "version": DIFF_VERSION, "profile": profile, "files": files,
                             "status": NOT_COMPARED if not are_accepted else DIFFERENT if slices else SAME}
    if are_accepted:
        whole.update(same_bytes=_has_same_bytes(outcomes), slices=[
            {"slice": name or None, "changes": [{**change._asdict(), "one": change.one or None,
                                                 "other": change.other or None, "says": change.says or None}
                                                for change in changes]} for name, changes in slices.items()])
    return whole


# What differs


def _differences(one: Dict[str, Layout], other: Dict[str, Layout]) -> Dict[str, List[Change]]:
    """The changes of each slice that both files have, and under an empty name those of the slices themselves."""
    found: Dict[str, List[Change]] = {}
    of_file = [Change("slice", "slice", arch if arch in one else "", arch if arch in other else "")
               for arch in (*one, *other) if (arch in one) != (arch in other)]
    for arch in (arch for arch in one if arch in other):
        changes = list(_changes(one[arch], other[arch]))
        if changes:
            found[arch] = changes
    if list(one) != list(other) and sorted(one) == sorted(other):
        of_file.append(Change("slice", "order of the slices", ", ".join(one), ", ".join(other)))
    return {**found, "": of_file} if of_file else found


def _changes(one: Layout, other: Layout) -> Iterator[Change]:
    changes = list(_changes_of(one.facts, other.facts))
    if {change.kind for change in changes} <= {UUID, SIGNATURE}:
        if not changes and one.headers != other.headers:
            changes.append(Change("command", OTHER_FIELDS, "", "", "differ"))
        elif changes and one.rest != other.rest:
            changes.append(Change("content", "other bytes", "", "", "differ"))
    yield from changes


def _changes_of(one: List[Fact], other: List[Fact]) -> Iterator[Change]:
    values = {fact.name: fact for fact in other}
    names = {fact.name for fact in one}
    moved: Dict[str, int] = {}
    for fact in one:
        if fact.name not in values:
            yield Change(fact.kind, fact.name, fact.whole, "")
            continue
        now = values[fact.name]
        if fact.value != now.value:
            yield Change(fact.kind, fact.name, fact.value, now.value)
        if fact.content != now.content:
            moved_too = f", and moved: {fact.place}, now {now.place}" if fact.place != now.place else ""
            yield Change(fact.kind, fact.name, fact.place, now.place, f"has another content{moved_too}")
        elif fact.value == now.value and fact.place != now.place:
            if fact.kind in MANY:
                moved[fact.kind] = moved.get(fact.kind, 0) + 1
            else:
                yield Change(fact.kind, fact.name, fact.place, now.place, f"only moved: {fact.place}, now {now.place}")
    yield from (Change(fact.kind, fact.name, "", fact.whole) for fact in other if fact.name not in names)
    for kind, count in moved.items():
        yield Change(kind, count_text(count, kind), "", "", "only moved")
    yield from _reordered([fact.name for fact in one if fact.name in values],
                          [fact.name for fact in other if fact.name in names])


def _reordered(one: List[str], other: List[str]) -> Iterator[Change]:
    """The first of what both have that is in another order."""
    for before, after in zip_longest(one, other):
        if before != after:
            yield Change("order", "order", f"{before} comes before {after}", f"{after} comes before {before}")
            return


# What is compared


def _side(file: File) -> Side:
    slices = {part.arch: Layout(_numbered(_facts(part)), _headers(part), _rest(part)) for part in file.slices}
    return Side(slices, sha256(file.data).digest())


def _headers(part: Slice) -> bytes:
    """A hash of the mach_header_64 and the load commands."""
    size = 32 + int.from_bytes(part.bytes[20:24], "little") if isinstance(part, Image) else 0
    return sha256(part.bytes[:size]).digest()


def _rest(part: Slice) -> bytes:
    """A hash of the bytes of a slice without those of its UUID and of its code signature."""
    ranges = []
    for command in part.commands if isinstance(part, Image) else ():
        if command.cmd == LC_UUID:
            ranges.append((command.place + 8, command.place + len(command.bytes)))
        elif command.cmd == LC_CODE_SIGNATURE:
            start, size = (number_in(command.bytes, "linkedit_data_command", name) for name in ("dataoff", "datasize"))
            ranges.append((start, start + size))
    hashed, place = sha256(), 0
    for start, end in sorted(ranges):
        hashed.update(part.bytes[place:start])
        place = max(place, end)
    hashed.update(part.bytes[place:])
    return hashed.digest()


def _numbered(facts: Iterator[Fact]) -> List[Fact]:
    """The facts, each with a name of its own."""
    counts: Dict[str, int] = {}
    numbered = []
    for fact in facts:
        count = counts[fact.name] = counts.get(fact.name, 0) + 1
        numbered.append(fact._replace(name=f"{fact.name} ({count})") if count > 1 else fact)
    return numbered


def _facts(part: Slice) -> Iterator[Fact]:
    """What is compared, in the order of the load commands. All numbers but versions are hexadecimal."""
    if not isinstance(part, Image):
        yield Fact("slice", "slice", f"{part.place:#x} size {len(part.bytes):#x}, not judged")
        return
    yield Fact("slice", "slice", f"{part.place:#x} size {len(part.bytes):#x}")
    yield Fact("header", "filetype", FILETYPES.get(part.filetype, f"{part.filetype:#x}"))
    yield Fact("header", "flags", f"{part.flags:#x}")
    yield Fact(UUID, "uuid", str(part.uuid).upper() if part.uuid else "none")
    for build in part.builds:
        yield Fact("build", f"platform {platform_name(build.platform)}",
                   f"{version_text(build.minos)} or later, SDK {version_text(build.sdk)}")
    yield Fact("entry", "entry", "none" if part.entry is None else f"{part.entry:#x}")
    yield from _facts_of_segments(part)
    for library in libraries_of(part):
        name = "name of the library" if library.cmd == LC_ID_DYLIB else f"library {plain(library.name)}"
        versions = f"version {version_text(library.current)}, compatible {version_text(library.compatible)}"
        yield Fact("library", name, f"{plain(library.name)}, {versions}" if library.cmd == LC_ID_DYLIB else (
            f"{LIBRARIES.get(library.cmd)}, {versions}"))
    yield from _facts_of_commands(part)
    for export in exports_of(part):
        place = "" if export.address is None else f"address {export.address:#x}"
        yield Fact("export", f"export {export.name}", export.what, place)
    yield from _facts_of_symbols(part)
    yield from _facts_of_signature(part)


def _facts_of_commands(image: Image) -> Iterator[Fact]:
    for command in image.commands:
        if command.cmd in FIELDS:
            names = FIELDS[command.cmd]
            yield from (Fact("table", name, f"{number:#x}") for name, number in zip(
                names, unpack_from(f"<{len(names)}I", command.bytes, 8)))
        elif command.cmd not in READ:
            yield Fact("command", command_name(command.cmd), plain(command.name) or _fields_text(command))


def _facts_of_segments(image: Image) -> Iterator[Fact]:
    for segment in image.segments:
        name = plain(segment.name)
        yield Fact("segment", f"segment {name}", (
            f"addresses {segment.vmaddr:#x} size {segment.vmsize:#x}, in the slice {segment.fileoff:#x} size "
            f"{segment.filesize:#x}, {protection_text(segment.initprot)} of {protection_text(segment.maxprot)}"))
        for section in image.sections_of(segment):
            source = "zeros" if section.zero_fill else f"{section.offset:#x} in the slice"
            yield Fact(
                "section", f"section {name},{plain(section.name)}",
                f"size {section.size:#x}, align {_align_text(section.align)}, flags {section.flags:#x}, relocations "
                f"{section.nreloc:#x} at {section.reloff:#x}, reserved {section.reserved1:#x} {section.reserved2:#x}",
                f"address {section.addr:#x}, {source}", sha256(section.bytes).hexdigest())


def _facts_of_symbols(image: Image) -> Iterator[Fact]:
    """The symbols that have names, but for those of debuggers."""
    left = NAMES_FOR_STRINGS * image.symtab.strsize if image.symtab else 0
    for symbol, name in image.symbols_with_names:
        left -= len(name)
        if left < 0:
            yield Fact("symbol", "symbols", "names that are too long together: not all are compared")
            return
        if name and symbol.kind is not SymbolKind.DEBUGGING:
            words = [symbol.kind.value, *(word for word, is_so in (
                ("external", symbol.is_external), ("private", symbol.is_private),
                ("weak definition", symbol.is_weak_definition), ("weak reference", symbol.is_weak_reference)) if is_so)]
            is_place = symbol.kind is SymbolKind.SECTION
            value = ", ".join(words) if is_place else f"{', '.join(words)}, value {symbol.value:#x}"
            yield Fact("symbol", f"symbol {plain(name)}", value, f"address {symbol.value:#x}" if is_place else "")


def _facts_of_signature(image: Image) -> Iterator[Fact]:
    signatures = signatures_of(image)
    if not signatures:
        yield Fact(SIGNATURE, "signature", "none")
    for signature in signatures:
        yield Fact(SIGNATURE, "signature", signature_text(signature))
    for cdhash in cdhashes_of(image):
        yield Fact(SIGNATURE, f"cdhash of slot {cdhash.slot:#x}", f"{cdhash.hash_type} {cdhash.cdhash}")
    try:
        for name, value in entitlement_values(image).items():
            yield Fact(SIGNATURE, f"entitlement {json.dumps(name)[1:-1]}", json.dumps(value))
    except Unreadable as error:
        yield Fact(SIGNATURE, "entitlements", f"cannot be read: {error}")


def _fields_text(command: Command) -> str:
    """The fields of a command, or if it is not known its bytes."""
    fields = STRUCTURES[structure_of(command.cmd, len(command.bytes))]
    if len(fields) > len(HEAD) and all(field.width <= POINTER_SIZE for field in fields):
        rest = fields[len(HEAD):]
        return ", ".join(f"{it.name} {number_in(command.bytes, structure_of(command.cmd, len(command.bytes)), it.name):#x}"
                         for it in rest)
    return _digest(command.bytes[8:])


def _align_text(align: int) -> str:
    """The alignment of a section, whose exponent may be any number."""
    return f"{1 << align:#x}" if align < 64 else f"2^{align:#x}"


def _digest(data: memoryview) -> str:
    """Some bytes, or how many there are and the beginning of their SHA-256."""
    if len(data) <= SHOWN_BYTES:
        return f"bytes {data.hex(' ', 4)}"
    return f"{len(data):#x} bytes, SHA-256 {sha256(data).hexdigest()[:16]}"
