"""What is told of names that fixups bind otherwise than symbols, indirect entries or other fixups say. (loader.h,
nlist.h, fixup-chains.h)"""

from __future__ import annotations

from itertools import islice
from types import SimpleNamespace
from typing import Any, Dict, Iterator, List, NamedTuple, Optional, Tuple

from ._case import cut
from ._library import Bytes
from ._names import ELSEWHERE, LIBRARIES, plain
from ._opcodes import (
    BIND, BIND_SPECIAL_DYLIB_WEAK_LOOKUP, LAZY_BIND, POINTER_SIZE, SPAN, WEAK_BIND, Binds, LazyBinds, OpcodeError)
from ._parts import walk_commands
from ._structures import number_in, size_of
from ._teller import MOST_STEPS, Story, Teller
from .constants import (
    DYNAMIC_LOOKUP_ORDINAL, EXECUTABLE_ORDINAL, LC_DYLD_CHAINED_FIXUPS, LC_DYLD_INFO, LC_DYLD_INFO_ONLY, LC_ID_DYLIB,
    LC_SEGMENT_64, LC_SYMTAB, N_EXT, N_INDR, N_STAB, N_TYPE, S_LAZY_DYLIB_SYMBOL_POINTERS, S_LAZY_SYMBOL_POINTERS,
    S_NON_LAZY_SYMBOL_POINTERS, S_THREAD_LOCAL_VARIABLE_POINTERS, SECTION_TYPE)

# A name is looked for in pieces of so many bytes.
PIECE = 1 << 10
# The streams with binds, in the order in which a loader follows them.
STREAMS = (BIND, LAZY_BIND, WEAK_BIND)
POINTER_TYPES = (
    S_NON_LAZY_SYMBOL_POINTERS, S_LAZY_SYMBOL_POINTERS, S_LAZY_DYLIB_SYMBOL_POINTERS, S_THREAD_LOCAL_VARIABLE_POINTERS)
# The ordinals of symbols, and what ELSEWHERE has for the same library.
OF_SYMBOLS = {EXECUTABLE_ORDINAL: -1, DYNAMIC_LOOKUP_ORDINAL: -2}


class ImportForm(NamedTuple):
    """A format of imports: the bytes of each, the bits of the ordinal, and the first bit of the offset of the name and
    how many these are."""

    size: int
    ordinal: int
    name: int
    name_bits: int


IMPORT_FORMS = {1: ImportForm(4, 8, 9, 23), 2: ImportForm(8, 8, 9, 23), 3: ImportForm(16, 16, 32, 32)}
# Of each format of pointers the bit of a bind, and how many bits the index of the import has.
POINTER_FORMS = {1: (62, 16), 2: (63, 24), 6: (63, 24), 9: (62, 16), 12: (62, 24)}
# The greatest ordinals of imports are below 0.
SPECIAL_ORDINALS = 15


class Bound(NamedTuple):
    """The pointers that an opcode binds: where the opcode is, and the place of its stream among those that a loader
    follows; the number of the segment, and their offsets in it; and what they are bound to. A bind of the weak stream
    has no ordinal."""

    place: int
    stream: int
    segment: int
    offsets: range
    name: bytes
    ordinal: Optional[int]
    addend: int


class LookUp(NamedTuple):
    """What looks a name up: what it is called, the name, and the ordinal of the library."""

    by: str
    name: bytes
    ordinal: Optional[int]


class Linked:
    """The commands of an image that have to do with names, and what they name."""

    def __init__(self, it: Teller) -> None:
        part = it.case.slice
        self.start = part.start
        self.data = it.case.data[part.start:part.start + part.size]
        count, size = (number_in(self.data, "mach_header_64", name) for name in ("ncmds", "sizeofcmds"))
        commands = walk_commands(self.data, count, size_of("mach_header_64") + size).commands
        self.commands = {command.cmd: command.bytes for command in reversed(commands)}
        self.segments = [command.bytes for command in commands if command.cmd == LC_SEGMENT_64]
        self.libraries = [command for command in commands if command.cmd in LIBRARIES and command.cmd != LC_ID_DYLIB]

    # Symbols

    def string(self, place: int) -> bytes:
        """The bytes from an offset of the image up to the first zero byte."""
        name = bytearray()
        for start in range(place, len(self.data), PIECE):
            piece, zero, _ = bytes(self.data[start:start + PIECE]).partition(b"\0")
            name += piece
            if zero:
                break
        return bytes(name)

    def name_at(self, offset: int) -> bytes:
        """The name at an offset of the strings."""
        return self.string(number_in(self.commands[LC_SYMTAB], "symtab_command", "stroff") + offset)

    def symbol(self, index: int) -> memoryview:
        size = size_of("nlist_64")
        start = number_in(self.commands[LC_SYMTAB], "symtab_command", "symoff") + size * index
        return self.data[start:start + size]

    # Opcodes

    def bounds(self) -> Iterator[Bound]:
        """What the opcodes bind, as far as they can be followed."""
        command = self.commands.get(LC_DYLD_INFO_ONLY) or self.commands.get(LC_DYLD_INFO)
        # With a vmaddr of 0 an address is an offset in the segment.
        image = SimpleNamespace(libraries=self.libraries, segments=[
            SimpleNamespace(vmaddr=0, vmsize=number_in(it, "segment_command_64", "vmsize"),
                            filesize=number_in(it, "segment_command_64", "filesize")) for it in self.segments])
        for number, at in enumerate(STREAMS if command else ()):
            kind = LazyBinds if at == LAZY_BIND else Binds
            start, size = SPAN.unpack_from(command, at)
            stream = kind(Bytes(self.data), start, size, image)
            try:
                for offsets, segment in islice(stream.runs(), MOST_STEPS):
                    if offsets:
                        yield Bound(self.start + stream.place, number, segment, offsets, bytes(stream.name),
                                    None if at == WEAK_BIND else stream.ordinal, stream.addend)
            except OpcodeError:
                return

    # Chains

    def chains(self) -> Optional[Chains]:
        command = self.commands.get(LC_DYLD_CHAINED_FIXUPS)
        start = number_in(command, "linkedit_data_command", "dataoff") if command else 0
        return Chains(self, start) if start else None

    def look_ups(self) -> Iterator[LookUp]:
        """The names that fixups look up."""
        for bound in self.bounds():
            yield LookUp(f"the opcode at {bound.place:#x}", bound.name, bound.ordinal)
        chains = self.chains()
        if chains:
            yield from map(chains.look_up, range(min(chains.count, MOST_STEPS)))


class Chains:
    """A table of chained fixups."""

    def __init__(self, linked: Linked, start: int) -> None:
        self.linked, self.start, self.data = linked, start, linked.data[start:]
        self.count = self.number("imports_count")
        self.form = IMPORT_FORMS[self.number("imports_format")]

    def number(self, name: str) -> int:
        return number_in(self.data, "dyld_chained_fixups_header", name)

    def look_up(self, index: int) -> LookUp:
        form = self.form
        start = self.number("imports_offset") + form.size * index
        bits = int.from_bytes(self.data[start:start + form.size], "little")
        ordinal, greatest = bits % (1 << form.ordinal), 1 << form.ordinal
        offset = bits >> form.name & ((1 << form.name_bits) - 1)
        return LookUp(f"import {index}", self.linked.string(self.start + self.number("symbols_offset") + offset),
                      ordinal - greatest if ordinal >= greatest - SPECIAL_ORDINALS else ordinal)

    def bound(self, segment: int, offset: int) -> Optional[bytes]:
        """The name to which a pointer at an offset of a segment is bound."""
        array = self.number("starts_offset")
        entry = array + 4 * (segment + 1)
        starts = array + int.from_bytes(self.data[entry:entry + 4], "little")
        form = POINTER_FORMS.get(number_in(self.data[starts:], "dyld_chained_starts_in_segment", "pointer_format"))
        start = number_in(self.linked.segments[segment], "segment_command_64", "fileoff") + offset
        bits = int.from_bytes(self.linked.data[start:start + POINTER_SIZE], "little")
        if starts == array or form is None or not bits >> form[0] & 1:
            return None
        return self.look_up(bits % (1 << form[1])).name


def _text(name: bytes) -> str:
    """A name as it is shown."""
    return cut(plain(memoryview(name))) or "an empty name"


def _name(name: bytes) -> str:
    return f"the name {_text(name)}" if name else _text(name)


def _library(ordinal: int) -> str:
    return ELSEWHERE.get(ordinal, f"library {ordinal}")


def bind_once(it: Teller) -> Story:
    numbers = "offset in the segment", "number of the segment"
    own, clash = _own_and_clash(it)
    if own is None or clash is None:
        return it.story(f"{it.at} binds pointers of {it.second or 'a segment'} from {it.value:#x} on, and an earlier "
                        "opcode binds one otherwise, or some of its bytes.", *numbers)
    other, at, at_other = clash
    later = own if (own.stream, own.place) > (other.stream, other.place) else other
    if at != at_other:
        return it.story(f"{it.at} binds the pointer at {at:#x} of {it.second}, which shares bytes with the pointer at "
                        f"{at_other:#x} that the opcode at {other.place:#x} binds.", *numbers).read_as(
            "a list of binds", "two whole pointers").read_as(
            "a loader", f"a whole pointer at {at if later is own else at_other:#x} alone")
    words = dict(zip((own, other), _differences(own, other)))
    return it.story(f"{it.at} binds the pointer at {at:#x} of {it.second} to {words[own]}, and the opcode at "
                    f"{other.place:#x} to {words[other]}.", *numbers).read_as(
        "a list of binds", f"{words[other]} and {words[own]}").read_as("a loader", words[later])


def _own_and_clash(it: Teller) -> Tuple[Optional[Bound], Optional[Tuple[Bound, int, int]]]:
    """What the opcode at the place binds; and the first other one before it that binds a pointer otherwise, or some of
    its bytes, with the two pointers."""
    linked = Linked(it)
    own = next((bound for bound in linked.bounds() if bound.place == it.case.place), None)
    if own is None:
        return None, None
    for other in linked.bounds():
        if other.place < own.place and other.segment == own.segment:
            differs = _differs(own, other)
            for at, at_other in _near(own.offsets, other.offsets):
                if differs or at != at_other:
                    return own, (other, at, at_other)
    return own, None


def _differs(one: Bound, other: Bound) -> bool:
    """Whether they bind one pointer to different things."""
    ordinals = {one.ordinal, other.ordinal} - {None}
    return (one.name, one.addend) != (other.name, other.addend) or len(ordinals) > 1


def _differences(*bounds: Bound) -> List[str]:
    """To what they bind a pointer, in the words in which they differ."""
    names = [_text(bound.name) for bound in bounds]
    if names[0] != names[1]:
        return names
    if bounds[0].addend != bounds[1].addend:
        return [f"{name} with the addend {bound.addend}" for name, bound in zip(names, bounds)]
    return [f"{name} from {_library(bound.ordinal or 0)}" for name, bound in zip(names, bounds)]


def _near(one: range, other: range) -> Iterator[Tuple[int, int]]:
    """The pointers at these offsets that share a byte: one of the first, and one of the other."""
    if one[-1] + POINTER_SIZE <= other[0] or other[-1] + POINTER_SIZE <= one[0]:
        return
    few, many = (one, other) if len(one) <= len(other) else (other, one)
    for offset in few:
        before = (offset - many.start) // many.step
        for index in (before, before + 1):
            if 0 <= index < len(many) and abs(many[index] - offset) < POINTER_SIZE:
                yield (offset, many[index]) if few is one else (many[index], offset)


def indirect_name(it: Teller) -> Story:
    linked = Linked(it)
    fields = linked.symbol(it.limit)
    kind, strx = number_in(fields, "nlist_64", "n_type"), number_in(fields, "nlist_64", "n_strx")
    start = number_in(fields, "nlist_64", "n_value") if kind & N_TYPE == N_INDR else strx
    shown = linked.name_at(start) if start else b""
    found = _bound_of(linked, it.value, shown)
    bound = "another name" if found is None else _name(found)
    symbol = f"symbol {it.limit}" + (f" ({_text(linked.name_at(strx))})" if strx else "")
    if kind & N_STAB or not kind & N_EXT:
        what, sees = ", which is not external", f"a symbol of the image itself, {symbol}"
    elif not strx:
        what, sees = ", which has no name", "no name"
    elif kind & N_TYPE != N_INDR:
        what, sees = "", _name(shown)
    elif not start or linked.name_at(start - 1):
        what = f", whose n_value {start} is not where a string begins"
        sees = "a part of another name" if start else "no name"
    else:
        what, sees = f", which stands in for {_name(shown)}", _name(shown)
    return it.story(f"{it.at} is of {symbol}{what}, and the fixups bind its pointer to {bound}.", "index of the entry",
                    "index of the symbol").read_as("a disassembler", sees).read_as("a loader", bound)


def _bound_of(linked: Linked, index: int, own: bytes) -> Optional[bytes]:
    """The name to which the pointer of an indirect entry is bound: the first that is not the entry's, if any is not."""
    names: Dict[Tuple[int, int], List[bytes]] = {pointer: [] for pointer in _pointers_of(linked, index)}
    # All streams together bind no more pointers than the file has room for.
    for bound in linked.bounds():
        for offset in bound.offsets:
            names.get((bound.segment, offset), []).append(bound.name)
    found: Optional[bytes] = None
    chains = linked.chains()
    for (segment, offset), bound_names in names.items():
        chained = chains.bound(segment, offset) if chains else None
        for name in bound_names + ([] if chained is None else [chained]):
            if name != own:
                return name
            found = name
    return found


def _pointers_of(linked: Linked, index: int) -> Iterator[Tuple[int, int]]:
    """The pointers of an indirect entry: of each the number of the segment, and the offset in it."""
    for number, segment in enumerate(linked.segments):
        for at in range(number_in(segment, "segment_command_64", "nsects")):
            section = segment[size_of("segment_command_64") + size_of("section_64") * at:]
            field: Dict[str, Any] = {name: number_in(section, "section_64", name)
                                     for name in ("addr", "size", "flags", "reserved1")}
            pointer = index - field["reserved1"]
            if field["flags"] & SECTION_TYPE in POINTER_TYPES and 0 <= pointer < field["size"] // POINTER_SIZE:
                start = field["addr"] - number_in(segment, "segment_command_64", "vmaddr")
                yield number, start + POINTER_SIZE * pointer


def import_library(it: Teller) -> Story:
    linked, numbers = Linked(it), ("library ordinal", "number of libraries")
    own = OF_SYMBOLS.get(it.value, it.value)
    name = linked.name_at(number_in(it.case.data[it.at_part.start:], "nlist_64", "n_strx"))
    other = next((one for one in linked.look_ups() if one.name == name
                  and one.ordinal not in (None, BIND_SPECIAL_DYLIB_WEAK_LOOKUP, own)), None)
    where, by = (_library(other.ordinal or 0), other.by) if other else ("another library", "a bind of its name")
    return it.story(f"by its n_desc {it.at} is from {_library(own)}, and {by} looks its name up in {where}.",
                    *numbers).read_as("readers of symbols", f"a symbol of {_library(own)}").read_as(
        "a loader", f"a symbol of {where}")
