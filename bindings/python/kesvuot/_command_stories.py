"""What is told of a thread, and of what a load command holds, that breaks its rule. (loader.h, mach/thread_status.h)"""

from __future__ import annotations

import re
from typing import Dict, List, NamedTuple

from ._dump import Mark
from ._names import count_text
from ._parts import matches, walk_commands
from ._structures import number_in, size_of
from ._teller import Story, Teller
from .constants import (
    LC_ATOM_INFO, LC_FUNCTION_VARIANT_FIXUPS, LC_FUNCTION_VARIANTS, LC_FVMFILE, LC_IDENT, LC_IDFVMLIB, LC_LINKER_OPTION,
    LC_LOADFVMLIB, LC_PREBIND_CKSUM, LC_PREBOUND_DYLIB, LC_PREPAGE, LC_ROUTINES, LC_ROUTINES_64, LC_SOURCE_VERSION,
    LC_SUB_CLIENT, LC_SUB_FRAMEWORK, LC_SUB_LIBRARY, LC_SUB_UMBRELLA, LC_SYMSEG, LC_TARGET_TRIPLE, LC_TWOLEVEL_HINTS,
    LC_VERSION_MIN_IPHONEOS, LC_VERSION_MIN_MACOSX, LC_VERSION_MIN_TVOS, LC_VERSION_MIN_WATCHOS)

X86_64, ARM64 = 0x0100_0007, 0x0100_000C
X86_THREAD_STATE64, X86_THREAD_STATE, ARM_THREAD_STATE64 = 4, 7, 6


class Registers(NamedTuple):
    """A state that has registers: how many words it has, and the offset and the name of the register with the address
    at which the thread begins."""

    words: int
    entry: int
    name: str


REGISTERS: Dict[int, Dict[int, Registers]] = {
    X86_64: {X86_THREAD_STATE64: Registers(42, 128, "rip"), X86_THREAD_STATE: Registers(44, 136, "rip")},
    ARM64: {ARM_THREAD_STATE64: Registers(68, 256, "pc")}}


class Held(NamedTuple):
    """A command whose contents the linked profile judges: how many bytes its structure has; whether the word after
    cmdsize is the offset of its name; and how many bytes an item has of the range whose offset and count are the two
    words after cmdsize, or 0 if it names none."""

    size: int
    has_name: bool = False
    item: int = 0


HELD: Dict[int, Held] = {
    **dict.fromkeys((LC_LOADFVMLIB, LC_IDFVMLIB, LC_PREBOUND_DYLIB), Held(20, has_name=True)),
    LC_FVMFILE: Held(16, has_name=True),
    **dict.fromkeys((LC_SUB_FRAMEWORK, LC_SUB_UMBRELLA, LC_SUB_CLIENT, LC_SUB_LIBRARY, LC_TARGET_TRIPLE),
                    Held(12, has_name=True)),
    **dict.fromkeys((LC_SYMSEG, LC_ATOM_INFO, LC_FUNCTION_VARIANTS, LC_FUNCTION_VARIANT_FIXUPS), Held(16, item=1)),
    LC_TWOLEVEL_HINTS: Held(16, item=4), **dict.fromkeys((LC_IDENT, LC_PREPAGE), Held(8)),
    LC_ROUTINES: Held(40), LC_ROUTINES_64: Held(72), **dict.fromkeys((LC_PREBIND_CKSUM, LC_LINKER_OPTION), Held(12)),
    **dict.fromkeys((LC_VERSION_MIN_MACOSX, LC_VERSION_MIN_IPHONEOS, LC_VERSION_MIN_TVOS, LC_VERSION_MIN_WATCHOS,
                     LC_SOURCE_VERSION), Held(16))}
ROUTINES = (LC_ROUTINES, LC_ROUTINES_64)
NONZERO = re.compile(rb"[^\0]+")


class State(NamedTuple):
    """A state of a thread: its flavor, how many words it should have, those that are in the command, and where in the
    command it begins."""

    flavor: int
    count: int
    words: bytes
    place: int

    @property
    def is_cut(self) -> bool:
        return len(self.words) < 4 * self.count


def _states(data: bytes) -> List[State]:
    """The states of a thread, past the first 8 bytes of its command. The last one can be cut."""
    states: List[State] = []
    place = 8
    while place < len(data):
        flavor, count = (int.from_bytes(data[at:at + 4], "little") for at in (place, place + 4))
        is_whole = place + 8 <= len(data)
        states.append(State(flavor, count if is_whole else 1, data[place + 8:place + 8 + 4 * count], place))
        place += 8 + 4 * count
    return states


def thread(it: Teller) -> Story:
    if it.second:
        return it.story(f"{it.at} is a second thread: {it.second} is one too.")
    states = _states(bytes(it.case.data[it.at_part.start:it.at_part.end]))
    if any(state.is_cut for state in states):
        return it.story(f"the states of {it.at} do not end with it: the last one goes past its end.", "cmdsize").marking(
            _head(it, states[-1]))
    known = REGISTERS.get(number_in(it.case.data[it.case.slice.start:], "mach_header_64", "cputype"), {})
    found = [state for state in states if state.flavor in known]
    if len(found) != 1:
        what = f"{len(found)} states with registers, and a thread has one" if found else \
            "no state with registers that are known of this processor"
        return it.story(f"{it.at} has {what}.").marking(*(_head(it, state) for state in states))
    return _registers(it, found[0], known[found[0].flavor])


def _head(it: Teller, state: State) -> Mark:
    start = it.at_part.start + state.place
    return Mark(start, min(8, it.at_part.end - start), f"flavor {state.flavor}, count {state.count}")


def _registers(it: Teller, state: State, known: Registers) -> Story:
    if state.count != known.words:
        return it.story(f"the state of flavor {state.flavor} in {it.at} has {count_text(state.count, 'word')}, and one "
                        f"has {known.words}.").marking(_head(it, state))
    inner = tuple(int.from_bytes(state.words[at:at + 4], "little") for at in (0, 4))
    if state.flavor == X86_THREAD_STATE and inner != (X86_THREAD_STATE64, REGISTERS[X86_64][X86_THREAD_STATE64].words):
        return it.story(f"the state of flavor {state.flavor} in {it.at} has one of flavor {inner[0]} with "
                        f"{count_text(inner[1], 'word')} inside, which is not known.").marking(_head(it, state))
    entry = int.from_bytes(state.words[known.entry:known.entry + 8], "little")
    place = it.at_part.start + state.place + 8 + known.entry
    return it.story(f"{it.at} begins at the address in its register {known.name}, {entry:#x}, where no executable "
                    f"segment has a byte of the file. The register is at {place:#x}.").marking(
        Mark(place, 8, f"{known.name} {entry:#x}"))


class Content:
    """A command whose contents are judged, and the bytes past its structure that may be other ones than 0."""

    def __init__(self, it: Teller) -> None:
        self.it = it
        self.data = bytes(it.case.data[it.at_part.start:it.at_part.end])
        self.cmd = self.word(0)
        self.held = HELD[self.cmd]
        self.claimed = [(0, self.held.size)]
        self.marks: List[Mark] = []

    def word(self, offset: int) -> int:
        return int.from_bytes(self.data[offset:offset + 4], "little")

    def see(self, offset: int, size: int, name: str) -> None:
        """Marks bytes of the command that a fault is about."""
        self.marks.append(Mark(self.it.at_part.start + offset, size, name))

    def fault(self) -> str:
        """What is wrong with it, as a part of a sentence. The bytes are marked."""
        return (self.name() or self.span() or self.bits() or self.strings() or self.options() or self.stray()
                or self.routine())

    def name(self) -> str:
        if not self.held.has_name:
            return ""
        start = self.word(8)
        if start < self.held.size:
            self.see(8, 4, f"name offset {start}")
            return f"has the offset {start} of its name, inside its structure of {self.held.size} bytes"
        end = self.data.find(0, start)
        if end < 0:
            self.see(8, 4, f"name offset {start}")
            return f"has a name at offset {start} that does not end in it"
        self.claimed.append((start, end + 1))
        return ""

    def span(self) -> str:
        start, count, whole = self.word(8), self.word(12), self.it.case.slice.size
        end = start + count * self.held.item
        if count * self.held.item == 0 or end <= whole:
            return ""
        self.see(8, 4, f"offset {start:#x}")
        self.see(12, 4, f"count {count}")
        items = f"{count_text(count, 'item')} of {self.held.item} bytes" if self.held.item > 1 else count_text(count, "byte")
        return (f"names a range of {items} from {start:#x} on, which ends at {end:#x}, past the end of {self.it.whole}, "
                f"{whole:#x}")

    def bits(self) -> str:
        """Those of an LC_PREBOUND_DYLIB: one for each module of the library."""
        if self.cmd != LC_PREBOUND_DYLIB:
            return ""
        modules, start = self.word(12), self.word(16)
        end = start + (modules + 7) // 8
        self.claimed.append((start, end))
        if modules == 0 or (self.held.size <= start and end <= len(self.data)):
            return ""
        self.see(12, 4, f"count {modules}")
        self.see(16, 4, f"offset {start}")
        return f"has bits for {count_text(modules, 'module')} at offset {start}, not all in it and past its structure"

    def strings(self) -> str:
        """Those of an LC_IDENT, up to its end."""
        if self.cmd != LC_IDENT:
            return ""
        self.claimed.append((self.held.size, len(self.data)))
        if self.data[self.held.size:][-1:] in (b"", b"\0"):
            return ""
        self.see(len(self.data) - 1, 1, "the last byte")
        return "has strings of which the last does not end in it"

    def options(self) -> str:
        """Those of an LC_LINKER_OPTION, as many as it counts."""
        if self.cmd != LC_LINKER_OPTION:
            return ""
        wanted, end = self.word(8), self.held.size
        for number in range(wanted):
            zero = self.data.find(0, end)
            if zero < 0:
                self.see(8, 4, f"count {wanted}")
                return f"counts {count_text(wanted, 'string')}, and {number} of them end in it"
            end = zero + 1
        self.claimed.append((self.held.size, end))
        return ""

    def stray(self) -> str:
        place = 0
        for start, end in (*sorted(self.claimed), (len(self.data), 0)):
            for offset, _ in matches(NONZERO, memoryview(self.data), (place, start)):
                self.see(offset, 1, f"byte {self.data[offset]:02x}")
                return f"has the byte {self.data[offset]:02x} at offset {offset}, which is in none of its parts"
            place = max(place, end)
        return ""

    def routine(self) -> str:
        """That of a routine with whole parts: there is an earlier one, or it is at no code."""
        width = 8 if self.cmd == LC_ROUTINES_64 else 4
        address = int.from_bytes(self.data[8:8 + width], "little")
        if self.is_second():
            return "is a second routine, and an image has one"
        self.see(8, width, f"address {address:#x}")
        return f"calls the address {address:#x}, where no executable segment has a byte of the file"

    def is_second(self) -> bool:
        holder = self.it.case.slice
        image = self.it.case.data[holder.start:holder.start + holder.size]
        ncmds, size = (number_in(image, "mach_header_64", field) for field in ("ncmds", "sizeofcmds"))
        commands = walk_commands(image, ncmds, size_of("mach_header_64") + size).commands
        first = next(command.place for command in commands if command.cmd in ROUTINES)
        return holder.start + first < self.it.at_part.start


def command_content(it: Teller) -> Story:
    if not it.limit:
        return it.story(f"{it.at} is for no image of this kind.")
    if it.value < it.limit:
        return it.story(f"{it.at} has a cmdsize of {it.value}, and its structure has {it.limit} bytes.", "cmdsize",
                        "size of the structure")
    content = Content(it)
    return it.story(f"{it.at} {content.fault()}.", "cmdsize").marking(*content.marks)
