"""What a policy asks of an image, as the views of the library have it: texts for a person, and numbers."""

from __future__ import annotations

from functools import cached_property
from typing import Any, Callable, Dict, Iterable, Iterator, List, Tuple, Union

from ._entitlements import entitlements_of
from ._files import BoundedTable, Image, arch_name
from ._layout import directories_of
from ._names import plain
from ._rows import CodeDirectory
from ._symbols import DEFINED, Symbol, SymbolKind
from .constants import (
    LC_CODE_SIGNATURE, LC_DYLD_ENVIRONMENT, LC_DYLD_EXPORTS_TRIE, LC_DYLD_INFO, LC_DYLD_INFO_ONLY,
    MH_ALLOW_STACK_EXECUTION, VM_PROT_EXECUTE, VM_PROT_WRITE)

# The types of the debugging entries for a source and for an object file, and of the entry that strip(1) of the system
# adds (mach-o/stab.h).
N_SO, N_OSO, N_OPT = 0x64, 0x66, 0x3C
# The commands that have an export trie.
TRIES = (LC_DYLD_INFO, LC_DYLD_INFO_ONLY, LC_DYLD_EXPORTS_TRIE)
# So many names are told of a longer list, so many if they are those of symbols, and so many letters of a longer name.
MOST_NAMES, MOST_SYMBOLS, MOST_LETTERS = 100, 5, 400
# The names of exports have no more bytes together. In a trie that is made for it they have far more than the trie.
MOST_NAME_BYTES = 1 << 28

Name = Union[bytes, memoryview]


class TooMany(Exception):
    """The names of the exports of an image are too long to read them all."""


def text_of(name: Name) -> str:
    """A name that patterns are compared with. A byte that is not UTF-8 is one letter."""
    return bytes(name).decode("utf-8", "surrogateescape")


def quoted(name: Union[Name, str]) -> str:
    """A name for a person, in quotes that it cannot end itself."""
    data = memoryview(name.encode("utf-8", "surrogateescape") if isinstance(name, str) else bytes(name))
    return f'"{plain(data[:MOST_LETTERS])}"' + (".." if len(data) > MOST_LETTERS else "")


def listed(items: Iterable[Any], tell: Callable[[Any], str] = quoted, most: int = MOST_NAMES) -> str:
    """What is told of the first items, and how many there are more. Nothing if there is not any."""
    told: List[str] = []
    more = 0
    for item in items:
        if len(told) < most:
            told.append(tell(item))
        else:
            more += 1
    return ", ".join([*told, *([f"and {more} more"] if more else [])])


def architecture(cputype: int, cpusubtype: int) -> str:
    """The name of an architecture, or its numbers if it has none."""
    return arch_name(cputype, cpusubtype) or f"{cputype:#x}/{cpusubtype:#x}"


def is_absolute(name: Name) -> bool:
    """Whether a path begins at a root, also at that of a drive."""
    head = bytes(name[:3])
    return head[:1] == b"/" or (head[:1].isalpha() and head[1:2] == b":" and head[2:] in (b"/", b"\\"))


class Facts:
    """An image, with what several keys of a policy ask of it."""

    def __init__(self, image: Image) -> None:
        self.image = image

    # Commands and segments

    @property
    def environment(self) -> Iterator[memoryview]:
        """The settings for the dynamic linker."""
        return (command.name for command in self.image.commands if command.cmd == LC_DYLD_ENVIRONMENT)

    @property
    def writable_code(self) -> Iterator[str]:
        """What can be written to and executed at the same time."""
        both = VM_PROT_WRITE | VM_PROT_EXECUTE
        for segment in self.image.segments:
            if segment.initprot & both == both:
                yield f"segment {quoted(segment.name)}"
        if self.image.flags & MH_ALLOW_STACK_EXECUTION:
            yield "the stack (MH_ALLOW_STACK_EXECUTION)"

    # Exports

    @cached_property
    def exports(self) -> List[str]:
        """The names that others can bind to: those of the export trie; or without one the external symbols that the
        image defines. Raises TooMany."""
        found, left = [], MOST_NAME_BYTES
        for name, cost in self._export_names():
            left -= cost
            if left < 0:
                raise TooMany(f"the names of its exports have more than {MOST_NAME_BYTES} bytes")
            found.append(text_of(name))
        return found

    def _export_names(self) -> Iterator[Tuple[Name, int]]:
        """The names, and how many bytes were read for each."""
        if any(command.cmd in TRIES for command in self.image.commands):
            yield from ((name, len(name)) for name, _ in self.image.exports)
            return
        for symbol in self.image.symbols:
            if symbol.is_external and symbol.kind in DEFINED:
                name = symbol.name
                # The end of an empty name may have been looked for in all strings.
                yield name, len(name) or (self.image.symtab.strsize if self.image.symtab and symbol.strx else 1)

    # Symbols

    @property
    def debug_paths(self) -> Iterator[Symbol]:
        """The debugging entries for sources and objects whose path begins at a root. Of a name only the beginning is
        looked at, since many can share a long one."""
        strings = self.image.table(BoundedTable.STRINGS)
        if strings is not None:
            for symbol in self.image.symbols:
                if symbol.type in (N_SO, N_OSO) and is_absolute(strings[symbol.strx:symbol.strx + 3]):
                    yield symbol

    @property
    def unstripped(self) -> Iterator[Symbol]:
        """The symbols that a stripped image does not have: entries for debuggers, but for that of strip(1), and what is
        defined for the image alone."""
        for symbol in self.image.symbols:
            kind = symbol.kind
            if (symbol.type != N_OPT) if kind is SymbolKind.DEBUGGING else (kind in DEFINED and not symbol.is_external):
                yield symbol

    # Signatures

    @cached_property
    def directories(self) -> List[CodeDirectory]:
        return [directory for _, directory in directories_of(self.image)]

    @property
    def no_signature(self) -> str:
        """Why there is no code directory, or nothing if there is one."""
        if self.directories:
            return ""
        has_command = any(command.cmd == LC_CODE_SIGNATURE for command in self.image.commands)
        return "a signature without a code directory that can be read" if has_command else "no signature"

    @cached_property
    def entitlements(self) -> Dict[str, Any]:
        """Raises Unreadable."""
        return entitlements_of(self.image)


def slice_of(part: Any) -> Tuple[int, str]:
    """What a slice is called: its index, and its architecture."""
    return part.index, architecture(part.cputype, part.cpusubtype)
