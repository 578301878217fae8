"""A refused file with its explanation: the names of its parts, and the fields that the rule reads."""

from __future__ import annotations

from functools import cached_property
from typing import Any, Dict, Iterator, List, NamedTuple, Optional, Tuple, Union

from ._explanation import Explanation, Part as FilePart
from ._files import Refused
from ._names import opcode_name, plain
from ._parts import FAT_ENTRIES, TABLES, Part, TableForm, image_parts, slices_of
from ._structures import STRUCTURES, directory_size, field_of, number_in, size_of, structure_of
from .constants import LC_SYMTAB

# A longer name is cut. One of the file can have any length.
NAME_LENGTH = 80

# What `_parts` calls that which has a part, or describes it.
COMMANDS, SEGMENTS, SECTIONS = ("command", "broken walk"), ("segment",), ("section",)
SLICES, TABLE_KINDS = ("slice", "slice not read"), ("table", "encrypted range")
KINDS: Dict[str, Tuple[str, ...]] = {
    "command": COMMANDS, "segment": SEGMENTS, "segment-memory": SEGMENTS,
    "section": SECTIONS, "section-bytes": SECTIONS, "section-memory": SECTIONS,
    "relocations": ("relocations",), "table": TABLE_KINDS, "headers": ("headers",),
    "header": ("header",), "slice": SLICES, "fat-arch": ("entry",),
    "fat-header": ("universal header",), "fat-table": ("universal header",),
    "name": COMMANDS, "group": COMMANDS}
PLAIN_NAMES = {
    "file": "the file", "magic": "the first bytes", "fat-header": "the fat_header",
    "fat-table": "the universal table", "header": "the mach_header_64", "headers": "the headers",
    "name": "the name", "byte": "the byte", "chain-header": "the dyld_chained_fixups_header",
    "chain-array": "the dyld_chained_starts_in_image"}
# What `_parts` calls a segment and a section without names.
NAMELESS = ("", "(no name)", ",")
RELOCATIONS_OF = "relocations of "
# The name that it gives to a command with an unknown cmd begins with this.
UNKNOWN = "command "
GROUPS = ("local", "defined", "undefined")

# The fields that say where a part is.
FIELDS = {
    "fat-table": "nfat_arch", "slice": "offset size", "headers": "sizeofcmds",
    "command": "cmd cmdsize", "segment": "fileoff filesize", "segment-memory": "vmaddr vmsize",
    "section-bytes": "offset size", "section-memory": "addr size", "relocations": "reloff nreloc",
    "data-in-code": "offset length", "chain-header": "imports_count",
    "chain-starts": "size page_size pointer_format segment_offset page_count"}
# The structures of chained fixups, by the parts that they are.
CHAIN_STRUCTURES = {
    "chain-header": "dyld_chained_fixups_header", "chain-array": "dyld_chained_starts_in_image",
    "chain-starts": "dyld_chained_starts_in_segment"}
# The rules that read the blob of an entry as a code directory, and which of its fields each reads.
DIRECTORY_FIELDS = {
    **dict.fromkeys(("signature-directory", "signature-whole"),
                    "magic length version hashOffset identOffset nSpecialSlots nCodeSlots codeLimit hashSize hashType "
                    "pageSize"),
    "signature-hash": "hashOffset nSpecialSlots nCodeSlots codeLimit hashSize hashType pageSize",
    "directory-agree": "flags identOffset codeLimit hashType platform pageSize teamOffset codeLimit64 execSegBase "
                       "execSegLimit execSegFlags runtime"}
# The fields of names, whose values are texts; and which of them each part has in a rule of names.
TEXT_FIELDS = ("segname", "sectname")
NAME_FIELDS = {
    "segment-name": {"segment": "segname", "segment-memory": "segname vmaddr vmsize", "name": "segname"},
    "section-name": {"section": "sectname segname", "name": "segname"}}
GROUP_FIELDS = ("ilocalsym nlocalsym", "iextdefsym nextdefsym", "iundefsym nundefsym")
# Those that a rule reads besides: of the structure at the place, and of that of the second part.
MORE_FIELDS: Dict[str, Tuple[str, str]] = {
    "fat-align": ("align", ""), "fat-empty": ("nfat_arch", ""),
    **dict.fromkeys(("fat-duplicate", "arch-mismatch"), ("cputype cpusubtype", "cputype cpusubtype")),
    **dict.fromkeys(("file-type", "dylib-id"), ("filetype", "")), "commands-end": ("ncmds", ""),
    "command-short": ("nsects ntools", ""), "function-variants": ("cmd cmdsize", ""),
    "name": ("cmdsize name path", ""), "segment-size": ("vmsize", ""),
    "section-file": ("addr", "vmaddr"),
    "symbol-section": ("n_type n_sect", ""), "entry": ("entryoff", "filesize initprot"),
    "header-segment": ("", "vmsize"), "table-home": ("", "vmsize initprot flags"), "header-home": ("", "vmaddr initprot"),
    **dict.fromkeys(("rebase-slot", "bind-slot"), ("", "vmsize initprot")),
    "chain-header": ("dataoff datasize fixups_version imports_format symbols_format", ""),
    "chain-starts": ("starts_offset seg_count", "vmaddr vmsize initprot"),
    "chain-imports": ("imports_offset imports_count imports_format", ""), "chain-slot": ("", "initprot flags"),
    "function-start": ("", "filesize"), "init-offset": ("size", "filesize initprot"),
    "data-in-code": ("offset length kind", "initprot"),
    "signature-blob": ("type offset magic length count", ""),
    **dict.fromkeys(("signature-directory", "signature-whole", "directory-repeated"), ("type offset", "")),
    "symbol-library": ("n_type n_desc", ""), "symbol-value": ("n_type n_sect n_value", ""),
    "symbol-indirect": ("n_type n_value", ""), "indirect-range": ("size flags reserved1 reserved2", ""),
    **dict.fromkeys(("thread", "command-content", "command-known"), ("cmd cmdsize", "")),
    "fat-count": ("nfat_arch", ""), "fat-header": ("cputype cpusubtype", "magic cputype cpusubtype"),
    "fat-page": ("cputype offset size", "offset"), "command-once": ("cmd platform", "cmd platform"),
    "segment-page": ("vmaddr vmsize fileoff filesize", ""), "segment-protection": ("vmsize maxprot initprot", ""),
    "bytes-encrypted": ("cryptid flags", ""), "number-shift": ("cmd vmsize", "cmd vmsize initprot"),
    "section-alone": ("flags", ""),
    "entry-one": ("cmd entryoff", "filetype"),
    "symbol-kind": ("n_strx n_type", "ilocalsym nlocalsym iextdefsym nextdefsym iundefsym nundefsym"),
    "symbol-total": ("n_strx n_type", ""),
    "export-symbol": ("n_strx n_type n_desc n_value", "n_strx n_type n_desc n_value"),
    "import-library": ("n_strx n_type n_desc", ""),
    **dict.fromkeys(("signature-slot", "directory-agree"), ("type offset", ""))}


class Spot(NamedTuple):
    """A structure in the file, with the fields that the rule reads, in their order."""

    structure: str
    start: int
    fields: Tuple[str, ...]


class Case:
    """A refused file."""

    def __init__(self, data: memoryview, refused: Refused, explanation: Explanation) -> None:
        self.data = data
        self.rule = refused.rule
        self.place = refused.place
        self.explanation = explanation
        self.entry = FAT_ENTRIES.get(bytes(data[:4])) if refused.rule != "magic" else None

    # Names

    @cached_property
    def parts(self) -> List[Part]:
        """The slices; and of that which the place is about the headers, and what is described by those commands that
        have to do with it, as far as the headers can be followed."""
        it = self.explanation
        places = {self.place, *(part.described for part in (it.at, it.first, it.second) if part)}

        def is_wanted(place: int, command: Any) -> bool:
            return command.cmd == LC_SYMTAB or any(place <= it < place + len(command.bytes) for it in places)

        parts = list(slices_of(self.data))
        holder = next((part for part in parts if part.kind == "slice" and part.slice == it.slice), None)
        return [*parts, *(image_parts(self.data, holder, is_wanted=is_wanted) if holder else ())]

    @property
    def slice(self) -> Part:
        """The slice that the place is about, or the first one."""
        return next(part for part in self.parts if part.kind in SLICES and part.slice == (self.explanation.slice or 0))

    @property
    def arch(self) -> str:
        """The architecture of the slice of a universal file that the place is about, if it is about one."""
        has_slice = self.entry is not None and self.explanation.slice is not None
        return self.slice.name.partition(": ")[2] if has_slice else ""

    @property
    def counts_from_slice(self) -> bool:
        """Whether the fields that the rule reads have offsets that count from the start of a slice of a universal
        file."""
        return self.arch != "" and self.explanation.at.kind not in ("fat-arch", "magic")

    def found(self, wanted: FilePart) -> Optional[Part]:
        """The part of the map that has a part, or is described by the same structure."""
        return next((part for part in self.parts if is_same(part, wanted)), None)

    def name(self, wanted: FilePart) -> str:
        """What a part is called."""
        if wanted.kind == "name" and self.rule == "symbol-kind":
            return "the first string"
        if wanted.kind in PLAIN_NAMES:
            return PLAIN_NAMES[wanted.kind]
        if wanted.kind == "symbol":
            return f"symbol {wanted.index}{self._symbol_name(wanted)}"
        if wanted.kind == "opcode":
            return opcode_name(self.data[wanted.start], self.rule.startswith("rebase-"))
        if wanted.kind == "indirect":
            return f"indirect entry {wanted.index}"
        if wanted.kind == "chain-entry":
            return f"seg_info_offset[{wanted.index}]"
        if wanted.kind == "chain-starts":
            return f"the starts of segment {wanted.index}"
        if wanted.kind == "chain-import":
            return f"import {wanted.index}"
        if wanted.kind == "page-start":
            return f"the page_start of page {wanted.index}"
        if wanted.kind == "chain-pointer":
            return f"the pointer at {wanted.start:#x}"
        if wanted.kind == "function-start":
            return f"the number at {wanted.start:#x}"
        if wanted.kind == "data-in-code-entry":
            return f"entry {wanted.index} of data in code"
        if wanted.kind == "data-in-code":
            return f"the data of entry {wanted.index}"
        if wanted.kind == "export-node":
            return f"the node at {wanted.start:#x}"
        if wanted.kind == "signature-entry":
            return f"entry {wanted.index} of the code signature"
        if wanted.kind == "signature-blob":
            return f"the blob of entry {wanted.index}"
        if wanted.kind == "code-page":
            return f"page {wanted.index}"
        if wanted.kind == "code-hash":
            return f"the hash of {'page' if self.is_of_page else 'special slot'} {wanted.index}"
        if wanted.kind == "relocation":
            return f"relocation {wanted.index}"
        if wanted.kind == "group":
            return f"the group of {GROUPS[wanted.index or 0]} symbols"
        part = self.found(wanted)
        return self._named(wanted, cut(part.name) if part else "")

    @cached_property
    def names(self) -> Tuple[str, str]:
        """What the two parts are called: with the places of their structures, where two are called the same."""
        parts = self.explanation.first, self.explanation.second
        one, other = (self.name(part) if part is not None else "" for part in parts)
        if parts[0] and parts[1] and one == other and parts[0].described != parts[1].described:
            one, other = (f"{one} (of the structure at {part.described:#x})" for part in parts if part)
        return one, other

    def _named(self, wanted: FilePart, name: str) -> str:
        """What a part with a name is called."""
        if wanted.kind == "slice":
            return f"slice {wanted.index} ({name.partition(': ')[2] or 'not read'})" if self.entry else "the file"
        if wanted.kind == "fat-arch":
            return f"entry {wanted.index} ({name.partition(': ')[2]})"
        if wanted.kind == "command":
            known = name.startswith(("LC_", UNKNOWN))
            return f"command {wanted.index}" + (f" ({name.rstrip().replace(UNKNOWN, '')})" if known else "")
        if wanted.kind == "table":
            # A table without bytes is no part of the map.
            return f"the {name or self._table(wanted).name}"
        name = name.partition(RELOCATIONS_OF)[2] if wanted.kind == "relocations" else name
        kind = f"the {RELOCATIONS_OF}section" if wanted.kind == "relocations" else \
            "segment" if KINDS[wanted.kind] == SEGMENTS else "section"
        return f"{kind} {wanted.index if name in NAMELESS else name}"

    def _symbol_name(self, symbol: FilePart) -> str:
        """The name of a symbol, if it ends in the strings."""
        strings = next((part for part in self.parts if part.kind == "table" and part.name == "strings"), None)
        start = number_in(self.data[symbol.start:], "nlist_64", "n_strx")
        if not strings or not start:
            return ""
        table = self.data[strings.start:strings.start + strings.size]
        end = bytes(table[start:start + NAME_LENGTH + 1]).find(0)
        return f" ({plain(table[start:start + end])})" if end > 0 else ""

    # Fields

    def structure(self, part: FilePart) -> Optional[Tuple[str, int]]:
        """The structure that describes a part, and where it begins."""
        kind, place = part.kind, part.described
        if kind in ("fat-header", "fat-table"):
            return "fat_header", 0
        if kind in ("fat-arch", "slice"):
            return ("fat_arch" if self.data[3] == 0xBE else "fat_arch_64", place) if self.entry else None
        if kind in ("header", "headers"):
            return "mach_header_64", place
        if kind in ("section", "section-bytes", "section-memory", "relocations") or self._is_of_section(part):
            return "section_64", place
        if kind in CHAIN_STRUCTURES:
            return CHAIN_STRUCTURES[kind], part.start
        if kind in ("data-in-code-entry", "data-in-code"):
            return "data_in_code_entry", place
        if kind == "signature-entry":
            return "CS_BlobIndex", part.start
        if kind == "signature-blob":
            return "CS_CodeDirectory" if self._is_directory(part) else "CS_GenericBlob", part.start
        if kind in ("code-page", "code-hash"):
            return "CS_CodeDirectory", place
        if kind == "byte" and self.rule == "signature-blob":
            return "CS_SuperBlob", part.start
        if kind == "symbol" or (kind == "name" and self.explanation.symbol is not None and place == self.place):
            return "nlist_64", place
        if kind in ("command", "segment", "segment-memory", "table", "group",
                    "name"):
            return structure_of(*self._command(place)), place
        return None

    def _is_of_section(self, part: FilePart) -> bool:
        """Whether a part is the name of the section at the place."""
        return part.kind == "name" and self.explanation.section is not None and part.described == self.place

    @property
    def is_of_page(self) -> bool:
        """Whether the place is a page of a code directory."""
        return self.explanation.at.kind == "code-page"

    def _is_directory(self, blob: FilePart) -> bool:
        """Whether the rule reads a blob as a code directory."""
        return self.rule in DIRECTORY_FIELDS and (self.rule != "signature-hash" or blob != self.explanation.first)

    def _command(self, place: int) -> Tuple[int, int]:
        """The cmd and the cmdsize of a command."""
        head = self.data[place:place + 8]
        return number_in(head, "load_command", "cmd"), number_in(head, "load_command", "cmdsize")

    def _table(self, part: FilePart) -> TableForm:
        return TABLES[self._command(part.described)[0]][part.index or 0]

    def _fields(self, part: FilePart, structure: str) -> str:
        """The fields that say where a part is; or what it is called, if that is what the rule is about. Of a name with
        a byte after its end no field is wrong."""
        first = self.explanation.first
        if self.rule in NAME_FIELDS:
            return "" if first and first.kind == "byte" else NAME_FIELDS[self.rule].get(part.kind, "")
        if part.kind == "table":
            return f"{self._table(part).start} {self._table(part).count}"
        if part.kind == "group":
            return GROUP_FIELDS[part.index or 0]
        if part.kind == "name":
            return "name path n_strx stroff"
        if self.rule == "signature-missing":
            return "cmd dataoff datasize"
        if part.kind in ("signature-blob", "code-page", "code-hash"):
            return "magic length" if structure == "CS_GenericBlob" else DIRECTORY_FIELDS[self.rule]
        return FIELDS.get(part.kind, "") if structure != "fat_header" else "nfat_arch"

    @cached_property
    def spots(self) -> List[Spot]:
        """The structures, each with the fields that the rule reads. The first is that at the place, if there is one."""
        it, more = self.explanation, MORE_FIELDS.get(self.rule, ("", ""))
        names: Dict[Tuple[str, int], str] = {}
        for part, others in ((it.at, more[0]), (it.first, ""), (it.second, more[1])):
            found = self.structure(part) if part else None
            if part and found:
                said = self._fields(part, found[0]) if part is not it.at or part == it.first else ""
                names[found] = f"{names.get(found, '')} {said} {others}"
        return [Spot(*found, tuple(field.name for field in STRUCTURES[found[0]] if field.name in wanted.split()))
                for found, wanted in names.items() if wanted.split() or found[1] == it.at.described]

    def number(self, name: str, spot: int = 0) -> int:
        """The number in a field of one of the structures."""
        structure, start, _ = self.spots[spot]
        return number_in(self.data[start:start + size_of(structure)], structure, name)

    def fields(self, spot: Spot) -> Iterator[Tuple[str, int, int, Union[int, str]]]:
        """The fields of a structure: the name, the place in the file, the size, and the number or the text of each."""
        data = self.data[spot.start:spot.start + size_of(spot.structure)]
        size = len(data)
        if spot.structure == "CS_CodeDirectory" and self.rule == "directory-agree":
            size = min(size, directory_size(number_in(data, spot.structure, "version")))
        for name in spot.fields:
            field = field_of(spot.structure, name)
            if field.start + field.width <= size:
                text = padded(data[field.start:field.start + field.width])
                yield name, spot.start + field.start, field.width, \
                    text if name in TEXT_FIELDS else number_in(data, spot.structure, name)


def padded(name: memoryview) -> str:
    """A name of 16 bytes, without the zeros after it."""
    return plain(memoryview(bytes(name).rstrip(b"\0")))


def cut(text: str) -> str:
    return text if len(text) <= NAME_LENGTH else f"{text[:NAME_LENGTH]}.."


def is_same(part: Part, wanted: FilePart) -> bool:
    """Whether a part of the map has a part of the explanation, or is described by the same structure."""
    if part.kind not in KINDS.get(wanted.kind, ()):
        return False
    if wanted.kind in ("slice", "fat-arch"):
        return part.slice == wanted.index
    if wanted.kind == "table":
        return part.described == wanted.described and part.start == wanted.start
    return part.kind == "universal header" or part.described == wanted.described
