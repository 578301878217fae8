"""What is told of a file that readers see in two ways. (fat.h, loader.h, nlist.h, cs_blobs.h)"""

from __future__ import annotations

from typing import Dict, Iterator, List, Optional, Tuple

from ._case import GROUPS, cut, padded
from ._dump import Mark
from ._explanation import Part as FilePart
from ._names import FILETYPES, hash_type_name, plain, platform_name, protection_text
from ._parts import arch_name
from ._structures import directory_size, field_of, number_in
from ._teller import Story, Teller
from .constants import (
    CSSLOT_ALTERNATE_CODEDIRECTORIES, CSSLOT_CODEDIRECTORY, CSSLOT_DER_ENTITLEMENTS, CSSLOT_ENTITLEMENTS,
    CSSLOT_LAUNCH_CONSTRAINT_SELF, CSSLOT_LIBRARY_CONSTRAINT, CSSLOT_REQUIREMENTS, CSSLOT_SIGNATURESLOT,
    CSSLOT_TICKETSLOT, N_ABS, N_INDR, N_PBUD, N_SECT, N_TYPE, N_UNDF, N_WEAK_DEF)

TEXT = b"__TEXT"
# Where the names of a segment begin, and how long they can be.
SEGNAME, NAME_SIZE = 8, 16
PROTECTION = 7
FIRST_OF, LAST_OF = "readers that take the first", "readers that take the last"
KERNEL = "a kernel, which maps whole pages"
# The slots of code directories, and the magic number of the blob in each slot that is known.
DIRECTORY_SLOTS = (
    CSSLOT_CODEDIRECTORY, *range(CSSLOT_ALTERNATE_CODEDIRECTORIES, CSSLOT_ALTERNATE_CODEDIRECTORIES + 5))
MAGIC_NUMBERS: Dict[int, int] = {
    **dict.fromkeys(DIRECTORY_SLOTS, 0xFADE_0C02), CSSLOT_REQUIREMENTS: 0xFADE_0C01,
    CSSLOT_ENTITLEMENTS: 0xFADE_7171, CSSLOT_DER_ENTITLEMENTS: 0xFADE_7172,
    **dict.fromkeys(range(CSSLOT_LAUNCH_CONSTRAINT_SELF, CSSLOT_LIBRARY_CONSTRAINT + 1), 0xFADE_8181),
    CSSLOT_SIGNATURESLOT: 0xFADE_0B01}
# The slots that have a name in the header.
NAMED_SLOTS = frozenset((
    *range(CSSLOT_LIBRARY_CONSTRAINT + 1), *DIRECTORY_SLOTS, *range(CSSLOT_SIGNATURESLOT, CSSLOT_TICKETSLOT + 1)))
# The kinds of symbols, by their types.
TYPES = {N_ABS: "an absolute symbol", N_SECT: "a symbol of a section", N_INDR: "a stand-in for another name"}


def fat_count(it: Teller) -> Story:
    return it.story(f"the universal table has {it.value} entries, and readers take a file with {it.limit} or more for a "
                    "Java class.", "nfat_arch", "least nfat_arch of a Java class").read_as(
        "readers of universal files", f"{it.value} slices").read_as(
        "readers that look for a Java class first", f"a Java class of version {it.value}")


def fat_header(it: Teller) -> Story:
    by_entry, by_slice = "readers that choose a slice by its entry", "readers that choose it by its header"
    if it.second_part.kind == "magic":
        return it.story(f"slice {it.first_part.index} begins with the magic number {it.value:#x}, and by {it.at} with "
                        f"{it.limit:#x}.", "magic number", "magic number for the processor of the entry").read_as(
            by_entry, f"an image that begins with {it.limit:#x}").read_as(by_slice, f"one that begins with {it.value:#x}")
    one, other = ((number >> 32, number & 0xFFFF_FFFF) for number in (it.value, it.limit))
    names = [f"{arch_name(*arch)} (cpusubtype {arch[1]:#x})" for arch in (one, other)]
    return it.story(f"{it.at} is for {names[0]}, and the header of its slice for {names[1]}.").read_as(
        by_entry, f"an image for {names[0]}").read_as(by_slice, f"an image for {names[1]}")


def fat_page(it: Teller) -> Story:
    if not it.second:
        return it.story(f"{it.first} begins at {it.value:#x}, which is no multiple of the size of a page, {it.limit:#x}.",
                        "offset", "size of a page").read_as(
            "readers of offsets", f"the slice from {it.value:#x} on").read_as(
            KERNEL, f"bytes from {it.value - it.value % it.limit:#x} on")
    return it.story(f"{it.second} begins at {it.value:#x}, in the last page of {it.first}, which ends at {it.limit:#x}.",
                    "offset of the other slice", "end of the last page").read_as(
        "readers of offsets", f"{it.first} up to {it.first_part.end:#x}").read_as(
        KERNEL, f"bytes of {it.second} after those of {it.first}")


def command_known(it: Teller) -> Story:
    return it.story(f"no rule reads {it.at}, and a reader that knows its cmd can see more than is judged.", "cmd").read_as(
        "readers that do not know the command", "nothing").read_as(
        "readers that know it, or a cmd without LC_REQ_DYLD", "what the command says")


def command_once(it: Teller) -> Story:
    if it.value == number_in(it.case.data[it.at_part.start:], "load_command", "cmd"):
        story = it.story(f"{it.first} comes after {it.second}, and readers take one of the two.", "cmd")
    else:
        story = it.story(f"{it.first} and {it.second} have the versions for {platform_name(it.value)}, and readers take "
                         "one of the two.", "platform")
    return story.read_as(FIRST_OF, it.second).read_as(LAST_OF, it.first)


def _tail(it: Teller, field: str) -> Story:
    name = it.second_part
    whole = bytes(it.case.data[name.start:name.end])
    ended = whole.partition(b"\0")[0]
    says = f"the byte {it.value:02x} at {it.first_part.start:#x} is past the {field} of {it.at}."
    mark = Mark(it.first_part.start, it.first_part.size, f"byte {it.value:02x}")
    return it.story(says, "byte").marking(mark).read_as(
        "readers that end a name at a zero byte", f"the name {ended.hex(' ')}").read_as(
        "readers of all 16 bytes", f"the name {whole.hex(' ')}")


def segment_name(it: Teller) -> Story:
    if it.first_part.kind == "byte":
        return _tail(it, "segname")
    if it.first_part.kind == "segment":
        return it.story(f"{it.first} and {it.second} have one name.", "place of the later command",
                        "place of the earlier command").read_as(FIRST_OF, it.second).read_as(LAST_OF, it.first)
    if it.first_part.kind == "name":
        return it.story(f"the segname of {it.at} is empty, and LLVM does not number the first segment with sections if "
                        "that has no name.", "length of the name", "least length").read_as(
            "readers that count all segments", "a segment with a number").read_as(
            "readers that count a segment by its name", "a segment without one")
    start = it.first_part.described + SEGNAME
    name = bytes(it.case.data[start:start + NAME_SIZE]).partition(b"\0")[0]
    numbers = "vmaddr", "vmaddr of the other segment" if it.second else ""
    by_name, by_bytes = "readers that take __TEXT for the base", "readers that take the segment with the headers"
    other = f"{it.second}, at {it.limit:#x}" if it.second else "none"
    own = f"{it.first}, at {it.value:#x}"
    if name == TEXT:
        where = f"{it.second} does" if it.second else "no segment does"
        return it.story(f"{it.first} does not have the headers: {where}.", *numbers).read_as(by_name, own).read_as(
            by_bytes, other)
    where = f"{it.second} is at {it.limit:#x}" if it.second else "no segment is named __TEXT"
    return it.story(f"{it.first} has the headers, at {it.value:#x}, and {where}.", *numbers).read_as(
        by_name, other).read_as(by_bytes, own)


def segment_page(it: Teller) -> Story:
    is_memory = it.first_part.kind == "segment-memory"
    what = "address" if is_memory else "offset"
    return it.story(f"{it.first} begins at {what} {it.value:#x}, which is no multiple of the size of a page, "
                    f"{it.limit:#x}.", "vmaddr" if is_memory else "fileoff", "size of a page").read_as(
        f"readers of each {what}", f"the segment from {it.value:#x} on").read_as(
        KERNEL, f"the segment from {it.value - it.value % it.limit:#x} on")


def segment_protection(it: Teller) -> Story:
    lacking = it.value & ~it.limit & PROTECTION
    if lacking:
        story = it.story(f"the initprot of {it.first} allows more than its maxprot: {protection_text(lacking)}.", "initprot",
                         "maxprot")
    else:
        limit = "VM_PROT_READ + VM_PROT_WRITE + VM_PROT_EXECUTE" if it.limit == PROTECTION else "maxprot"
        story = it.story(f"the initprot of {it.first}, {it.value:#x}, has a bit that has no meaning.", "initprot", limit)
    return story.read_as("readers of initprot", f"{it.value:#x} ({protection_text(it.value)})").read_as(
        "a kernel, which leaves out some bits", protection_text(it.value & it.limit))


def bytes_encrypted(it: Teller) -> Story:
    if it.first_part.kind == "segment":
        story = it.story(f"the bytes of {it.first} are encrypted: a kernel decrypts its pages.", "flags",
                         "SG_PROTECTED_VERSION_1")
    else:
        where = f" in {it.second}" if it.second else ""
        story = it.story(f"{it.first}{where} is encrypted: its cryptid is {it.value}.", "cryptid")
    return story.read_as("readers of the file", "encrypted bytes").read_as("a kernel", "other bytes, which run")


def number_shift(it: Teller) -> Story:
    if it.first_part.kind == "command":
        return it.story(f"{it.first} comes before {it.second}: readers that skip a library that is loaded late give the "
                        "later one another ordinal.", "cmd", "cmd of the later").read_as(
            "readers that count all libraries", f"{it.second} by its own ordinal").read_as(
            "readers that skip the late one", f"{it.second} by a lower one")
    if it.second_part.kind == "segment-memory":
        return it.story(f"{it.first} is not mapped and comes before {it.second}, which is writable: readers that skip it "
                        "give the later one another number.", "vmsize", "vmsize of the later").read_as(
            "readers that count all segments", f"{it.second} as number {it.second_part.index}").read_as(
            "readers that count those that are mapped", f"{it.second} by a lower number")
    by_segments, by_sections = "readers that count segments", "readers that count runs of sections"
    if not it.second and it.value == it.first_part.start and not it.limit:
        return it.story(f"{it.first} takes fixups and has no section, and some readers know segments by their sections.",
                        "vmaddr").read_as(by_segments, f"offsets in fixups from {it.value:#x} on").read_as(
            by_sections, "offsets in another segment")
    if not it.second:
        return it.story(f"{it.first} has the number {it.value} in fixups, and the number {it.limit} in readers that count "
                        "the segments that have sections.", "number of the segment", "its number by the sections").read_as(
            by_segments, f"{it.first} as number {it.value}").read_as(by_sections, f"{it.first} as number {it.limit}")
    return it.story(f"{it.first} begins at {it.value:#x}, and its first section, {it.second}, at {it.limit:#x}: some "
                    "readers take the start of the section for that of the segment.", "vmaddr",
                    "addr of the section").read_as(
        by_segments, f"offsets in fixups from {it.value:#x} on").read_as(by_sections, f"offsets from {it.limit:#x} on")


def section_name(it: Teller) -> Story:
    if it.first_part.kind == "byte":
        return _tail(it, "sectname")
    if it.first_part.kind == "name":
        own, other = (padded(it.case.data[part.start:part.end]) for part in (it.first_part, it.second_part))
        return it.story(f'{it.at} has the segname "{own}", and the segment that it is in has the segname "{other}".'
                        ).read_as("readers of the section's names", f'the segname "{own}"').read_as(
            "readers of the segment's name", f'the segname "{other}"')
    return it.story(f"{it.first} and {it.second} have the same two names.", "place of the later section",
                    "place of the earlier section").read_as(FIRST_OF, it.second).read_as(LAST_OF, it.first)


def section_alone(it: Teller) -> Story:
    if it.second_part.kind == "byte":
        return it.story(f"{it.first} shows a zero where its segment has the byte {it.value:02x}, at "
                        f"{it.second_part.start:#x} of the file.", "byte").read_as(
            "readers of sections", "a zero").read_as("readers of segments", f"the byte {it.value:02x}")
    one, other = f"{it.first} at address {it.value:#x}", f"{it.second} at address {it.value:#x}"
    return it.shares().read_as(LAST_OF, one).read_as(FIRST_OF, other)


def entry_one(it: Teller) -> Story:
    if it.second_part.kind == "command":
        return it.story(f"{it.first} comes after {it.second}, and both say where the program begins.", "cmd",
                        "cmd of the earlier").read_as(FIRST_OF, it.second).read_as(LAST_OF, it.first)
    if it.second_part.kind == "header":
        kind = FILETYPES.get(it.value)
        named = f"{it.value}{f' ({kind})' if kind else ''}"
        return it.story(f"{it.first} says where a program begins, and the filetype is {named}.", "filetype",
                        "MH_EXECUTE").read_as("readers of the command", "a program with an entry").read_as(
            "readers of the filetype", f"filetype {named}, which has none")
    if it.second_part.kind == "data-in-code":
        return it.story(f"the program begins at {it.value:#x}, which {it.second} has, up to {it.limit:#x}.",
                        "place of the entry", "end of the data").read_as(
            "a kernel", f"code at {it.value:#x}").read_as("a disassembler", f"data at {it.value:#x}")
    return it.story(f"the entry is at {it.limit:#x} of {it.whole}, in {it.second}, and entryoff is {it.value:#x}.",
                    "entryoff", "place of the entry").read_as(
        "a loader, which counts from the base", f"the entry at {it.limit:#x} of {it.whole}").read_as(
        "readers that take entryoff for an offset in the file", f"the entry at {it.value:#x}")


def export_edge(it: Teller) -> Story:
    labels = _labels(bytes(it.case.data[it.at_part.start:it.at_part.end]))
    one, other = labels[it.limit], labels[it.value]
    if not other:
        story = it.story(f"the label of edge {it.value} of {it.at} is empty.", "edge")
    elif one == other:
        story = it.story(f"edges {it.limit} and {it.value} of {it.at} have the same label, {_text(one)}.", "edge",
                         "earlier edge")
    else:
        (short, fewer), (long, more) = sorted(((one, it.limit), (other, it.value)), key=lambda label: len(label[0]))
        story = it.story(f"the label of edge {more} of {it.at}, {_text(long)}, begins with the label of edge {fewer}, "
                         f"{_text(short)}.", "edge", "earlier edge")
    return story.read_as("a list of exports", "the names along each edge").read_as(
        "a look-up", "the names along the first edge that fits")


def _labels(node: bytes) -> List[bytes]:
    """The labels of a node of an export trie."""
    size, place = _number(node, 0)
    labels: List[bytes] = []
    at = place + size + 1
    for _ in range(node[place + size]):
        labels.append(node[at:node.index(0, at)])
        _, at = _number(node, at + len(labels[-1]) + 1)
    return labels


def _number(data: bytes, place: int) -> Tuple[int, int]:
    """The number at a place, of seven bits in each byte, and where it ends."""
    end = place
    while data[end] & 0x80:
        end += 1
    return sum((byte & 0x7F) << 7 * at for at, byte in enumerate(data[place:end + 1])), end + 1


def _text(name: bytes) -> str:
    """A name as it is shown."""
    return cut(plain(memoryview(name)))


def symbol_kind(it: Teller) -> Story:
    if it.second_part.kind == "name":
        name = _text(bytes(it.case.data[it.second_part.start:it.second_part.end]))
        return it.story(f'{it.at} has no name, because its n_strx is 0, and the first string is "{name}".',
                        "index of the symbol", "bytes of the first string").read_as(
            "readers that take n_strx 0 for no name", "no name").read_as(
            "readers of the string at 0", f'the name "{name}"')
    own, found = GROUPS[it.second_part.index or 0], list(_groups(it))
    names = " and ".join(f"of {name}" for name in found)
    where = f"in the group{'s' if len(found) > 1 else ''} {names} symbols" if found else "in no group"
    return it.story(f"{it.at} is {_article(own)} symbol by its n_type, and {where}.", "index of the symbol",
                    f"first index of {it.second}").read_as("readers of the type", f"{_article(own)} symbol").read_as(
        "readers of the groups", f"{' and '.join(map(_article, found))} symbol" if found else "no symbol")


def _groups(it: Teller) -> Iterator[str]:
    """The groups that have the symbol with the index."""
    command = it.case.data[it.second_part.described:]
    for name, start, count in (("local", "ilocalsym", "nlocalsym"), ("defined", "iextdefsym", "nextdefsym"),
                               ("undefined", "iundefsym", "nundefsym")):
        first = number_in(command, "dysymtab_command", start)
        if first <= it.value < first + number_in(command, "dysymtab_command", count):
            yield name


def _article(word: str) -> str:
    return f"{'an' if word[0] in 'aeiou' else 'a'} {word}"


def symbol_total(it: Teller) -> Story:
    return it.story(f"up to {it.at}, the names of the external symbols have {it.value} bytes, and {it.whole} has "
                    f"{it.limit}.", "bytes of the names", f"length of {it.whole}").read_as(
        "readers of all names", f"this name, and with it {it.value} bytes of names").read_as(
        f"readers of no more bytes than {it.whole} has", "earlier names alone")


def export_symbol(it: Teller) -> Story:
    own = _Nlist(it.case.data, it.at_part)
    # Equal numbers do not show the conflict.
    numbers = ("n_value", f"{'n_value' if it.second else 'address'} of the other") if it.value != it.limit else ("", "")
    return _of_symbols(it, own, numbers) if it.second else _of_export(it, own, numbers)


class _Nlist:
    """A symbol in the file: its value, its type, and whether it is weak."""

    def __init__(self, data: memoryview, part: FilePart) -> None:
        fields = data[part.start:part.end]
        self.value = number_in(fields, "nlist_64", "n_value")
        self.type = number_in(fields, "nlist_64", "n_type") & N_TYPE
        self.is_weak = number_in(fields, "nlist_64", "n_desc") & N_WEAK_DEF != 0

    @property
    def what(self) -> str:
        """What it is by its type."""
        return TYPES.get(self.type, f"a symbol of the type {self.type:#x}")


def _weak(is_weak: bool) -> str:
    return "a weak definition" if is_weak else "a definition that is not weak"


def _of_symbols(it: Teller, own: _Nlist, numbers: Tuple[str, str]) -> Story:
    """Two symbols of one name."""
    other = _Nlist(it.case.data, it.second_part)
    if own.value != other.value:
        sees = [f"the value {one.value:#x}" for one in (own, other)]
        story = it.story(f"{it.at} has {sees[0]}, and {it.second}, of the same name, has {sees[1]}.", *numbers)
    else:
        sees = [own.what, other.what] if own.type != other.type else [_weak(own.is_weak), _weak(other.is_weak)]
        story = it.story(f"{it.at} is {sees[0]}, and {it.second}, of the same name and value, {own.value:#x}, is "
                         f"{sees[1]}.", *numbers)
    return story.read_as(FIRST_OF, sees[1]).read_as(LAST_OF, sees[0])


def _of_export(it: Teller, own: _Nlist, numbers: Tuple[str, str]) -> Story:
    """A symbol, and the export of its name."""
    export = f"the export of its name is at {it.limit:#x}"
    by_symbols, by_exports = "readers of symbols", "a look-up in the export trie"
    if own.type in (N_UNDF, N_PBUD):
        return it.story(f"{it.at} is undefined, and {export}.", *numbers).read_as(
            by_symbols, "a symbol of another image").read_as(by_exports, f"a definition at {it.limit:#x}")
    if own.type == N_INDR:
        return it.story(f"{it.at} is {own.what}, and {export}.", *numbers).read_as(by_symbols, own.what).read_as(
            by_exports, f"a definition at {it.limit:#x}")
    if own.value != it.limit:
        return it.story(f"{it.at} is at {own.value:#x}, and {export}.", *numbers).read_as(
            by_symbols, f"{own.value:#x}").read_as(by_exports, f"{it.limit:#x}")
    own_is, other_is = ("is weak", "is not") if own.is_weak else ("is not weak", "is")
    return it.story(f"{it.at} {own_is}, and the export of its name {other_is}. Both are at {own.value:#x}.",
                    *numbers).read_as(
        by_symbols, _weak(own.is_weak)).read_as(by_exports, _weak(not own.is_weak))


def signature_slot(it: Teller) -> Story:
    slot, magic, numbers = it.value, it.limit, ("slot", "magic number")
    if it.second:
        return it.story(f"{it.first} is in slot {slot:#x}, as is {it.second}.", *numbers).read_as(
            FIRST_OF, it.second).read_as(LAST_OF, it.first)
    known = MAGIC_NUMBERS.get(slot)
    if known is not None:
        return it.story(f"{it.first} is in slot {slot:#x} and has the magic number {magic:#x}, but a blob of this slot "
                        f"has {known:#x}.", *numbers).read_as("readers that look for the slot", it.first).read_as(
            "readers that look for the magic number too", f"no blob in slot {slot:#x}")
    like = next((other for other, number in MAGIC_NUMBERS.items() if number == magic), None)
    if like is not None:
        return it.story(f"{it.first} is in slot {slot:#x}, which is not known, and has the magic number {magic:#x} of "
                        f"a blob in slot {like:#x}.", *numbers).read_as(
            "readers that look for a slot", f"a blob that is not known, in slot {slot:#x}").read_as(
            "readers that look for a magic number", f"a blob as in slot {like:#x}")
    greater, index = max((other, index) for index, other in _slots(it) if other not in NAMED_SLOTS)
    return it.story(f"{it.first} is in slot {slot:#x}, and the blob of entry {index} before it in slot {greater:#x}: "
                    "slots without a name have to rise.", *numbers).read_as("readers of all entries", it.first).read_as(
        "readers that expect slots in their order", f"no blob in slot {slot:#x}")


def _slots(it: Teller) -> Iterator[Tuple[int, int]]:
    """The entries before the one at the place: the index of each, and its slot."""
    count, data = it.at_part.index or 0, it.case.data
    first = it.at_part.start - it.at_part.size * count
    for index in range(count):
        yield index, number_in(data[first + it.at_part.size * index:], "CS_BlobIndex", "type")


class _Directory:
    """A code directory in the file."""

    def __init__(self, data: memoryview, start: int, end: int) -> None:
        self.data = data[start:end]
        self.size = directory_size(number_in(self.data, "CS_CodeDirectory", "version"))

    def __getitem__(self, name: str) -> int:
        """The number in a field, 0 if its version does not have the field."""
        field = field_of("CS_CodeDirectory", name)
        return number_in(self.data, "CS_CodeDirectory", name) if field.start + field.width <= self.size else 0

    def text(self, name: str) -> Optional[bytes]:
        """The text whose offset is in a field, None if that is 0."""
        offset = self[name]
        return bytes(self.data[offset:]).partition(b"\0")[0] if offset else None

    def says(self) -> Iterator[Tuple[object, str]]:
        """What it says of the program: each with the words for it."""
        for name, what in (("identOffset", "identifier"), ("teamOffset", "team")):
            text = self.text(name)
            yield text, f"no {what}" if text is None else f"the {what} {_text(text)}" if text else f"an empty {what}"
        for name in ("flags", "platform"):
            yield self[name], f"the {name} {self[name]:#x}"
        segment = [self[name] for name in ("execSegBase", "execSegLimit", "execSegFlags")]
        yield segment, "the execSegBase {:#x}, execSegLimit {:#x} and execSegFlags {:#x}".format(*segment)
        yield self["runtime"], f"the runtime {self['runtime']:#x}"


def directory_agree(it: Teller) -> Story:
    own, first = (_Directory(it.case.data, part.start, part.end) for part in (it.first_part, it.second_part))
    numbers = "hashType", "hashType of the first directory"
    for (one, says), (other, says_first) in zip(own.says(), first.says()):
        if one != other:
            return it.story(f"{it.first} has {says}, and {it.second}, the first code directory, has {says_first}.",
                            *numbers).read_as("readers of the first directory", says_first).read_as(
                "readers of the later one", says)
    for index, slot in _slots(it):
        if slot in DIRECTORY_SLOTS and _earlier(it, index)["hashType"] == it.value:
            return it.story(f"the blobs of entries {index} and {it.at_part.index} are code directories of one hash "
                            f"type, {hash_type_name(it.value)}.", *numbers).read_as(
                FIRST_OF, f"the hashes of the blob of entry {index}").read_as(LAST_OF, f"the hashes of {it.first}")
    return _unclear(it, own, numbers)


def _earlier(it: Teller, index: int) -> _Directory:
    """The code directory of an earlier entry."""
    data, size = it.case.data, it.at_part.size
    entry = it.at_part.start - size * ((it.at_part.index or 0) - index)
    # The first part begins at the offset of its own entry.
    table = it.first_part.start - number_in(data[it.at_part.start:], "CS_BlobIndex", "offset")
    start = table + number_in(data[entry:], "CS_BlobIndex", "offset")
    return _Directory(data, start, start + number_in(data[start:], "CS_GenericBlob", "length"))


def _unclear(it: Teller, own: _Directory, numbers: Tuple[str, str]) -> Story:
    """A code directory that says two things by itself."""
    limit, long_limit = own["codeLimit"], own["codeLimit64"]
    if long_limit not in (0, limit):
        says = f"{it.first} has the codeLimit {limit:#x}, and the codeLimit64 {long_limit:#x}."
        return it.story(says, *numbers).read_as(
            "readers of codeLimit", f"hashes of the bytes up to {limit:#x}").read_as(
            "readers of codeLimit64", f"hashes of the bytes up to {long_limit:#x}")
    if not own["pageSize"]:
        return it.story(f"{it.first} has the pageSize 0.", *numbers).read_as(
            "readers that take 0 for no size", "one page with all bytes").read_as(
            "readers that take it for a power of 2", "pages of one byte")
    if not own["identOffset"]:
        return it.story(f"{it.first} has no identifier: its identOffset is 0.", *numbers).read_as(
            "readers that take 0 for none", "no identifier").read_as(
            "readers of the text at 0", "the magic number as the identifier")
    name, what = ("identOffset", "identifier") if own["identOffset"] < own.size else ("teamOffset", "team")
    says = f"the {what} of {it.first} begins at {own[name]:#x}, among its fields, which have {own.size} bytes."
    return it.story(says, *numbers).read_as(
        "readers of any offset", f"{_article(what)}, which begins with bytes of fields").read_as(
        "readers of texts past the fields", f"no {what}")
