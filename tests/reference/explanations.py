"""What explains a refusal, worked out a second time: from the table of docs/reference/explain.md, over the parser of
oracle.py and nothing of the library. `explain` returns all numbers of a `struct kesvuot_explanation`.

A function of a rule takes the image, or the file, and the place in it. It returns what is at the place, the two parts,
and the two numbers that are compared. A part is its kind, its index, its start, its size, and where it is described,
all of the slice; `in_file` adds where the slice begins.
"""

from __future__ import annotations

from types import SimpleNamespace
from typing import Any, NamedTuple, Optional

from . import oracle


NO_INDEX, MOST = 2 ** 32 - 1, 2 ** 64 - 1
KINDS = """none file magic fat_header fat_table fat_arch slice header headers command segment segment_memory section
section_bytes section_memory relocations table group name symbol indirect opcode byte chain_header chain_array
chain_entry chain_starts chain_import page_start chain_pointer function_start data_in_code_entry data_in_code
export_node signature_entry signature_blob relocation code_page code_hash""".split()
# What has addresses or indices in place of offsets.
OF_NUMBERS = {"segment_memory", "section_memory", "group"}


class Part(NamedTuple):
    kind: str = "none"
    index: int = NO_INDEX
    start: int = 0
    size: int = 0
    described: int = 0


class Explanation(NamedTuple):
    at: Part
    first: Part
    second: Part
    value: int
    limit: int
    slice: int = NO_INDEX
    command: int = NO_INDEX
    section: int = NO_INDEX
    symbol: int = NO_INDEX


NONE = Part()


def structure(kind: str, start: int, size: int, index: int = NO_INDEX) -> Part:
    return Part(kind, index, start, size, start)


def little(data: bytes, place: int, width: int = 4) -> int:
    return int.from_bytes(data[place:place + width], "little")


def most(number: int) -> int:
    return min(number, MOST)


def explain(data: bytes, rule: str, place: int) -> Explanation:
    """What explains that the file breaks the rule at the place."""
    file = oracle.File(data)
    name = rule.replace("-", "_")
    if name in OF_FILE:
        found = OF_FILE[name](file, place)
        return found._replace(value=most(found.value), limit=most(found.limit))
    # The place of command-walk and export-node can be just past the slice.
    index = slice_with(file, place - (rule in ("command-walk", "export-node")))
    image = file.slices[index]
    found = OF_IMAGE[name](image, place - image.start)
    parts = [in_file(file, image, index, part) for part in found[:3]]
    shared = found.first.kind not in OF_NUMBERS and is_sharing(found)
    numbers = [most(number + image.start if shared else number) for number in (found.value, found.limit)]
    return found._replace(at=parts[0], first=parts[1], second=parts[2], value=numbers[0], limit=numbers[1], slice=index)


def is_sharing(found: Explanation) -> bool:
    """Whether the numbers are those of shared bytes."""
    one, other = found.first, found.second
    first, end = max(one.start, other.start), min(one.start + one.size, other.start + other.size)
    return first < end and (found.value, found.limit) == (first, end - 1) and other.kind != "slice"


def in_file(file: Any, image: Any, index: int, part: Part) -> Part:
    """The part of the slice as one of the file."""
    if part.kind == "slice":
        return slice_part(file, index)
    if part.kind in ("none", "fat_arch"):
        return part
    start = part.start if part.kind in OF_NUMBERS else most(part.start + image.start)
    return part._replace(start=start, size=most(part.size), described=part.described + image.start)


def of_numbers(numbers: list[int]) -> Explanation:
    """The explanation that has these numbers: those of three parts (kind, index, start, size, described), and the
    others."""
    parts = [Part(KINDS[numbers[at]], *numbers[at + 1:at + 5]) for at in (0, 5, 10)]
    return Explanation(parts[0], parts[1], parts[2], *numbers[15:])


# The file


def slice_with(file: Any, place: int) -> int:
    return next(index for index, image in enumerate(file.slices)
                if image.is_64_bit and image.start <= place < image.start + image.length)


def entry_at(file: Any, place: int) -> int:
    return next(index for index, entry in enumerate(file.entries) if entry.place == place)


def entry_part(file: Any, index: int) -> Part:
    return structure("fat_arch", file.entries[index].place, oracle.SIZES[file.entry_structure], index)


def slice_part(file: Any, index: int) -> Part:
    if not file.is_universal:
        return Part("slice", 0, 0, len(file.data), 0)
    entry = file.entries[index]
    return Part("slice", index, entry.offset, entry.size, entry.place)


def table_part(file: Any) -> Part:
    return structure("fat_table", 0, file.table_end)


def first_word(data: bytes) -> int:
    return little(data, 0) if len(data) >= 4 else 0


def magic(file: Any, _: int) -> Explanation:
    return Explanation(structure("magic", 0, min(4, len(file.data))), NONE, NONE, first_word(file.data), 0xfeedfacf)


def fat_header_part(file: Any) -> Part:
    return structure("fat_header", 0, min(8, len(file.data)))


def fat_truncated(file: Any, _: int) -> Explanation:
    first = structure("fat_header", 0, 8) if len(file.data) < 8 else table_part(file)
    return Explanation(fat_header_part(file), first, structure("file", 0, len(file.data)), first.size, len(file.data))


def fat_empty(file: Any, _: int) -> Explanation:
    return Explanation(fat_header_part(file), table_part(file), NONE, 0, 1)


def of_entry(file: Any, place: int, second: Part, value: int, limit: int) -> Explanation:
    index = entry_at(file, place)
    return Explanation(entry_part(file, index), slice_part(file, index), second, value, limit, index)


def fat_slice_outside(file: Any, place: int) -> Explanation:
    entry = file.entries[entry_at(file, place)]
    whole = structure("file", 0, len(file.data))
    return of_entry(file, place, whole, entry.offset + entry.size, len(file.data))


def fat_slice_in_table(file: Any, place: int) -> Explanation:
    return of_entry(file, place, table_part(file), file.entries[entry_at(file, place)].offset, file.table_end)


def fat_align(file: Any, place: int) -> Explanation:
    entry = file.entries[entry_at(file, place)]
    return of_entry(file, place, NONE, entry.offset, 2 ** entry.align if entry.align < 64 else 0)


def fat_overlap(file: Any, place: int) -> Explanation:
    own = slice_part(file, entry_at(file, place))
    for index in range(own.index):
        other = slice_part(file, index)
        found = shared_by(own, other)
        if found:
            return of_entry(file, place, other, *found)
    raise ValueError("no overlap")


def fat_duplicate(file: Any, place: int) -> Explanation:
    def number(entry: Any) -> int:
        return entry.cputype << 32 | oracle.masked(entry.cpusubtype)
    own = number(file.entries[entry_at(file, place)])
    other = next(index for index, entry in enumerate(file.entries) if number(entry) == own)
    return of_entry(file, place, slice_part(file, other), own, own)


def fat_slice_magic(file: Any, place: int) -> Explanation:
    known = (oracle.MH_MAGIC_64, oracle.MH_MAGIC_64_BIG, oracle.MH_MAGIC, oracle.MH_MAGIC_BIG)
    index, image = next((index, image) for index, image in enumerate(file.slices)
                        if image.start == place and image.data[:4] not in known)
    at = structure("magic", place, min(4, image.length), index)
    return Explanation(at, slice_part(file, index), NONE, first_word(image.data), 0xfeedfacf, index)


def fat_stray_byte(file: Any, place: int) -> Explanation:
    parts = [table_part(file)] + [slice_part(file, index) for index in range(len(file.entries))]
    return byte_between(file.data, place, parts)


# Parts that share, and what is next to a byte


def shared_by(one: Part, other: Part) -> Optional[tuple[int, int]]:
    first, end = max(one.start, other.start), min(one.start + one.size, other.start + other.size)
    return (first, end - 1) if first < end else None


def byte_between(data: bytes, place: int, parts: list[Part]) -> Explanation:
    parts = [part for part in parts if part.size > 0]
    before = [part for part in parts if part.start + part.size <= place]
    after = [part for part in parts if part.start > place]
    return Explanation(structure("byte", place, 1),
                       max(before, key=lambda part: part.start + part.size, default=NONE),
                       min(after, key=lambda part: part.start, default=NONE), data[place], 0)


# Parts of an image


def header_part(image: Any) -> Part:
    return structure("header", 0, min(32, image.length))


def headers_part(image: Any) -> Part:
    return structure("headers", 0, image.commands_end)


SLICE = Part("slice")


def walked(image: Any) -> list[Any]:
    """The commands up to the first bad one."""
    found: list[Any] = []
    place = 32
    while len(found) < image.header.ncmds and place + 8 <= image.commands_end:
        command = oracle.read(image.data, place, "load_command")
        if command.cmdsize < 8 or command.cmdsize % 8 or place + command.cmdsize > image.commands_end:
            break
        found.append(command)
        place += command.cmdsize
    return found


def command_part(image: Any, place: int) -> Part:
    """The command that has the place."""
    return next((structure("command", command.place, command.cmdsize, index)
                 for index, command in enumerate(walked(image))
                 if command.place <= place < command.place + command.cmdsize), NONE)


def first_with(image: Any, *cmds: int) -> Part:
    return next((structure("command", command.place, command.cmdsize, index)
                 for index, command in enumerate(walked(image)) if command.cmd in cmds), NONE)


def of_command(image: Any, place: int, first: Part, second: Part, value: int, limit: int) -> Explanation:
    at = command_part(image, place)
    return Explanation(at, first, second, value, limit, command=at.index)


def segment_index(image: Any, segment: Any) -> int:
    return [other.place for other in image.segments].index(segment.place)


def segment_part(image: Any, segment: Any) -> Part:
    return Part("segment", segment_index(image, segment), segment.fileoff, segment.filesize, segment.place)


def memory_part(image: Any, segment: Any) -> Part:
    return Part("segment_memory", segment_index(image, segment), segment.vmaddr, segment.vmsize, segment.place)


def segment_at(image: Any, place: int) -> Any:
    return next(segment for segment in image.segments if segment.place == place)


def section_index(image: Any, place: int) -> int:
    return [section.place for section in image.sections].index(place)


def table_parts(image: Any, command: Any) -> list[Part]:
    """The tables of a listed command, or the data of another one."""
    structure_name = oracle.LISTED[command.cmd][0] if command.cmd in oracle.LISTED else None
    if structure_name:
        rows = oracle.BOUNDED_TABLES.get(structure_name, [])
    elif command.cmd in oracle.UNLISTED_DATA and command.cmdsize >= 16:
        structure_name, *row = oracle.UNLISTED_DATA[command.cmd]
        rows = [row]
    else:
        return []
    fields = oracle.read(image.data, command.place, structure_name)
    return [Part("table", index, getattr(fields, start), getattr(fields, count) * width, command.place)
            for index, (start, count, width) in enumerate(rows)]


def symtab_tables(image: Any) -> list[Part]:
    symtab = image.only(oracle.LC_SYMTAB)
    return table_parts(image, symtab) if symtab else [NONE, NONE]


def element_parts(image: Any) -> list[Part]:
    parts = [headers_part(image)]
    sections = {segment.place: segment.sections for segment in image.segments}
    for command in image.commands:
        for section in sections.get(command.place, []):
            index = section_index(image, section.place)
            size = 0 if oracle.is_zero_fill(section) else section.size
            parts.append(Part("section_bytes", index, section.offset, size, section.place))
            parts.append(Part("relocations", index, section.reloff, 8 * section.nreloc, section.place))
        if command.cmd != oracle.LC_ENCRYPTION_INFO_64:
            parts += table_parts(image, command)
    return parts


# The rules of the header and the load commands


def of_header(image: Any, first: Part, second: Part, value: int, limit: int) -> Explanation:
    return Explanation(header_part(image), first, second, value, limit)


def header_truncated(image: Any, _: int) -> Explanation:
    return of_header(image, structure("header", 0, 32), SLICE, 32, image.length)


def arch_mismatch(image: Any, _: int) -> Explanation:
    def number(fields: Any) -> int:
        return fields.cputype << 32 | oracle.masked(fields.cpusubtype)
    size = oracle.SIZES["fat_arch_64" if hasattr(image.entry, "reserved") else "fat_arch"]
    entry_of = structure("fat_arch", image.entry.place, size, (image.entry.place - 8) // size)
    return of_header(image, structure("header", 0, 32), entry_of, number(image.header), number(image.entry))


def file_type(image: Any, _: int) -> Explanation:
    return of_header(image, NONE, NONE, image.header.filetype, 0)


def commands_outside(image: Any, _: int) -> Explanation:
    return of_header(image, headers_part(image), SLICE, image.commands_end, image.length)


def command_walk(image: Any, place: int) -> Explanation:
    index = len(walked(image))
    at = structure("command", place, min(8, image.length - place), index)
    end = image.commands_end
    if place + 8 > end:
        first, second, numbers = structure("command", place, 8, index), headers_part(image), (place + 8, end)
    else:
        size = little(image.data, place + 4)
        first = structure("command", place, size, index)
        is_size = size >= 8 and size % 8 == 0
        second, numbers = (headers_part(image), (place + size, end)) if is_size else (NONE, (size, 8))
    return Explanation(at, first, second, *numbers, command=index)


def command_short(image: Any, place: int) -> Explanation:
    command = oracle.read(image.data, place, "load_command")
    least = oracle.least_size(image, command)
    return of_command(image, place, command_part(image, place), NONE, command.cmdsize, least)


def command_repeated(image: Any, place: int) -> Explanation:
    cmd = little(image.data, place)
    return of_command(image, place, command_part(image, place), first_with(image, cmd), cmd, cmd)


def dylib_id(image: Any, _: int) -> Explanation:
    own = first_with(image, oracle.LC_ID_DYLIB)
    names_itself = oracle.FILETYPES[image.header.filetype][0]
    return of_header(image, NONE, own, int(own != NONE), int(names_itself))


def name(image: Any, place: int) -> Explanation:
    command, offset = command_part(image, place), little(image.data, place + 8)
    least = oracle.LISTED[little(image.data, place)][2]
    if offset < least:
        return of_command(image, place, NONE, NONE, offset, least)
    rest = Part("name", NO_INDEX, place + offset, max(0, command.size - offset), place)
    return of_command(image, place, rest, command, offset, command.size)


# The rules of segments and sections


def segment_address(image: Any, place: int) -> Explanation:
    segment = segment_at(image, place)
    return of_command(image, place, memory_part(image, segment), NONE, segment.vmsize, 2 ** 64 - segment.vmaddr)


def segment_size(image: Any, place: int) -> Explanation:
    segment = segment_at(image, place)
    return of_command(image, place, segment_part(image, segment), memory_part(image, segment), segment.filesize,
                      segment.vmsize)


def segment_file(image: Any, place: int) -> Explanation:
    segment = segment_at(image, place)
    end = segment.fileoff + segment.filesize
    return of_command(image, place, segment_part(image, segment), SLICE, end, image.length)


def segment_sharing(image: Any, place: int, part_of: Any) -> Explanation:
    own = part_of(image, segment_at(image, place))
    for segment in image.segments[:own.index]:
        found = shared_by(own, part_of(image, segment))
        if found:
            return of_command(image, place, own, part_of(image, segment), *found)
    raise ValueError("no overlap")


def segment_overlap(image: Any, place: int) -> Explanation:
    return segment_sharing(image, place, memory_part)


def segment_file_overlap(image: Any, place: int) -> Explanation:
    return segment_sharing(image, place, segment_part)


def of_section(image: Any, place: int, first: Part, second: Part, value: int, limit: int) -> Explanation:
    index = section_index(image, place)
    return Explanation(structure("section", place, 80, index), first, second, value, limit,
                       command=command_part(image, place).index, section=index)


def section_address(image: Any, place: int) -> Explanation:
    section = image.sections[section_index(image, place)]
    segment = section.segment
    own = Part("section_memory", section_index(image, place), section.addr, section.size, place)
    numbers = section.addr, segment.vmaddr
    if section.addr >= segment.vmaddr:
        numbers = section.addr + section.size - 1, segment.vmaddr + segment.vmsize - 1
    return of_section(image, place, own, memory_part(image, segment), *numbers)


def section_file(image: Any, place: int) -> Explanation:
    section = image.sections[section_index(image, place)]
    segment = section.segment
    own = Part("section_bytes", section_index(image, place), section.offset, section.size, place)
    end = section.offset + section.size
    if segment.vmsize == 0:
        return of_section(image, place, own, SLICE, end, image.length)
    wanted = segment.fileoff + section.addr - segment.vmaddr
    numbers = (section.offset, wanted) if section.offset != wanted else (end, segment.fileoff + segment.filesize)
    return of_section(image, place, own, segment_part(image, segment), *numbers)


def section_relocs(image: Any, place: int) -> Explanation:
    section = image.sections[section_index(image, place)]
    size = 8 * section.nreloc
    own = Part("relocations", section_index(image, place), section.reloff, size, place)
    return of_section(image, place, own, SLICE, section.reloff + size, image.length)


# The rules of tables, symbols and the entry


def listed_at(image: Any, place: int) -> Any:
    return next(command for command in image.listed if command.place == place)


def table_range(image: Any, place: int) -> Explanation:
    table = next(part for part in table_parts(image, listed_at(image, place))
                 if part.size > 0 and part.start + part.size > image.length)
    return of_command(image, place, table, SLICE, table.start + table.size, image.length)


def symbol_group(image: Any, place: int) -> Explanation:
    for index in range(3):
        first, count = (little(image.data, place + 8 + 8 * index + 4 * half) for half in (0, 1))
        if count and first + count > image.symbol_count:
            group = Part("group", index, first, count, place)
            return of_command(image, place, group, symtab_tables(image)[0], first + count, image.symbol_count)
    raise ValueError("no group")


def of_symbol(image: Any, place: int, first: Part, second: Part, value: int, limit: int) -> Explanation:
    index = (place - image.only(oracle.LC_SYMTAB).symoff) // 16
    return Explanation(structure("symbol", place, 16, index), first, second, value, limit, symbol=index)


def symbol_name(image: Any, place: int) -> Explanation:
    strings, strx = symtab_tables(image)[1], little(image.data, place)
    rest = Part("name", NO_INDEX, strings.start + strx, max(0, strings.size - strx), place)
    return of_symbol(image, place, rest, strings, strx, strings.size)


def symbol_section(image: Any, place: int) -> Explanation:
    return of_symbol(image, place, NONE, NONE, image.data[place + 5], len(image.sections))


def indirect_index(image: Any, place: int) -> Explanation:
    index = (place - image.only(oracle.LC_DYSYMTAB).indirectsymoff) // 4
    return Explanation(structure("indirect", place, 4, index), NONE, symtab_tables(image)[0],
                       little(image.data, place), image.symbol_count)


def entry(image: Any, place: int) -> Explanation:
    entryoff = little(image.data, place + 8, 8)
    base = image.base_segment
    if base is None:
        return of_command(image, place, NONE, NONE, entryoff, 0)
    address = base.vmaddr + entryoff
    for segment in image.segments:
        if segment.vmaddr <= address < segment.vmaddr + segment.vmsize:
            return of_command(image, place, memory_part(image, base), memory_part(image, segment), address,
                              segment.vmaddr + segment.filesize)
    return of_command(image, place, memory_part(image, base), NONE, address, 0)


# The strict profile


def commands_end(image: Any, _: int) -> Explanation:
    commands = walked(image)
    last = command_part(image, commands[-1].place) if commands else NONE
    end = last.start + last.size if commands else 32
    return of_header(image, last, headers_part(image), end, image.commands_end)


def header_segment(image: Any, _: int) -> Explanation:
    found = [segment_part(image, segment) for segment in image.segments
             if segment.vmsize > 0 and segment.fileoff == 0]
    second = found[0] if found else NONE
    return of_header(image, headers_part(image), second, image.commands_end, second.size)


def element_overlap(image: Any, place: int) -> Explanation:
    parts = element_parts(image)
    is_section = place in [section.place for section in image.sections]
    of_place = of_section if is_section else of_command
    for number, part in enumerate(parts):
        if part.described == place and part.kind != "headers":
            for other in parts[:number]:
                found = shared_by(part, other)
                if found:
                    return of_place(image, place, part, other, *found)
            if part.size > 0 and part.start + part.size > image.length:
                return of_place(image, place, part, SLICE, part.start + part.size, image.length)
    raise ValueError("no overlap")


def in_command(image: Any, place: int, found: Explanation) -> Explanation:
    return found._replace(command=command_part(image, place).index)


def stray_byte(image: Any, place: int) -> Explanation:
    parts = [segment_part(image, segment) for segment in image.segments]
    return in_command(image, place, byte_between(image.data, place, parts))


def encrypted_range(image: Any, place: int) -> Explanation:
    table = table_parts(image, listed_at(image, place))[0]
    if table.start < image.commands_end:
        return of_command(image, place, table, headers_part(image), table.start, image.commands_end)
    for segment in image.segments:
        if segment.fileoff <= table.start < segment.fileoff + segment.filesize:
            return of_command(image, place, table, segment_part(image, segment), table.start + table.size,
                              segment.fileoff + segment.filesize)
    return of_command(image, place, table, NONE, table.start, 0)


def command_slack(image: Any, place: int) -> Explanation:
    command = command_part(image, place)
    return Explanation(structure("byte", place, 1), command, NONE, image.data[place], 0, command=command.index)


def unclaimed_byte(image: Any, place: int) -> Explanation:
    return in_command(image, place, byte_between(image.data, place, element_parts(image)))


# The linked profile


def table_repeated(image: Any, place: int) -> Explanation:
    def kinds(cmd: int) -> set[str]:
        return {kind for _, _, kind, _ in oracle.LINKED_TABLES.get(cmd, [])}
    own = little(image.data, place)
    earlier = next(command for command in image.commands if kinds(command.cmd) & kinds(own))
    return of_command(image, place, command_part(image, place), command_part(image, earlier.place), own, earlier.cmd)


def function_variants(image: Any, place: int) -> Explanation:
    return of_command(image, place, NONE, NONE, little(image.data, place), 0)


def table_home(image: Any, place: int) -> Explanation:
    named = oracle.linkedit_segments(image)
    tables = {table.start: table for table in [*oracle.linked_tables(image), *oracle.symbol_tables(image)]
              if table.command == place}
    for part in table_parts(image, listed_at(image, place)):
        if part.size == 0 or part.start not in tables:
            continue
        end = part.start + part.size
        if not named:
            return of_command(image, place, part, NONE, end, 0)
        for segment in named:
            if not oracle.is_home(segment, tables[part.start]):
                return of_command(image, place, part, segment_part(image, segment), end,
                                  segment.fileoff + segment.filesize)
        for command in image.listed:
            if command.cmd == oracle.LC_ENCRYPTION_INFO_64:
                found = shared_by(part, table_parts(image, command)[0])
                if found:
                    return of_command(image, place, part, table_parts(image, command)[0], *found)
    raise ValueError("no table")


def header_home(image: Any, _: int) -> Explanation:
    base = image.base_segment
    if not oracle.has_safe_base(image):
        second = segment_part(image, base) if base else NONE
        return of_header(image, headers_part(image), second, base.initprot if base else 0, oracle.VM_PROT_READ)
    elsewhere = next((it for it in oracle.text_segments(image) if it.vmaddr != image.base), None)
    second = segment_part(image, elsewhere) if elsewhere else NONE
    return of_header(image, headers_part(image), second, elsewhere.vmaddr if elsewhere else 0, image.base)


def stream_with(image: Any, place: int) -> tuple[Any, Part]:
    """The stream that has the place, and the table that it is."""
    table = next(table for table in oracle.linked_tables(image) if table.stream and table.start <= place < table.end)
    part = next(part for part in table_parts(image, listed_at(image, table.command)) if part.start == table.start)
    return table, part


def opcode_at(image: Any, place: int) -> Part:
    """The opcode that begins at the place: up to the next one, and one byte if it is not known."""
    table, _ = stream_with(image, place)
    opcodes, broken = oracle.decode(image, table)
    places = [opcode.place for opcode in opcodes] + ([broken] if broken is not None else [])
    if place == broken:
        return structure("opcode", place, 1)
    later = [other for other in places if other > place]
    return structure("opcode", place, (min(later) if later else table.end) - place)


def of_opcode(image: Any, place: int, second: Part, value: int, limit: int) -> Explanation:
    return Explanation(opcode_at(image, place), stream_with(image, place)[1], second, value, limit)


def rebase_opcode(image: Any, place: int) -> Explanation:
    return of_opcode(image, place, NONE, image.data[place], 0x8f)


def bind_opcode(image: Any, place: int) -> Explanation:
    return of_opcode(image, place, NONE, image.data[place], 0xcf)


def runs_up_to(image: Any, place: int) -> list[Any]:
    table, _ = stream_with(image, place)
    return [run for run in oracle.runs(image, table) if run.place <= place]


def bad_slot(image: Any, place: int) -> Explanation:
    run = runs_up_to(image, place)[-1]
    end = run.cursor + (run.count - 1) * (8 + run.skip) + 8
    if run.segment is None or run.segment >= len(image.segments):
        return of_opcode(image, place, NONE, end, 0)
    segment = image.segments[run.segment]
    return of_opcode(image, place, segment_part(image, segment), end,
                     segment.filesize if oracle.is_writable(segment) else 0)


def total(image: Any, place: int) -> Explanation:
    return of_opcode(image, place, NONE, sum(run.count for run in runs_up_to(image, place)), oracle.budget(image))


def bind_library(image: Any, place: int) -> Explanation:
    table, _ = stream_with(image, place)
    opcode = next(opcode for opcode in oracle.decode(image, table)[0] if opcode.place == place)
    return of_opcode(image, place, NONE, oracle.ordinal_of(opcode) % 2 ** 64, oracle.library_count(image))


def bind_symbol(image: Any, place: int) -> Explanation:
    return of_opcode(image, place, NONE, runs_up_to(image, place)[-1].count, 0)


def bind_names(image: Any, place: int) -> Explanation:
    named = sum(image.data.index(0, run.symbol) + 1 - run.symbol for run in runs_up_to(image, place)
                if run.count > 0 and run.is_new and run.symbol is not None)
    return of_opcode(image, place, NONE, named, stream_with(image, place)[1].size)


def of_chains(image: Any, at: Part, value: int, limit: int) -> Explanation:
    """What is said of the table of chained fixups and a structure of it."""
    return Explanation(at, table_parts(image, image.only(oracle.LC_DYLD_CHAINED_FIXUPS))[0], NONE, value, limit)


def chain_header_part(table: Any) -> Part:
    return structure("chain_header", table.start, min(oracle.SIZES["dyld_chained_fixups_header"], table.size))


def chain_header(image: Any, place: int) -> Explanation:
    table, size = oracle.chain_table(image), oracle.SIZES["dyld_chained_fixups_header"]
    if table is None:
        return of_command(image, place, NONE, NONE, 0, size)
    return of_chains(image, chain_header_part(table), table.size, size)


def chain_starts(image: Any, place: int) -> Explanation:
    table = oracle.chain_table(image)
    starts_offset = oracle.fixups_header(image, table).starts_offset
    if starts_offset + 4 > table.size:
        return of_chains(image, chain_header_part(table), starts_offset + 4, table.size)
    array = table.start + starts_offset
    if place == array:
        return of_chains(image, structure("chain_array", place, 4), little(image.data, place), len(image.segments))
    index = (place - array - 4) // 4
    starts, size = array + little(image.data, place), oracle.SIZES["dyld_chained_starts_in_segment"]
    if starts + size <= table.end:
        size = little(image.data, starts)
    return Explanation(structure("chain_entry", place, 4, index), Part("chain_starts", index, starts, size, place),
                       segment_part(image, image.segments[index]), starts + size - table.start, table.size)


def of_import(image: Any, place: int, value: int, limit: int) -> Explanation:
    table = oracle.chain_table(image)
    header = oracle.fixups_header(image, table)
    size, *_ = oracle.IMPORT_FORMATS[header.imports_format]
    index = (place - table.start - header.imports_offset) // size
    return of_chains(image, structure("chain_import", place, size, index), value, limit)


def chain_imports(image: Any, place: int) -> Explanation:
    table = oracle.chain_table(image)
    header = oracle.fixups_header(image, table)
    end = header.imports_offset + header.imports_count * oracle.IMPORT_FORMATS[header.imports_format][0]
    if end > table.size:
        return of_chains(image, chain_header_part(table), end, table.size)
    one = next(one for one in oracle.imports(image) if one.place == place)
    return of_import(image, place, one.name - table.start, table.size)


def chain_total(image: Any, place: int) -> Explanation:
    table = oracle.chain_table(image)
    named = sum(image.data.index(0, one.name) + 1 - one.name for one in oracle.imports(image) if one.place <= place)
    return of_import(image, place, named, table.size)


def chain_library(image: Any, place: int) -> Explanation:
    one = next(one for one in oracle.imports(image) if one.place == place)
    return of_import(image, place, one.ordinal % 2 ** 64, oracle.library_count(image))


def starts_with(image: Any, place: int) -> Any:
    """The starts and the segment of the page start, or of the pointer, at a place: the index of the segment, it, its
    starts and their entry."""
    table = oracle.chain_table(image)
    array = table.start + oracle.fixups_header(image, table).starts_offset
    for segment, starts in oracle.starts_of_segments(image, table):
        is_start = starts.place <= place < starts.place + starts.size
        if is_start or segment.fileoff <= place < segment.fileoff + segment.filesize:
            index = segment_index(image, segment)
            return index, segment, starts, array + 4 + 4 * index
    raise AssertionError(hex(place))


def chain_slot(image: Any, place: int) -> Explanation:
    """`value` is where the pointer ends that does not fit, and `limit` where one has to end at most."""
    index, segment, starts, entry = starts_with(image, place)
    if starts.place <= place < starts.place + starts.size:
        page = (place - starts.place - oracle.SIZES["dyld_chained_starts_in_segment"]) // 2
        at, begins = structure("page_start", place, 2, page), page * starts.page_size + little(image.data, place, 2)
    else:
        page = (place - segment.fileoff) // starts.page_size
        distance = oracle.pointer_at(image, SimpleNamespace(segment=segment, starts=starts), place - segment.fileoff).distance
        at, begins = structure("chain_pointer", place, 8, page), place - segment.fileoff + distance
    limit = min((page + 1) * starts.page_size, segment.filesize) if oracle.can_be_written(image, segment) else 0
    return Explanation(at, Part("chain_starts", index, starts.place, starts.size, entry), segment_part(image, segment),
                       begins + 8, limit)


def chain_bind(image: Any, place: int) -> Explanation:
    _, segment, starts, _ = starts_with(image, place)
    table = oracle.chain_table(image)
    pointer = oracle.pointer_at(image, SimpleNamespace(segment=segment, starts=starts), place - segment.fileoff)
    page = (place - segment.fileoff) // starts.page_size
    return Explanation(structure("chain_pointer", place, 8, page), chain_header_part(table),
                       segment_part(image, segment), pointer.binds, oracle.fixups_header(image, table).imports_count)


def linked_table(image: Any, kind: str) -> Part:
    """The table of this kind, of which there is one."""
    table = oracle.table_of(image, kind)
    return next(part for part in table_parts(image, listed_at(image, table.command))
                if (part.start, part.size) == (table.start, table.end - table.start))


def of_node(image: Any, place: int, value: int, limit: int) -> Explanation:
    table = oracle.table_of(image, "exports")
    try:
        end = oracle.read_node(image, table, place).end
    except oracle.Malformed:
        end = table.end
    return Explanation(structure("export_node", place, end - place), linked_table(image, "exports"), NONE, value, limit)


def export_node(image: Any, place: int) -> Explanation:
    table = oracle.table_of(image, "exports")
    return of_node(image, place, place - table.start, table.end - table.start)


def export_total(image: Any, place: int) -> Explanation:
    table = oracle.table_of(image, "exports")
    return of_node(image, place, oracle.read_node(image, table, place).end - place, table.end - table.start)


def export_terminal(image: Any, place: int) -> Explanation:
    node = oracle.read_node(image, oracle.table_of(image, "exports"), place)
    try:
        flags = oracle.operand(image.data, node.start, node.terminal_end, "number")[0]
    except oracle.Malformed:
        flags = 0
    return of_node(image, place, flags, oracle.EXPORT_SYMBOL_FLAGS)


def export_at(image: Any, place: int) -> Any:
    return oracle.read_export(image, oracle.read_node(image, oracle.table_of(image, "exports"), place))


def export_library(image: Any, place: int) -> Explanation:
    return of_node(image, place, export_at(image, place).ordinal, oracle.library_count(image))


def export_address(image: Any, place: int) -> Explanation:
    addresses = (image.base + offset for offset in export_at(image, place).offsets)
    address = next(it for it in addresses if not any(segment.vmaddr <= it < segment.vmaddr + segment.vmsize
                                                     for segment in image.segments))
    return of_node(image, place, address, 0)


def function_number(image: Any, place: int) -> Explanation:
    return Explanation(structure("byte", place, 1), linked_table(image, "function starts"), NONE, image.data[place], 0)


def function_start(image: Any, place: int) -> Explanation:
    address = image.base + sum(distance for it, distance in oracle.function_numbers(image)[0] if it <= place)
    end = oracle.operand(image.data, place, image.length, "number")[1]
    return of_function(image, structure("function_start", place, end - place), linked_table(image, "function starts"),
                       address)


def of_function(image: Any, at: Part, table: Part, address: int) -> Explanation:
    """A function at an address, and the segment there."""
    for segment in image.segments:
        if segment.vmaddr <= most(address) < segment.vmaddr + segment.vmsize:
            return Explanation(at, table, memory_part(image, segment), address, segment.vmaddr + segment.filesize)
    return Explanation(at, table, NONE, address, 0)


def init_offset(image: Any, place: int) -> Explanation:
    section = next(it for it in image.sections if it.flags & 0xff == 0x16 and it.segment.vmsize > 0
                   and it.offset <= place < it.offset + it.size)
    at = structure("byte", place, 1)
    own = Part("section_bytes", section_index(image, section.place), section.offset, section.size, section.place)
    if place + 4 > section.offset + section.size:
        return Explanation(at, own, NONE, section.size, 4)
    return of_function(image, at, own, image.base + little(image.data, place))


def data_in_code(image: Any, place: int) -> Explanation:
    """For an entry whose kind is known `value` is where its bytes end, and `limit` where those of the segment do in
    which they begin."""
    table = linked_table(image, "data in code")
    if table.size % 8:
        return Explanation(structure("byte", place, 1), table, NONE, table.size, 8)
    index, entry = (place - table.start) // 8, oracle.read(image.data, place, "data_in_code_entry")
    at = structure("data_in_code_entry", place, 8, index)
    data = Part("data_in_code", index, entry.offset, entry.length, place)
    if entry.kind not in oracle.DICE_KINDS:
        return Explanation(at, table, NONE, entry.kind, oracle.DICE_KINDS[-1])
    for segment in image.segments:
        if segment.fileoff <= entry.offset < segment.fileoff + segment.filesize:
            return Explanation(at, data, segment_part(image, segment), entry.offset + entry.length,
                               segment.fileoff + segment.filesize)
    return Explanation(at, data, NONE, entry.offset + entry.length, 0)


# Code signatures. Their numbers are big-endian.

# From which version on a code directory has fields up to how many bytes.
DIRECTORY_SIZES = {0x20000: 44, 0x20100: 48, 0x20200: 52, 0x20300: 64, 0x20400: 88, 0x20500: 96, 0x20600: 108}


def big(data: bytes, place: int, width: int = 4) -> int:
    return int.from_bytes(data[place:place + width], "big")


def signature_entry(image: Any, place: int) -> Part:
    table = linked_table(image, "signature")
    return structure("signature_entry", place, 8, (place - table.start - 12) // 8)


def blob_part(image: Any, entry: Part) -> Part:
    """The blob of an entry: all its bytes, or 8 if these are not all in the superblob."""
    table = linked_table(image, "signature")
    offset, length = big(image.data, entry.start + 4), big(image.data, table.start + 4)
    size = big(image.data, table.start + offset + 4) if offset + 8 <= length else 8
    return Part("signature_blob", entry.index, table.start + offset, size, entry.start)


def of_blob(image: Any, place: int, second: Part, value: int, limit: int) -> Explanation:
    entry = signature_entry(image, place)
    return Explanation(entry, blob_part(image, entry), second, value, limit)


def of_superblob(image: Any, value: int, limit: int) -> Explanation:
    table = linked_table(image, "signature")
    return Explanation(structure("byte", table.start, 1), table, NONE, value, limit)


def signature_blob(image: Any, place: int) -> Explanation:
    table = linked_table(image, "signature")
    magic_number, length, count = (big(image.data, table.start + at) for at in (0, 4, 8))
    if place != table.start:
        return bad_blob(image, place, length, 12 + 8 * count)
    if table.size < 12:
        return of_superblob(image, table.size, 12)
    if magic_number != 0xfade0cc0:
        return of_superblob(image, magic_number, 0xfade0cc0)
    if length > table.size:
        return of_superblob(image, length, table.size)
    return of_superblob(image, 12 + 8 * count, length)


def bad_blob(image: Any, place: int, length: int, index_end: int) -> Explanation:
    """Why the blob of the entry at the place is none."""
    table, entry = linked_table(image, "signature"), signature_entry(image, place)
    blob = blob_part(image, entry)
    before, least = table, index_end
    if entry.index > 0:
        before = blob_part(image, signature_entry(image, place - 8))
        least = before.start + before.size - table.start
    offset = blob.start - table.start
    if offset < least:
        return of_blob(image, place, before, offset, least)
    if offset + 8 > length:
        return of_blob(image, place, table, offset + 8, length)
    if blob.size < 8:
        return of_blob(image, place, NONE, blob.size, 8)
    return of_blob(image, place, table, offset + blob.size, length)


def directory_limit(data: bytes, start: int) -> int:
    """Up to where a code directory covers the slice."""
    limit = big(data, start + 56, 8) if big(data, start + 8) >= 0x20300 else 0
    return limit or big(data, start + 32)


def page_count(limit: int, page_size: int) -> int:
    return -(-limit // (1 << page_size)) if page_size else min(limit, 1)


def directory_numbers(data: bytes, start: int, length: int, dataoff: int) -> Optional[tuple[int, int]]:
    """The two numbers that show why a code directory is none, the first that do. Those of its limit are left out."""
    def word(at: int) -> int:
        return big(data, start + at)

    def has_no_end(offset: int) -> bool:
        return offset != 0 and 0 not in data[start + offset:start + length]

    if word(0) != 0xfade0c02:
        return word(0), 0xfade0c02
    if length < 44:
        return length, 44
    version, hash_size, hash_type, page_size = word(8), data[start + 36], data[start + 37], data[start + 39]
    if version < 0x20000:
        return version, 0x20000
    fields = max(size for least, size in DIRECTORY_SIZES.items() if least <= version)
    if length < fields:
        return length, fields
    limit, slots = directory_limit(data, start), word(28)
    compared = [
        (version >= 0x20100 and word(44) != 0, word(44), 0),
        (hash_type not in oracle.HASH_SIZES, hash_type, 4),
        (hash_size != oracle.HASH_SIZES.get(hash_type), hash_size, oracle.HASH_SIZES.get(hash_type)),
        (page_size > 31, page_size, 31),
        (word(24) * hash_size > word(16), word(24) * hash_size, word(16)),
        (word(16) + slots * hash_size > length, word(16) + slots * hash_size, length),
        (limit > dataoff, limit, dataoff),
        (page_size <= 31 and slots != page_count(limit, page_size), slots, page_count(limit, min(page_size, 31))),
        (has_no_end(word(20)), word(20), length),
        (version >= 0x20200 and has_no_end(word(48)), word(48), length),
        (version >= 0x20500 and word(92) != 0 and word(92) + slots * hash_size > length, word(92) + slots * hash_size,
         length),
        (version >= 0x20600 and word(100) + word(104) > length, word(100) + word(104), length)]
    return next(((value, most_of) for is_wrong, value, most_of in compared if is_wrong), None)


def signature_directory(image: Any, place: int) -> Explanation:
    table = linked_table(image, "signature")
    if place == table.start:
        return of_superblob(image, 0, 1)
    blob = blob_part(image, signature_entry(image, place))
    value, limit = directory_numbers(image.data, blob.start, blob.size, table.start)
    is_past = limit == table.start and value == directory_limit(image.data, blob.start) > limit
    return of_blob(image, place, table if is_past else NONE, value, limit)


def signature_whole(image: Any, place: int) -> Explanation:
    table = linked_table(image, "signature")
    blob = blob_part(image, signature_entry(image, place))
    return of_blob(image, place, table, directory_limit(image.data, blob.start), table.start)


# Symbols, relocations, threads and the contents of commands


def symbol_library(image: Any, place: int) -> Explanation:
    return of_symbol(image, place, NONE, NONE, little(image.data, place + 6, 2) >> 8, oracle.library_count(image))


def symbol_value(image: Any, place: int) -> Explanation:
    return of_symbol(image, place, NONE, NONE, little(image.data, place + 8, 8), 0)


def symbol_indirect(image: Any, place: int) -> Explanation:
    strings, value = symtab_tables(image)[1], little(image.data, place + 8, 8)
    rest = Part("name", NO_INDEX, most(strings.start + value), max(0, strings.size - value), place)
    return of_symbol(image, place, rest, strings, value, strings.size)


def indirect_range(image: Any, place: int) -> Explanation:
    section, index = image.sections[section_index(image, place)], section_index(image, place)
    own = Part("section_bytes", index, section.offset, section.size, place)
    stride = section.reserved2 if section.flags & 0xff == 8 else 8
    if stride == 0 or section.size % stride != 0:
        return of_section(image, place, own, NONE, section.size, stride)
    dysymtab = image.only(oracle.LC_DYSYMTAB)
    entries, count = (table_parts(image, dysymtab)[3], dysymtab.nindirectsyms) if dysymtab else (NONE, 0)
    return of_section(image, place, own, entries, section.reserved1 + section.size // stride, count)


def obsolete_table(image: Any, place: int) -> Explanation:
    command = listed_at(image, place)
    counts = command.ntoc, command.nmodtab, command.nextrefsyms, 0, command.nextrel, command.nlocrel
    index = next(index for index, count in enumerate(counts) if count > 0)
    second = NONE
    if index > 2:
        fixups = next(it for it in image.commands if "fixups" in oracle.kinds_of(it))
        second = command_part(image, fixups.place)
    return of_command(image, place, table_parts(image, command)[index], second, counts[index], 0)


def relocation_tables(image: Any) -> list[Part]:
    """Those of the sections, and then the external and the local ones of LC_DYSYMTAB."""
    tables = [Part("relocations", index, section.reloff, 8 * section.nreloc, section.place)
              for index, section in enumerate(image.sections)]
    dysymtab = image.only(oracle.LC_DYSYMTAB)
    return tables + (table_parts(image, dysymtab)[4:6] if dysymtab else [])


def relocation(image: Any, place: int) -> Explanation:
    table = next(part for part in relocation_tables(image) if part.start <= place < part.start + part.size)
    at, word = structure("relocation", place, 8, (place - table.start) // 8), little(image.data, place + 4)
    number, length, is_external = word & 0xffffff, word >> 25 & 3, word >> 27 & 1
    is_addend = not is_external and word >> 28 == 10 and image.header.cputype == 0x100000c
    if is_external and number >= image.symbol_count:
        return Explanation(at, table, NONE, number, image.symbol_count)
    if not is_external and not is_addend and number > len(image.sections):
        return Explanation(at, table, NONE, number, len(image.sections))
    return Explanation(at, table, NONE, length, 3)


def thread(image: Any, place: int) -> Explanation:
    own, earlier = command_part(image, place), first_with(image, 0x4, 0x5)
    if earlier.start < place:
        return of_command(image, place, own, earlier, little(image.data, place), little(image.data, earlier.start))
    return of_command(image, place, own, NONE, own.size, 0)


# The commands of loader.h that no other rule judges: how many bytes the structure of each has.
CONTENT_SIZES = {
    0x3: 16, 0x6: 20, 0x7: 20, 0x8: 8, 0x9: 16, 0xa: 8, 0x10: 20, 0x11: 40, 0x12: 12, 0x13: 12, 0x14: 12, 0x15: 12,
    0x16: 16, 0x17: 12, 0x1a: 72, 0x24: 16, 0x25: 16, 0x2a: 16, 0x2d: 12, 0x2f: 16, 0x30: 16, 0x36: 16, 0x37: 16,
    0x38: 16, 0x39: 12}


def command_content(image: Any, place: int) -> Explanation:
    """`limit` is 0 for a command that no image of this kind has."""
    own = command_part(image, place)
    return of_command(image, place, own, NONE, own.size, CONTENT_SIZES.get(little(image.data, place), 0))


# The sealed profile


def signature_missing(image: Any, _: int) -> Explanation:
    return of_header(image, first_with(image, 0x1d), NONE, 0, 1)


def signature_blobs(image: Any) -> list[tuple[int, Part]]:
    """The blobs of the signature, each with its slot."""
    start = linked_table(image, "signature").start
    entries = [signature_entry(image, start + 12 + 8 * index) for index in range(big(image.data, start + 8))]
    return [(big(image.data, entry.start), blob_part(image, entry)) for entry in entries]


def signature_executable(image: Any, place: int) -> Explanation:
    own, table = segment_part(image, segment_at(image, place)), linked_table(image, "signature")
    return of_command(image, place, own, table, *shared_by(own, table))


def directory_repeated(image: Any, place: int) -> Explanation:
    slot = big(image.data, place)
    earlier = next(blob for other, blob in signature_blobs(image) if other == slot)
    return of_blob(image, place, earlier, slot, slot)


def signature_slack(image: Any, place: int) -> Explanation:
    return Explanation(structure("byte", place, 1), linked_table(image, "signature"), NONE, image.data[place], 0)


def has_hash(data: bytes, part: Part, directory: Part, hash_part: Part) -> bool:
    """Whether the hash of a part, of the type of the directory, is the one there."""
    function = oracle.HASHES[data[directory.start + 37]][1]
    wanted = data[hash_part.start:hash_part.start + hash_part.size]
    return function(data[part.start:part.start + part.size]).digest()[:len(wanted)] == wanted


def hash_of(data: bytes, directory: Part, index: int, is_special: bool) -> Part:
    """A hash in a directory: of a page, or of a special slot, which lies before those of the pages."""
    size = data[directory.start + 36]
    start = directory.start + big(data, directory.start + 16) + size * (-index if is_special else index)
    return Part("code_hash", index, start, size, directory.start)


def signature_hash(image: Any, place: int) -> Explanation:
    """By the first directory in which the page or the blob at the place has no hash, or another."""
    blobs, data = signature_blobs(image), image.data
    special = next((it for it in blobs if 0 < it[0] < 0x1000 and it[1].start == place), None)
    for _, directory in (it for it in blobs if it[0] in oracle.DIRECTORY_SLOTS):
        found = of_special(data, *special, directory) if special else of_page(data, place, directory)
        if found:
            return found
    raise AssertionError(place)


def of_special(data: bytes, slot: int, blob: Part, directory: Part) -> Optional[Explanation]:
    count, second = big(data, directory.start + 24), hash_of(data, directory, slot, True)
    if slot > count:
        return Explanation(blob, blob, directory, slot, count)
    return None if has_hash(data, blob, directory, second) else Explanation(blob, blob, second, slot, count)


def of_page(data: bytes, place: int, directory: Part) -> Optional[Explanation]:
    size, limit = data[directory.start + 39], directory_limit(data, directory.start)
    index = place >> size if size else 0
    end = min((index + 1) << size, limit) if size else limit
    if place != (index << size if size else 0):
        return None
    page, second = Part("code_page", index, place, end - place, directory.start), hash_of(data, directory, index, False)
    slots = big(data, directory.start + 28)
    return None if has_hash(data, page, directory, second) else Explanation(page, page, second, index, slots)


# The unambiguous profile


# The names of the fields of a segment and of a section, by where they begin.
SEGNAME, SECTNAME, SEGNAME_OF_SECTION, NAME_SIZE = 8, 0, 16, 16


def fat_count(file: Any, _: int) -> Explanation:
    return Explanation(fat_header_part(file), table_part(file), NONE, len(file.entries), 31)


def fat_header(file: Any, place: int) -> Explanation:
    index = entry_at(file, place)
    image, entry_of = file.slices[index], file.entries[index]
    wanted = 0xfeedfacf if entry_of.cputype & 0x01000000 else 0xfeedface
    orders = ("little",) if entry_of.cputype in oracle.JUDGED_PROCESSORS else ("little", "big")
    if image.data[:4] not in [wanted.to_bytes(4, order) for order in orders]:
        at = structure("magic", image.start, min(4, image.length), index)
        return of_entry(file, place, at, first_word(image.data), wanted)
    order = "big" if image.data[:4] in (oracle.MH_MAGIC_64_BIG, oracle.MH_MAGIC_BIG) else "little"
    fields = [int.from_bytes(image.data[at:at + 4], order) if image.length >= at + 4 else 0 for at in (4, 8)]
    at = structure("header", image.start, min(32, image.length))
    return of_entry(file, place, at, entry_of.cputype << 32 | entry_of.cpusubtype, fields[0] << 32 | fields[1])


def fat_page(file: Any, place: int) -> Explanation:
    entry_of = file.entries[entry_at(file, place)]
    page = oracle.page_size(entry_of.cputype)
    if entry_of.offset % page:
        return of_entry(file, place, NONE, entry_of.offset, page)
    end = -(-(entry_of.offset + entry_of.size) // page) * page
    other = next(index for index, it in enumerate(file.entries) if entry_of.offset < it.offset < end)
    return of_entry(file, place, slice_part(file, other), file.entries[other].offset, end)


def command_known(image: Any, place: int) -> Explanation:
    return of_command(image, place, command_part(image, place), NONE, little(image.data, place), 0)


def command_once(image: Any, place: int) -> Explanation:
    own = next(command for command in image.commands if command.place == place)
    platform = oracle.platform_of(image, own)
    number = own.cmd if platform is None else platform
    earlier = next(command for command in image.commands if command.place < place and (
        command.cmd == own.cmd if platform is None else oracle.platform_of(image, command) == platform))
    second = command_part(image, earlier.place)
    return of_command(image, place, command_part(image, place), second, number, number)


def part_of_name(start: int, described: int) -> Part:
    return Part("name", NO_INDEX, start, NAME_SIZE, described)


def tail_of(image: Any, start: int, described: int) -> Optional[tuple[Part, Part, int, int]]:
    """The first byte past a name that is not zero, and the name."""
    characters = image.data[start:start + NAME_SIZE]
    for offset in range(len(oracle.up_to_zero(characters)), NAME_SIZE):
        if characters[offset]:
            return structure("byte", start + offset, 1), part_of_name(start, described), characters[offset], 0
    return None


def segment_name(image: Any, place: int) -> Explanation:
    own = segment_at(image, place)
    found = tail_of(image, place + SEGNAME, place)
    if found:
        return of_command(image, place, *found)
    named = oracle.segments_named(image, oracle.up_to_zero(own.segname))
    if named[0].place < place:
        return of_command(image, place, segment_part(image, own), segment_part(image, named[0]), place, named[0].place)
    if not oracle.up_to_zero(own.segname):
        return of_command(image, place, part_of_name(place + SEGNAME, place), NONE, 0, 1)
    texts = oracle.text_segments(image)
    other = image.base_segment if own in texts else next(iter(texts), None)
    second = memory_part(image, other) if other else NONE
    return of_command(image, place, memory_part(image, own), second, own.vmaddr, other.vmaddr if other else 0)


def segment_page(image: Any, place: int) -> Explanation:
    own, page = segment_at(image, place), oracle.page_size(image.header.cputype)
    if own.vmsize and own.vmaddr % page:
        return of_command(image, place, memory_part(image, own), NONE, own.vmaddr, page)
    return of_command(image, place, segment_part(image, own), NONE, own.fileoff, page)


def segment_protection(image: Any, place: int) -> Explanation:
    own = segment_at(image, place)
    limit = own.maxprot if own.initprot & ~own.maxprot else 7
    return of_command(image, place, memory_part(image, own), NONE, own.initprot, limit)


def bytes_encrypted(image: Any, place: int) -> Explanation:
    command = listed_at(image, place)
    if command.cmd == oracle.LC_SEGMENT_64:
        return of_command(image, place, segment_part(image, command), NONE, command.flags, 8)
    table = table_parts(image, command)[0]
    second = next((segment_part(image, it) for it in image.segments
                   if it.fileoff <= table.start < it.fileoff + it.filesize), NONE)
    return of_command(image, place, table, second, command.cryptid, 0)


def number_shift(image: Any, place: int) -> Explanation:
    own = next((segment for segment in image.segments if segment.place == place), None)
    if own is None:
        later = next(command for command in image.commands if command.place > place and command.cmd in oracle.LIBRARIES
                     and command.cmd != oracle.LC_LAZY_LOAD_DYLIB)
        second = command_part(image, later.place)
        return of_command(image, place, command_part(image, place), second, little(image.data, place), later.cmd)
    later = next((it for it in image.segments if it.place > place and oracle.is_writable(it)), None)
    if later and not own.vmsize:
        return of_command(image, place, memory_part(image, own), memory_part(image, later), own.vmsize, later.vmsize)
    number, run = segment_index(image, own), run_number(image, own)
    if number != run:
        return of_command(image, place, memory_part(image, own), NONE, number, run)
    first = next(iter(own.sections), None)
    if first is None:
        return of_command(image, place, memory_part(image, own), NONE, own.vmaddr, 0)
    return of_command(image, place, memory_part(image, own), section_memory(image, first), own.vmaddr, first.addr)


def run_number(image: Any, own: Any) -> int:
    """The number of a segment by the segments that have sections. A segment __PAGEZERO is counted before them."""
    earlier = [segment for segment in image.segments if segment.place < own.place and segment.nsects]
    return len(earlier) + bool(oracle.segments_named(image, b"__PAGEZERO"))


def section_memory(image: Any, section: Any) -> Part:
    return Part("section_memory", section_index(image, section.place), section.addr, section.size, section.place)


def section_name(image: Any, place: int) -> Explanation:
    own = image.sections[section_index(image, place)]
    found = tail_of(image, place + SECTNAME, place)
    if found:
        return of_section(image, place, *found)
    start, other = place + SEGNAME_OF_SECTION, own.segment.place + SEGNAME
    for at in (0, 8):
        numbers = [little(image.data, it + at, 8) for it in (start, other)]
        if numbers[0] != numbers[1]:
            return of_section(image, place, part_of_name(start, place), part_of_name(other, own.segment.place), *numbers)
    earlier = next(index for index, it in enumerate(image.sections) if all(
        oracle.up_to_zero(one) == oracle.up_to_zero(two)
        for one, two in ((it.sectname, own.sectname), (it.segname, own.segname))))
    second = image.sections[earlier].place
    return of_section(image, place, structure("section", place, 80, section_index(image, place)),
                      structure("section", second, 80, earlier), place, second)


def section_alone(image: Any, place: int) -> Explanation:
    own = image.sections[section_index(image, place)]
    memory = section_memory(image, own)
    if own.segment.vmsize:
        others = [section_memory(image, it) for it in image.sections if it.place < place and oracle.is_looked_for(it)]
    else:
        others = [memory_part(image, it) for it in image.segments]
    for other in others:
        found = shared_by(memory, other)
        if found:
            return of_section(image, place, memory, other, *found)
    start = own.segment.fileoff + own.addr - own.segment.vmaddr
    hidden = next(at for at in range(start, start + own.size) if image.data[at])
    return of_section(image, place, memory, structure("byte", hidden, 1), image.data[hidden], 0)


def entry_one(image: Any, place: int) -> Explanation:
    own, commands = command_part(image, place), [it for it in image.commands if it.cmd in oracle.ENTRY_COMMANDS]
    command = next(it for it in commands if it.place == place)
    if command is not commands[0]:
        second = command_part(image, commands[0].place)
        return of_command(image, place, own, second, command.cmd, commands[0].cmd)
    if image.header.filetype != oracle.MH_EXECUTE:
        return of_command(image, place, own, structure("header", 0, 32), image.header.filetype, oracle.MH_EXECUTE)
    address = oracle.entry_address(image, command)
    segment = next(it for it in image.segments if it.vmaddr <= address < it.vmaddr + it.vmsize)
    byte = segment.fileoff + address - segment.vmaddr
    if command.cmd == oracle.LC_MAIN and image.only(oracle.LC_MAIN).entryoff != byte:
        second, entryoff = memory_part(image, segment), image.only(oracle.LC_MAIN).entryoff
        return of_command(image, place, own, second, entryoff, byte)
    table = oracle.table_of(image, "data in code")
    for index, start in enumerate(range(table.start, table.end, 8)):
        data = oracle.read(image.data, start, "data_in_code_entry")
        if data.offset <= byte < data.offset + data.length:
            second = Part("data_in_code", index, data.offset, data.length, start)
            return of_command(image, place, own, second, byte, data.offset + data.length)
    raise ValueError("no data")


def bind_once(image: Any, place: int) -> Explanation:
    run = runs_up_to(image, place)[-1]
    return of_opcode(image, place, segment_part(image, image.segments[run.segment]), run.cursor, run.segment)


def export_edge(image: Any, place: int) -> Explanation:
    labels = oracle.read_node(image, oracle.table_of(image, "exports"), place).labels
    for later, label in enumerate(labels):
        # Where a label is empty, it is compared with itself.
        others = [later] if not label else [
            at for at, other in enumerate(labels[:later]) if label.startswith(other) or other.startswith(label)]
        if others:
            return of_node(image, place, later, others[0])
    raise ValueError("no label is empty, and none begins with another one")


def group_of(n_type: int) -> int:
    """The group that the type of a symbol says: 0 is local, 1 defined, and 2 undefined."""
    if n_type & oracle.N_STAB or not n_type & oracle.N_EXT:
        return 0
    return 2 if n_type & oracle.N_TYPE in (oracle.N_UNDF, oracle.N_PBUD) else 1


def symbol_kind(image: Any, place: int) -> Explanation:
    symtab, dysymtab = image.only(oracle.LC_SYMTAB), image.only(oracle.LC_DYSYMTAB)
    index, own = (place - symtab.symoff) // 16, group_of(image.data[place + 4])
    if dysymtab:
        numbers = [little(image.data, dysymtab.place + 8 + 4 * field) for field in range(6)]
        groups = [Part("group", it, numbers[2 * it], numbers[2 * it + 1], dysymtab.place) for it in range(3)]
        if [it.index for it in groups if it.start <= index < it.start + it.size] != [own]:
            return of_symbol(image, place, NONE, groups[own], index, groups[own].start)
    size = len(oracle.string_at(image, symtab.stroff))
    return of_symbol(image, place, NONE, Part("name", NO_INDEX, symtab.stroff, size, symtab.place), index, size)


def has_name(symbol: Any) -> bool:
    """Whether a symbol is external, and has a name."""
    return group_of(symbol.n_type) > 0 and symbol.n_strx > 0


def symbol_total(image: Any, place: int) -> Explanation:
    names = [oracle.symbol_string(image, it.n_strx) for it in image.symbols if it.place <= place and has_name(it)]
    return of_symbol(image, place, NONE, NONE, sum(map(len, names)) + len(names), image.length)


def export_symbol(image: Any, place: int) -> Explanation:
    own = next(it for it in image.symbols if it.place == place)
    wanted = oracle.symbol_string(image, own.n_strx)

    def says(symbol: Any) -> tuple[int, int, int]:
        return symbol.n_value, symbol.n_type & oracle.N_TYPE, symbol.n_desc & oracle.N_WEAK_DEF

    for index, it in enumerate(image.symbols if group_of(own.n_type) == 1 else []):
        is_other = it.place < place and has_name(it) and group_of(it.n_type) == 1 and says(it) != says(own)
        if is_other and oracle.symbol_string(image, it.n_strx) == wanted:
            return of_symbol(image, place, NONE, structure("symbol", it.place, 16, index), own.n_value, it.n_value)
    nodes = {node.place: node for node in oracle.walk(image)[0]}
    node = oracle.look_up(oracle.table_of(image, "exports").start, nodes, wanted)
    return of_symbol(image, place, NONE, NONE, own.n_value, image.base + export_at(image, node.place).offsets[0])


def indirect_name(image: Any, place: int) -> Explanation:
    found = indirect_index(image, place)
    return found._replace(value=found.at.index, limit=little(image.data, place))


def import_library(image: Any, place: int) -> Explanation:
    return symbol_library(image, place)


def signature_slot(image: Any, place: int) -> Explanation:
    slot, index = big(image.data, place), signature_entry(image, place).index
    blobs = signature_blobs(image)
    earlier = next((blob for other, blob in blobs[:index] if other == slot), NONE)
    return of_blob(image, place, earlier, slot, big(image.data, blobs[index][1].start))


def directory_agree(image: Any, place: int) -> Explanation:
    own = blob_part(image, signature_entry(image, place))
    first = next(blob for slot, blob in signature_blobs(image) if slot in oracle.DIRECTORY_SLOTS)
    return of_blob(image, place, first, image.data[own.start + 37], image.data[first.start + 37])


OF_FILE = {rule.__name__: rule for rule in (
    magic, fat_truncated, fat_slice_outside, fat_slice_in_table, fat_align, fat_overlap, fat_duplicate,
    fat_slice_magic, fat_empty, fat_stray_byte, fat_count, fat_header, fat_page)}
OF_IMAGE = {rule.__name__: rule for rule in (
    header_truncated, arch_mismatch, file_type, commands_outside, command_walk, command_short, command_repeated,
    dylib_id, name, segment_address, segment_size, segment_file, segment_overlap, section_address, section_file,
    section_relocs, table_range, symbol_group, symbol_name, symbol_section, indirect_index, entry, commands_end,
    header_segment, segment_file_overlap, element_overlap, stray_byte, encrypted_range, command_slack, unclaimed_byte,
    table_repeated, function_variants, table_home, header_home, rebase_opcode, bind_opcode, bind_library, bind_symbol,
    bind_names, chain_header, chain_starts, chain_imports, chain_total, chain_library, chain_slot, chain_bind,
    export_node, export_total, export_terminal, export_library, export_address, function_number, function_start,
    data_in_code, init_offset, signature_blob, signature_directory, signature_whole, symbol_library, symbol_value, symbol_indirect,
    indirect_range, obsolete_table, relocation, thread, command_content, signature_missing, signature_executable,
    directory_repeated, signature_slack, signature_hash, command_known, command_once, segment_name, segment_page,
    segment_protection, bytes_encrypted, number_shift, section_name, section_alone, entry_one, bind_once, export_edge,
    symbol_kind, symbol_total, export_symbol, indirect_name, import_library, signature_slot, directory_agree)}
OF_IMAGE.update(rebase_slot=bad_slot, bind_slot=bad_slot, rebase_total=total, bind_total=total)
