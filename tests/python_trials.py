#!/usr/bin/env python3
"""Compares what bindings/python gives with what others say. tests/python calls it, and says what of.

    tests/python_trials.py ALL_KINDS MIXED [FOLDER..]

The first two are files of tests/fixtures/files.py, and the files of the folders are judged and read as well. For each
case it prints a line of three texts with tabs between them: the case, what was found, and what is wanted. What differs
is shown on standard error.
"""

import array
import ctypes
import gc
import io
import itertools
import json
import mmap
import os
import pickle
import random
import struct
import subprocess
import sys
import tempfile
import threading
import time
import tracemalloc
import weakref
from pathlib import Path
from types import SimpleNamespace

from fixtures import images, table_mutants
from fixtures.files import LINKED, SEALED
from fixtures.notation import read_vectors
from readers import code_signature, export_trie
from readers.fixups import fixups_of, fixups_read
from reference import HIDDEN, explanations, oracle, oracle_trials
from support.calling import TOP, wait_until
from support.programs import MACHO_VERIFY, PROFILES
from support.rules import read_rules

import kesvuot  # pylint: disable=wrong-import-order
from kesvuot._rows import BATCH  # pylint: disable=wrong-import-order
from kesvuot.constants import (  # pylint: disable=wrong-import-order
    LC_CODE_SIGNATURE, LC_DATA_IN_CODE, LC_DYLD_CHAINED_FIXUPS, LC_DYLD_EXPORTS_TRIE, LC_DYSYMTAB, LC_FUNCTION_STARTS,
    LC_LOAD_DYLINKER, LC_RPATH, LC_SOURCE_VERSION, LC_SYMTAB, LC_VERSION_MIN_IPHONEOS, LC_VERSION_MIN_MACOSX,
    LC_VERSION_MIN_TVOS, LC_VERSION_MIN_WATCHOS, MH_TWOLEVEL, N_ALT_ENTRY, N_WEAK_DEF, N_WEAK_REF)

SHOWN = 20
# The commands whose data tests/fixtures/*.reads and tests/real/*.reads show, in their order. The last one is of another kind.
DATA_COMMANDS = (LC_CODE_SIGNATURE, LC_FUNCTION_STARTS, LC_DATA_IN_CODE, LC_DYLD_EXPORTS_TRIE, LC_DYLD_CHAINED_FIXUPS,
                 LC_SYMTAB)
# Of <mach-o/loader.h>: the version_min_commands, by their platforms.
LEAST_VERSIONS = {LC_VERSION_MIN_MACOSX: 1, LC_VERSION_MIN_IPHONEOS: 2, LC_VERSION_MIN_TVOS: 3,
                  LC_VERSION_MIN_WATCHOS: 4}
# The tables in the order of kesvuot.h: a structure, the fields that bound the table, and the size of an item.
BOUNDED_TABLES = (
    ("symtab_command", "symoff", "nsyms", 16), ("symtab_command", "stroff", "strsize", 1),
    ("dysymtab_command", "tocoff", "ntoc", 8), ("dysymtab_command", "modtaboff", "nmodtab", 56),
    ("dysymtab_command", "extrefsymoff", "nextrefsyms", 4), ("dysymtab_command", "indirectsymoff", "nindirectsyms", 4),
    ("dysymtab_command", "extreloff", "nextrel", 8), ("dysymtab_command", "locreloff", "nlocrel", 8),
    ("dyld_info_command", "rebase_off", "rebase_size", 1), ("dyld_info_command", "bind_off", "bind_size", 1),
    ("dyld_info_command", "weak_bind_off", "weak_bind_size", 1),
    ("dyld_info_command", "lazy_bind_off", "lazy_bind_size", 1),
    ("dyld_info_command", "export_off", "export_size", 1),
    ("encryption_info_command_64", "cryptoff", "cryptsize", 1))


class Report:
    """Prints the cases, and the first few differences."""

    def __init__(self):
        self.shown = 0

    def case(self, name, found, wanted):
        print(f"{name}\t{found}\t{wanted}", flush=True)

    def differs(self, name, found, wanted):
        self.shown += 1
        if self.shown <= SHOWN:
            print(f"{name}:\n  kesvuot: {found!r:.300}\n  wanted: {wanted!r:.300}", file=sys.stderr)

    def alike(self, name, of_what, pairs):
        """A case: each of the triples has a name, and two values that are the same."""
        count = right = 0
        for which, found, wanted in pairs:
            count += 1
            if found == wanted:
                right += 1
            else:
                self.differs(f"{name}, {which}", found, wanted)
        self.case(name, f"{right} {of_what}", f"{count or 'some'} {of_what}")


# Verdicts and layouts


def answer(data, profile="layout"):
    """What the program would print: the status and the text."""
    try:
        file = kesvuot.verify(data, profile)
        return 0, sealed_layout(file) if profile == "sealed" else file.layout()
    except kesvuot.Refused as refused:
        return 1, f"refused: {refused.rule} at {refused.place:#x}\n"


def sealed_layout(file):
    """What `macho-verify sealed` prints: the layout, with the cdhashes of each image after its entry."""
    images_left = iter(file.images)
    return "".join(line + ("".join(cdhash_lines(next(images_left))) if line.startswith("  entry ") else "")
                   for line in file.layout().splitlines(keepends=True))


def cdhash_lines(image):
    for blob in image.blobs:
        if blob.slot in code_signature.DIRECTORY_SLOTS:
            directory = blob.code_directory()
            yield f"  cdhash {code_signature.HASHES[directory.hash_type][0]} {directory.cdhash().hex()}\n"


def verdict(data, profile="layout"):
    status, text = answer(data, profile)
    return text.rstrip("\n") if status else "accepted"


def program_answers(files, profile):
    questions = [oracle_trials.Question(which, data, profile, ()) for which, data in files]
    says = oracle_trials.program_answers(str(MACHO_VERIFY), questions)
    return [(status, text.decode("ascii")) for status, text in says]


def judge_vectors(report):
    """The verdicts are those that stand beside the vectors; the layouts, those of the program."""
    for profile in PROFILES:
        for path, vectors in oracle_trials.read_all_vectors(profile):
            judge_by_hand(report, path.name, vectors, profile)
            if oracle_trials.is_whole(path, profile):
                compare_program(report, path.name, [(vector.name, vector.data) for vector in vectors], profile)


def explanation(data, profile):
    """The rule and the place of a refusal, and all that explains it; or None."""
    try:
        kesvuot.verify(data, profile)
    except kesvuot.Refused as refused:
        return refused.rule, refused.place, kesvuot.explain(data, refused)
    return None


def wanted_explanation(data, rule, place):
    """The same in the form of the library."""
    def part(numbers):
        return None if numbers.kind == "none" else kesvuot.Part(
            numbers.kind.replace("_", "-"), index(numbers.index), numbers.start, numbers.size, numbers.described)

    def index(number):
        return None if number == explanations.NO_INDEX else number
    found = explanations.explain(data, rule, place)
    return kesvuot.Explanation(*map(part, found[:3]), found.value, found.limit, *map(index, found[5:]))


def explain_vectors(report):
    """Each refusal is explained as explanations.py works it out a second time, and each rule has one."""
    found = [(vector.name, vector.data, explanation(vector.data, profile)) for profile in PROFILES
             for _, vectors in oracle_trials.read_all_vectors(profile) for vector in vectors]
    report.alike("explanations", "refusals", ((name, said[2], wanted_explanation(data, *said[:2]))
                                              for name, data, said in found if said))
    report.case("the rules that are explained", sorted({said[0] for _, _, said in found if said}),
                sorted({rule.name for rule in read_rules()} - HIDDEN))
    other = kesvuot.Refused("section-file", 1 << 64), kesvuot.Refused("no-rule", 0), kesvuot.Refused("magic", 1)
    report.case("no refusals of these bytes", [kesvuot.explain(b"", refused) for refused in other], [None, None, None])


def judge_by_hand(report, name, vectors, profile):
    """Which of the acceptances of other vectors a further profile has is not known by hand."""
    report.alike(f"the verdicts of {name} by the profile {profile}, by hand", "verdicts", (
        (vector.name, verdict(vector.data, profile), vector.wanted) for vector in vectors if vector.wanted))


def compare_program(report, name, files, profile):
    report.alike(f"what is said of {name}, and the program by the profile {profile}", "texts", (
        (which, answer(data, profile), says)
        for (which, data), says in zip(files, program_answers(files, profile))))


def judge_texts(report):
    """The layouts that are written by hand."""
    report.alike("the reports, by hand", "layouts", (
        (name, answer(data), (0, layout)) for name, data, *_, layout in oracle_trials.read_all_reports()))
    report.alike("the real files, by hand", "layouts", (
        (name, answer(data), (0, layout.decode())) for name, data, layout in oracle_trials.read_real()))


# What the views give


def shown(data):
    """How many bytes there are, and the first and the last eight."""
    text = "".join(f" {byte:02x}" for byte in data[:8])
    if len(data) > 8:
        text += " .." + "".join(f" {byte:02x}" for byte in data[-8:])
    return f" size {len(data)}{text}"


def text_of(name):
    return str(name, "utf-8")


def name_of(symbol):
    return text_of(symbol.name) if symbol.strx else "(none)"


def debugged(name, fields):
    return f"{name} {{ " + ", ".join(f"{field}: {value}" for field, value in fields.items()) + " }"


def reads(file, index, addresses):
    """The lines of a .reads file."""
    image = file.slices[index]
    yield from reads_of_commands(image)
    for segment in image.segments:
        yield f"segment {text_of(segment.name)} maxprot {segment.maxprot}" + shown(segment.bytes)
        for section in image.sections_of(segment):
            yield read_of_section(file, image, section)
    yield "numbers" + "".join(f" {n} {text_of(section.name)}" for n, section in enumerate(image.sections, 1))
    yield from reads_of_paths(image)
    for cmd in DATA_COMMANDS:
        if image.linkedit(cmd) is not None:
            yield f"data {cmd:#x}" + shown(image.linkedit(cmd))
    yield from reads_of_symbols(image)
    for address in addresses:
        yield read_of_address(file, image, address)


def reads_of_commands(image):
    if image.base is not None:
        yield f"base {image.base:#x}"
    places = {}
    for command in image.commands:
        places.setdefault(command.cmd, command)
        yield f"command {command.place:#x} {command.cmd:#x} size {len(command.bytes):#x}"
    if image.symtab:
        yield debugged("Symtab", {"place": places[LC_SYMTAB].place, **image.symtab._asdict()})
    if image.dysymtab:
        command = places[LC_DYSYMTAB]
        names = [field for field, *_ in oracle.FIELDS["dysymtab_command"]][2:]
        fields = dict(zip(names, struct.unpack_from("<18I", command.bytes, 8)))
        yield debugged("Dysymtab", {"place": command.place, **fields, **image.dysymtab._asdict()})


def read_of_section(file, image, section):
    place = file.place(section.name) - image.place
    text = f"section {text_of(section.name)} at {place:#x} relocs {section.reloff} {section.nreloc}"
    text += f" flags {section.flags:#x} align {section.align} reserved {section.reserved1} {section.reserved2}"
    return text + (" zero-fill" if section.zero_fill else shown(section.bytes))


def reads_of_paths(image):
    linkers = [command for command in image.commands if command.cmd == LC_LOAD_DYLINKER]
    for command in linkers[:1]:
        yield f'dylinker "{text_of(command.name)}"'
    for command in image.commands:
        if command.cmd == LC_RPATH:
            yield f'rpath "{text_of(command.name)}"'


def reads_of_symbols(image):
    for index in range(len(image.symbols)):
        symbol = image.symbols[index]
        place = image.symtab.symoff + 16 * index
        inside = "" if symbol.section is None else " in " + text_of(image.sections[symbol.section].name)
        yield (f"symbol {index} {name_of(symbol)} {symbol.value:#x} at {place:#x} strx {symbol.strx} "
               f"type {symbol.type:#x} sect {symbol.sect} desc {symbol.desc:#x}{inside}")
    groups = {"all": image.symbols, "local": image.local_symbols, "defined": image.defined_symbols,
              "undefined": image.undefined_symbols}
    for word, symbols in groups.items():
        yield word + "".join(" " + name_of(symbol) for symbol in symbols)
    for index, value in enumerate(image.indirects):
        is_index = value & (oracle.INDIRECT_SYMBOL_LOCAL | oracle.INDIRECT_SYMBOL_ABS) == 0
        name = name_of(image.symbols[value]) if is_index else "none"
        yield f"indirect {value:#x} at {image.dysymtab.indirectsymoff + 4 * index:#x} {name}"


def read_of_address(file, image, address):
    kind, found = image.at(address)
    if kind is kesvuot.SourceKind.UNMAPPED:
        return f"address {address:#x} None"
    if kind is kesvuot.SourceKind.ZERO:
        return f"address {address:#x} Some(Zero)"
    text = f"address {address:#x} Some(File({file.place(found) - image.place}))"
    return text + (shown(found[:4]) if len(found) >= 4 else "")


def compare_reads(report, all_kinds):
    """The texts are written by hand: tests/library says from what."""
    real = {name: data for name, data, _ in oracle_trials.read_real()}
    for name, data, index, path in (
            ("the file of all kinds", all_kinds, 0, "fixtures/all-kinds.reads"),
            ("the real program", real["program"], 0, "real/program.reads"),
            ("the real library for x86_64", real["library"], 0, "real/library.0.reads"),
            ("the real library for arm64", real["library"], 1, "real/library.1.reads")):
        wanted = (TOP / "tests" / path).read_text(encoding="ascii").splitlines()
        addresses = [int(line.split()[1], 16) for line in wanted if line.startswith("address ")]
        found = list(reads(kesvuot.verify(data), index, addresses))
        if len(found) != len(wanted):
            report.differs(name, f"{len(found)} lines", f"{len(wanted)} lines")
        report.alike(f"the views of {name}, by hand", "lines", (
            (f"line {number}", *pair) for number, pair in enumerate(zip(found, wanted), 1)))


def compare_mixed(report, mixed):
    """For a slice that is not read there is nothing but the slice, and for a bare header no line but these."""
    file = kesvuot.verify(mixed)
    unread, bare = file.slices
    report.case("the slices that are not read", file.unread_slices, (unread,))
    report.case("a slice that is not read", (type(unread), unread.place, unread.bytes.tobytes(), unread.arch),
                (kesvuot.Slice, 64, oracle.MH_MAGIC, "0x7/0x3"))
    report.case("the slice beside it", (bare.place, list(reads(kesvuot.verify(mixed), 1, []))),
                (96, ["numbers", "all", "local", "defined", "undefined"]))


def compare_addresses(report):
    """What is at addresses of the real files, by hand."""
    files = {name: kesvuot.verify(data) for name, data, _ in oracle_trials.read_real()}
    report.alike("what is at addresses of them, by hand", "places", (
        (f"{name} {index} {address}", place_text(files[name], int(index), int(address, 16)), wanted)
        for name, index, address, wanted in oracle_trials.ADDRESSES))


def place_text(file, index, address):
    if index >= file.slice_count:
        return "macho-check: no such image"
    kind, found = file.slices[index].at(address)
    is_file = kind is kesvuot.SourceKind.FILE
    return f"file {file.place(found) - file.slices[index].place:#x}" if is_file else kind.value


# The views of all accepted files, and what tests/reference/oracle.py reads there


def as_bytes(row):
    """The values of a row, without the strings of a symbol."""
    return tuple(value.tobytes() if isinstance(value, memoryview) else
                 as_bytes(value) if isinstance(value, tuple) else value
                 for value in row if not isinstance(value, kesvuot.Strings))


def string_at(data, place, end):
    return data[place:data.find(b"\0", place, end)]


def wanted_name(image, command):
    """The name of a command that has one."""
    if oracle.LISTED.get(command.cmd, (0, 0, None))[2] is None:
        return b""
    listed = oracle.read(image.data, command.place, oracle.LISTED[command.cmd][0])
    return string_at(image.data, command.place + oracle.name_offset(listed), command.place + command.cmdsize)


def wanted_commands(image):
    for it in image.commands:
        yield image.data[it.place:it.place + it.cmdsize], wanted_name(image, it), it.place, it.cmd


def wanted_segments(image):
    first = 0
    for it in image.segments:
        part = image.data[it.fileoff:it.fileoff + it.filesize]
        yield (oracle.up_to_zero(it.segname), part, it.vmaddr, it.vmsize, it.fileoff, it.filesize, first, it.nsects,
               it.maxprot, it.initprot)
        first += it.nsects


def wanted_sections(image):
    for it in image.sections:
        is_zero_fill = oracle.is_zero_fill(it)
        part = b"" if is_zero_fill else image.data[it.offset:it.offset + it.size]
        yield (oracle.up_to_zero(it.sectname), oracle.up_to_zero(it.segment.segname), part, it.addr, it.size, it.offset,
               it.align, it.reloff, it.nreloc, it.flags, it.reserved1, it.reserved2, is_zero_fill)


def wanted_libraries(image, is_id):
    """The libraries that the image loads, or what it is as one."""
    for it in image.listed:
        if oracle.LISTED[it.cmd][0] == "dylib_command" and (it.cmd == oracle.LC_ID_DYLIB) == is_id:
            yield wanted_name(image, it), it.cmd, it.current_version, it.compatibility_version


def wanted_builds(image):
    """Those of LC_BUILD_VERSION, and of each version_min_command that is long enough, by the platform of its cmd."""
    for it in image.commands:
        if it.cmd == oracle.LC_BUILD_VERSION:
            yield *struct.unpack_from("<3I", image.data, it.place + 8), it.cmd
        elif it.cmd in LEAST_VERSIONS and it.cmdsize >= 16:
            yield LEAST_VERSIONS[it.cmd], *struct.unpack_from("<2I", image.data, it.place + 8), it.cmd


def wanted_source_version(image):
    for it in image.commands:
        if it.cmd == LC_SOURCE_VERSION and it.cmdsize >= 16:
            bits = f"{struct.unpack_from('<Q', image.data, it.place + 8)[0]:064b}"
            return tuple(int(bits[start:end], 2) for start, end in ((0, 24), (24, 34), (34, 44), (44, 54), (54, 64)))
    return None


def wanted_paths(image, cmd):
    return [wanted_name(image, it) for it in image.listed if it.cmd == cmd]


def wanted_relocations(image, section):
    """The bits of relocation_info, from the lowest on."""
    for at in range(section.reloff, section.reloff + 8 * section.nreloc, 8) if section.nreloc else ():
        address, bits = struct.unpack_from("<2I", image.data, at)
        digits = f"{bits:032b}"[::-1]
        fields = (int(digits[start:end][::-1], 2) for start, end in ((0, 24), (24, 25), (25, 27), (27, 28), (28, 32)))
        yield address, *fields, int(address >= 1 << 31)


def wanted_starts(image):
    """The sums of the ULEB128 numbers from the base on, up to a number 0, or one that is none or too large."""
    address, rest = image.base, wanted_data(image, 0x26) or b""
    while address is not None and rest:
        size = next((k + 1 for k, byte in enumerate(rest) if byte < 0x80), 11)
        distance = sum((byte & 0x7f) << 7 * k for k, byte in enumerate(rest[:size]))
        if size > 10 or distance == 0 or distance >= 1 << 64 or address + distance >= 1 << 64:
            break
        address, rest = address + distance, rest[size:]
        yield address


def wanted_data_in_code(image):
    """The whole entries. Data that ends past the image has no bytes."""
    entries = wanted_data(image, 0x29) or b""
    for offset, length, kind in struct.iter_unpack("<I2H", entries[:len(entries) // 8 * 8]):
        part = image.data[offset:offset + length]
        yield part if len(part) == length else b"", offset, length, kind


def wanted_blobs(image):
    """The blobs of the signature, each with what it says as a code directory, and with its hashes."""
    for blob in code_signature.read_blobs(wanted_data(image, LC_CODE_SIGNATURE) or b""):
        directory = code_signature.read_directory(blob.content)
        digest = directory and code_signature.digest_of(directory)
        yield tuple(blob), directory, digest, digest and digest[:code_signature.CDHASH_SIZE]


def found_blobs(image):
    for blob in image.blobs:
        directory = blob.code_directory()
        yield (as_bytes(blob), directory and as_bytes(directory), directory and directory.digest(),
               directory and directory.cdhash())


def wanted_thread_entry(image):
    """Where the first thread begins, if its registers are known and the address is executable."""
    threads = [command for command in image.commands if command.cmd in oracle.THREADS]
    try:
        entry = oracle.start_of_thread(image, threads[0]) if threads else None
    except oracle.Malformed:
        return None
    return entry if entry is not None and oracle.is_executable(image, entry) else None


def compare_signature(found, wanted):
    """What the signature has, and where a thread begins."""
    yield "blobs", list(found_blobs(found)), list(wanted_blobs(wanted))
    yield "thread_entry", found.thread_entry, wanted_thread_entry(wanted)


def wanted_table(image, structure, place, count, size):
    """The bytes of a table, by the names of the fields that bound it in the first command of this structure."""
    for it in image.listed:
        if oracle.LISTED[it.cmd][0] == structure:
            start, length = getattr(it, place), size * getattr(it, count)
            return image.data[start:start + length] if length else b""
    return None


def wanted_symbols(image):
    for it in image.symbols:
        has_section = 1 <= it.n_sect <= len(image.sections)
        yield it.n_value, it.n_strx, it.n_desc, it.n_type, it.n_sect, it.n_sect - 1 if has_section else None


def wanted_names(image):
    """The names of the symbols."""
    symtab = image.only(LC_SYMTAB)
    for it in image.symbols:
        has_name = it.n_strx != 0
        yield string_at(image.data, symtab.stroff + it.n_strx, symtab.stroff + symtab.strsize) if has_name else b""


def wanted_indirects(image):
    dysymtab = image.only(LC_DYSYMTAB)
    if dysymtab is None:
        return []
    return list(struct.unpack_from(f"<{dysymtab.nindirectsyms}I", image.data, dysymtab.indirectsymoff)
                if dysymtab.nindirectsyms else [])


def only_fields(image, cmd, kind):
    """The fields of a command that is there once, or None."""
    command = image.only(cmd)
    return command and tuple(getattr(command, field) for field in kind._fields)


def wanted_data(image, cmd):
    """The data of the first command of a kind."""
    for it in image.listed:
        if it.cmd == cmd and oracle.LISTED[cmd][0] == "linkedit_data_command":
            return image.data[it.dataoff:it.dataoff + it.datasize]
    return None


def wanted_at(image, address):
    """The word for what is at an address, and the bytes from there on."""
    for it in image.segments:
        if it.vmaddr <= address < it.vmaddr + it.vmsize:
            past = address - it.vmaddr
            part = image.data[it.fileoff + past:it.fileoff + it.filesize] if past < it.filesize else b""
            return "file" if part else "zero", part
    return "unmapped", b""


def edges(image):
    """The addresses beside those at which a segment, its bytes, or a section begins or ends."""
    near = {0, 1, 2 ** 64 - 1, 2 ** 64, -1}
    for it in image.segments[:20]:
        near |= {it.vmaddr, it.vmaddr + it.filesize, it.vmaddr + it.vmsize}
    near |= {section.addr for section in image.sections[:20]}
    return sorted({address + beside for address in near for beside in (-1, 0, 1)})


def compare_image(found, wanted):
    """A triple for each view: its name, what it gives, and what the oracle reads."""
    main = wanted.only(oracle.LC_MAIN)
    uuid = wanted.only(oracle.LC_UUID)
    yield "filetype", found.filetype, wanted.header.filetype
    yield "flags", found.flags, wanted.header.flags
    yield "base", found.base, wanted.base
    yield "entry", found.entry, main and wanted.base + main.entryoff
    yield "uuid", found.uuid and found.uuid.bytes, uuid and uuid.uuid
    yield "symtab", found.symtab, only_fields(wanted, LC_SYMTAB, kesvuot.Symtab)
    yield "dysymtab", found.dysymtab, only_fields(wanted, LC_DYSYMTAB, kesvuot.Dysymtab)
    for name, rows in (("commands", wanted_commands(wanted)), ("segments", wanted_segments(wanted)),
                       ("sections", wanted_sections(wanted)), ("libraries", wanted_libraries(wanted, False)),
                       ("builds", wanted_builds(wanted)), ("symbols", wanted_symbols(wanted))):
        yield name, list(map(as_bytes, getattr(found, name))), list(rows)
    yield "source_version", found.source_version, wanted_source_version(wanted)
    yield "run_paths", [path.tobytes() for path in found.run_paths], wanted_paths(wanted, LC_RPATH)
    linker = [found.dynamic_linker.tobytes()] if found.dynamic_linker is not None else []
    yield "dynamic_linker", linker, wanted_paths(wanted, LC_LOAD_DYLINKER)[:1]
    for section, it in zip(found.sections, wanted.sections):
        yield "relocations", list(found.relocations(section)), list(wanted_relocations(wanted, it))
    yield "function_starts", list(found.function_starts), list(wanted_starts(wanted))
    yield "data_in_code", list(map(as_bytes, found.data_in_code)), list(wanted_data_in_code(wanted))
    yield from compare_signature(found, wanted)
    for table, fields in zip(kesvuot.BoundedTable, BOUNDED_TABLES):
        part = found.table(table)
        yield f"table {table.name}", None if part is None else part.tobytes(), wanted_table(wanted, *fields)
    yield "names", [symbol.name.tobytes() for symbol in found.symbols], list(wanted_names(wanted))
    yield "symbols with names", list(map(as_bytes, found.symbols_with_names)), list(
        zip(wanted_symbols(wanted), wanted_names(wanted)))
    yield "id", found.id and as_bytes(found.id), next(wanted_libraries(wanted, True), None)
    yield "capabilities", found.capabilities, wanted.header.cpusubtype >> 24
    yield "indirects", list(found.indirects), wanted_indirects(wanted)
    yield from compare_groups(found, wanted)
    yield from compare_lookups(found, wanted)
    # A cmd is a number of 32 bits, so no command has -1 or 0x1_0000_0026.
    for cmd in {command.cmd for command in wanted.commands} | set(DATA_COMMANDS) | {-1, 0x1_0000_0026}:
        data = found.linkedit(cmd)
        yield f"linkedit {cmd:#x}", None if data is None else data.tobytes(), wanted_data(wanted, cmd)
    for address in edges(wanted):
        kind, part = found.at(address)
        yield f"at {address:#x}", (kind.value, part.tobytes()), wanted_at(wanted, address)


def compare_groups(found, wanted):
    symbols = list(wanted_symbols(wanted))
    dysymtab = wanted.only(LC_DYSYMTAB) or SimpleNamespace(
        ilocalsym=0, nlocalsym=0, iextdefsym=0, nextdefsym=0, iundefsym=0, nundefsym=0)
    for name, first, count in (("local_symbols", dysymtab.ilocalsym, dysymtab.nlocalsym),
                               ("defined_symbols", dysymtab.iextdefsym, dysymtab.nextdefsym),
                               ("undefined_symbols", dysymtab.iundefsym, dysymtab.nundefsym)):
        yield name, list(map(as_bytes, getattr(found, name))), symbols[first:first + count]


# How many symbols are looked up: each look-up reads all symbols here.
LOOKED_UP = 9


def is_plain(symbol):
    """Whether a symbol is no debugging entry (N_STAB)."""
    return symbol[3] & 0xE0 == 0


def exported_names(table):
    """The first names of an export trie, up to what is none."""
    try:
        yield from (name for name, _ in itertools.islice(export_trie.read_all(table), LOOKED_UP))
    except oracle.Malformed:
        return


def compare_lookups(found, wanted):
    """The symbols by address, of those that have N_SECT, and by name."""
    symbols, names = list(wanted_symbols(wanted)), list(wanted_names(wanted))
    indexed = [(symbol[0], number) for number, symbol in enumerate(symbols)
               if is_plain(symbol) and symbol[3] & 0xE == 0xE]
    addresses = {value + past for value, _ in indexed[:LOOKED_UP] for past in (-1, 0, 1)}
    for address in addresses | {-1, 0, 2 ** 64 - 1, 2 ** 64}:
        nearest = max((it for it in indexed if it[0] <= address), default=None)
        symbol = found.symbol_at(address)
        yield f"symbol at {address:#x}", symbol and as_bytes(symbol), nearest and symbols[nearest[1]]
    named = {name for symbol, name in zip(symbols[:LOOKED_UP], names) if symbol[1]}
    for name in named | {b"", b"_no symbol", b"_\0"}:
        first = (symbol for symbol, other in zip(symbols, names) if symbol[1] and is_plain(symbol) and other == name)
        symbol = found.symbol_named(name)
        yield f"symbol {name!r:.99}", symbol and as_bytes(symbol), next(first, None)
    table = export_trie.table_of(wanted)
    for name in {*named, b"", b"_no symbol", *exported_names(table)}:
        yield (f"export {name!r:.99}", as_bytes(found.find_export(name) or ()),
               export_trie.from_base(export_trie.look_up(table, name), wanted.base) or ())


def compare_slice(found, wanted):
    """Compares a slice, which need not be an image."""
    source = wanted.header if wanted.is_64_bit else wanted.entry
    yield "place", found.place, wanted.start
    yield "bytes", found.bytes.tobytes(), wanted.data
    yield "cputype", found.cputype, source.cputype
    yield "cpusubtype", found.cpusubtype, oracle.masked(source.cpusubtype)
    yield "is read", isinstance(found, kesvuot.Image), wanted.is_64_bit
    if wanted.is_64_bit:
        yield from compare_image(found, wanted)


def compare_file(name, data):
    found, wanted = kesvuot.verify(data), oracle.File(data)
    yield f"{name}: slices", len(found.slices), len(wanted.slices)
    yield f"{name}: images", len(found.images), sum(part.is_64_bit for part in wanted.slices)
    for part, wanted_part in zip(found.slices, wanted.slices):
        for view, it, wanted_it in compare_slice(part, wanted_part):
            yield f"{name}: slice {part.index}: {view}", it, wanted_it


def compare_views(report, name, files):
    """The views of accepted files."""
    report.alike(f"the views of {name}, and the oracle", "answers", (
        triple for which, data in files for triple in compare_file(which, data)))


def compare_signatures(report):
    """On vectors of the linked and the sealed profile which they refuse, too: they are accepted by the layout."""
    vectors = [vector for path in (LINKED, SEALED)
               for vector in read_vectors(path) if verdict(vector.data) == "accepted"]
    report.alike("the signatures and threads of vectors of the linked and the sealed profile", "answers", (
        (f"{vector.name}: {view}", found, wanted) for vector in vectors
        for image, read in zip(kesvuot.verify(vector.data).images,
                               (part for part in oracle.File(vector.data).slices if part.is_64_bit))
        for view, found, wanted in compare_signature(image, read)))


def compare_all_views(report, all_kinds, mixed):
    accepted = [(f"{name}: {vector.name}", vector.data) for name, vectors in oracle_trials.read_all_vectors("layout")
                for vector in vectors if vector.wanted == "accepted"]
    accepted += [(f"{name}: {vector.name}", vector.data) for name, vectors in oracle_trials.read_all_vectors("strict")
                 for vector in vectors if vector.profile == "strict" and verdict(vector.data) == "accepted"]
    compare_views(report, f"{len(accepted)} accepted vectors", accepted)
    compare_views(report, "two files of tests/support", [("all kinds", all_kinds), ("mixed", mixed)])
    compare_views(report, "the reports", ((name, data) for name, data, *_ in oracle_trials.read_all_reports()))
    compare_views(report, "the real files", ((name, data) for name, data, _ in oracle_trials.read_real()))


# The layout from an object of --json


def plain_lines(answer_object):
    """The lines of the layout, in the order of docs/reference/commands.md."""
    yield f"accepted, slices {len(answer_object['slices'])}"
    for index, part in enumerate(answer_object["slices"]):
        kind = oracle.FILETYPES[part["filetype"]][1] if part["is_read"] else "not read"
        yield f"slice {index} {part['arch']} at {part['place']:#x} size {part['size']:#x} {kind}"
        if part["is_read"]:
            yield from plain_image_lines(part)


def plain_image_lines(part):
    yield from (library_line("id", it) for it in part["libraries"] if it["cmd"] == oracle.LC_ID_DYLIB)
    if part["uuid"] is not None:
        yield f"  uuid {part['uuid']}"
    for build in part["builds"]:
        if build["cmd"] != oracle.LC_BUILD_VERSION:
            continue
        yield (f"  build platform {build['platform']} min {oracle.version(build['minos'])} "
               f"sdk {oracle.version(build['sdk'])}")
    for it in part["segments"]:
        yield (f'  segment "{it["name"]}" addr {it["vmaddr"]:#x} size {it["vmsize"]:#x} file {it["fileoff"]:#x} '
               f'size {it["filesize"]:#x} {oracle.protection(it["initprot"])}')
        for inner in it["sections"]:
            source = "zero" if inner["zero_fill"] else f"file {inner['offset']:#x}"
            yield f'    section "{inner["name"]}" addr {inner["addr"]:#x} size {inner["size"]:#x} {source}'
    for it in part["libraries"]:
        if it["cmd"] in oracle.LIBRARIES:
            yield library_line(oracle.LIBRARIES[it["cmd"]], it)
    if part["symbols"] is not None:
        yield f"  symbols {part['symbols']}"
    yield "  entry none" if part["entry"] is None else f"  entry {part['entry']:#x}"


def library_line(word, it):
    versions = f"current {oracle.version(it['current'])} compatible {oracle.version(it['compatible'])}"
    return f'  {word} "{it["name"]}" {versions}'


def plain_text(answer_object):
    if answer_object["verdict"] == "refused":
        return 1, f"refused: {answer_object['rule']} at {answer_object['place']:#x}\n"
    return 0, "".join(line + "\n" for line in plain_lines(answer_object))


def compare_json(report):
    """The vectors and reports, each in a file of its own, judged by one call of the command."""
    files = [(vector.name, vector.data) for _, vectors in oracle_trials.read_all_vectors("layout")
             for vector in vectors]
    files += [(name, data) for name, data, *_ in oracle_trials.read_all_reports()]
    with tempfile.TemporaryDirectory() as room:
        paths = [os.path.join(room, str(number)) for number in range(len(files))]
        for path, (_, data) in zip(paths, files):
            Path(path).write_bytes(data)
        command = [sys.executable, "-W", "error", "-m", "kesvuot", "--json", *paths]
        said = subprocess.run(command, stdout=subprocess.PIPE, check=False, text=True,
                              env={**os.environ, "PYTHONPATH": str(TOP / "bindings" / "python")})
        objects = [json.loads(line) for line in said.stdout.splitlines()]
    report.case("the objects of the command, and its status", f"{[it['file'] for it in objects] == paths}, "
                f"{said.returncode}", "True, 1")
    report.alike("the layouts from these objects", "texts", (
        (name, plain_text(it), answer(data)) for (name, data), it in zip(files, objects)))


# The objects of Python


def raised(kind, call):
    """Whether the call raises this kind of exception."""
    try:
        call()
    except kind:
        return True
    return False


def judge_buffers(report, data, layout):
    """The same bytes in objects of all kinds. No view of them may be written, and none is a copy."""
    with tempfile.TemporaryFile() as file:
        file.write(data)
        file.flush()
        kinds = {
            "bytes": data, "a bytearray": bytearray(data), "an array of words": array.array("I", data),
            "a view": memoryview(data), "a view of words": memoryview(data).cast("I"),
            "a view into other bytes": memoryview(b"abc" + data + b"d")[3:-1],
            "a view into other bytes that may be written": memoryview(bytearray(b"abc" + data + b"d"))[3:-1],
            "numbers of ctypes": (ctypes.c_uint16 * (len(data) // 2)).from_buffer_copy(data),
            "a mapped file": mmap.mmap(file.fileno(), 0, access=mmap.ACCESS_READ),
            "a mapped file that may be written": mmap.mmap(file.fileno(), 0),
            "a mapped file that is copied on a write": mmap.mmap(file.fileno(), 0, access=mmap.ACCESS_COPY),
        }
        for kind, given in kinds.items():
            report.case(f"{kind}, judged", answer(given) == (0, layout), True)
            owner = given.obj if isinstance(given, memoryview) else given
            views = [part for part in all_parts(kesvuot.verify(given)) if part.nbytes > 0]
            report.case(f"{kind}: views that are no copies, and are read-only",
                        sum(part.obj is owner and part.readonly for part in views), len(views) or "some")
    report.case("no bytes, in objects of some kinds", [answer(given) for given in (
        b"", bytearray(), memoryview(b""), array.array("I"))], [(1, "refused: magic at 0x0\n")] * 4)


def all_parts(file):
    """All memoryviews that a file gives."""
    yield file.data
    for image in file.images:
        yield image.bytes
        for rows in (image.commands, image.segments, image.sections, image.libraries, image.symbols):
            yield from (value for row in rows for value in row if isinstance(value, memoryview))
        yield from (symbol.name for symbol in image.symbols)
        yield from filter(None, (image.linkedit(command.cmd) for command in image.commands))
        yield from (image.at(segment.vmaddr).bytes for segment in image.segments)
        for blob in image.blobs:
            yield blob.bytes
            yield from (value for value in blob.code_directory() or () if isinstance(value, memoryview))


def judge_lives(report, data):
    """What is read holds the bytes, and lets them go."""
    given = bytearray(data)
    file = kesvuot.verify(given)
    report.case("a bytearray does not grow under a file", raised(BufferError, lambda: given.append(0)), True)
    name = file.images[0].segments[1].name
    gc.disable()
    del file
    report.case("nor under a name", raised(BufferError, lambda: given.append(0)), True)
    report.case("the name", name.tobytes(), b"__TEXT")
    del name
    report.case("and then it grows", raised(BufferError, lambda: given.append(0)), False)
    mapped = mmap.mmap(-1, len(data))
    mapped.write(data)
    text = kesvuot.verify(mapped).layout()
    report.case("a map is closed after its layout", raised(BufferError, mapped.close), False)
    report.case("the layout of a map", text == kesvuot.verify(data).layout(), True)
    cut = bytearray(data[:12000])
    answer(cut)
    report.case("a bytearray grows after a refusal", raised(BufferError, lambda: cut.append(0)), False)
    gc.enable()
    whole = Whole(data)
    alive = weakref.ref(whole)
    part = kesvuot.verify(whole).images[0].segments[1].name
    del whole
    report.case("a part keeps the bytes", (alive() is None, part.tobytes()), (False, b"__TEXT"))
    del part
    report.case("and no longer than itself", alive() is None, True)


class Whole(bytearray):
    """Bytes that can be referred to weakly."""


def judge_exceptions(report, data):
    refused = None
    try:
        kesvuot.verify(data[:12000])
    except kesvuot.Refused as error:
        refused = error
    again = pickle.loads(pickle.dumps(refused))
    report.case("a refusal", (refused.rule, refused.place, str(refused)),
                ("segment-file", 0x198, "segment-file at 0x198"))
    report.case("a refusal from another process", (type(again), again.rule, again.place),
                (kesvuot.Refused, "segment-file", 0x198))
    strange = {"a text": "text", "None": None, "a number": 5, "every second byte": memoryview(data)[::2]}
    for kind, given in strange.items():
        report.case(f"{kind} is no file", raised(TypeError, lambda given=given: kesvuot.verify(given)), True)
    file = kesvuot.verify(data)
    report.case("what is shown of parts", (repr(file), repr(file.images), repr(file.images[0].symbols[1:3])),
                ("<kesvuot.File of 12528 bytes, 1 slices>", "(<kesvuot.Image 0, x86_64, 12528 bytes>,)",
                 "<kesvuot.Table of 2 rows>"))
    report.case("the kinds of sections", [section.zero_fill is True for section in file.images[0].sections],
                [False, False, False, True])
    report.case("the place of other bytes", raised(ValueError, lambda: file.place(memoryview(bytes(data[:64])))), True)
    report.case("the place of the last byte", file.place(file.data[-1:]), len(data) - 1)
    report.case("the place of no bytes", raised(ValueError, lambda: file.place(file.data[:0])), True)
    file.data.release()
    with file.images[0].bytes:
        pass
    report.case("an image after its views were released", file.images[0].at(0x100000440).bytes.tobytes(),
                data[0x440:0x1000])
    report.case("a file whose view was released", repr(file), "<kesvuot.File of 12528 bytes, 1 slices>")
    file = kesvuot.verify(data)
    report.case("the names of a view", (file.images[0].segments[1].name == b"__TEXT", file.images[0].arch,
                                        {file.images[0].segments[1].name: 1}.get(b"__TEXT")), (True, "x86_64", 1))


def with_sections(symbols):
    """An executable of a header, LC_SEGMENT_64 with two empty sections, LC_SYMTAB, and symbols of these types and
    sections."""
    place = 32 + 232 + 24
    words = [0xFEED_FACF, 0x0100_0007, 3, 2, 2, 232 + 24, 0, 0, 0x19, 232, *[0] * 14, 2, 0, *[0] * 40,
             2, 24, place, len(symbols), 0, 0]
    rows = b"".join(struct.pack("<IBBHQ", 0, kind, sect, 0, 0) for kind, sect in symbols)
    return struct.pack(f"<{place // 4}I", *words) + rows


def judge_sections_of_symbols(report):
    """A section that a symbol has is one of the image, whatever the type: N_SECT, N_UNDF, N_ABS, N_STSYM, N_FUN."""
    wanted = {(0xE, 1): 0, (0xE, 2): 1, (0x0, 0): None, (0x0, 2): 1, (0x0, 3): None, (0x2, 255): None,
              (0x26, 0): None, (0x26, 2): 1, (0x24, 3): None, (0x24, 200): None}
    image = kesvuot.verify(with_sections(list(wanted))).images[0]
    report.case("how many sections there are", len(image.sections), 2)
    report.case("the sections of symbols", {(it.type, it.sect): it.section for it in image.symbols}, wanted)


class Number:
    """A number that is no int, as those of numpy are."""

    def __init__(self, value):
        self.value = value

    def __index__(self):
        return self.value


def judge_numbers(report, data):
    """Whatever has __index__ is a number."""
    image = kesvuot.verify(data).images[0]
    report.case("an address that is no int", image.at(Number(0x100000440)) == image.at(0x100000440), True)
    report.case("a cmd that is no int", image.linkedit(Number(0x26)) == image.linkedit(0x26) is not None, True)
    report.case("an index that is no int", image.segments[Number(1)] == image.segments[1], True)
    report.case("a slice of such", [text_of(it.name) for it in image.segments[Number(1):Number(3)]],
                ["__TEXT", "__DATA_CONST"])
    for name, call in {"an address": image.at, "a cmd": image.linkedit, "an index": image.segments.__getitem__}.items():
        report.case(f"a float is no number: {name}", raised(TypeError, lambda call=call: call(1.0)), True)


def judge_lookups(report, data):
    """Symbols of one address, of no address, and names that are texts."""
    image = kesvuot.verify(with_sections([(0x24, 1), (0x1, 0), (0xE, 2), (0xF, 1)])).images[0]
    report.case("the last symbol of one address", image.symbol_at(0).type, 0xF)
    image = kesvuot.verify(with_sections([(0x24, 1)])).images[0]
    report.case("a debugging entry alone", image.symbol_at(2 ** 64 - 1), None)
    image = kesvuot.verify(with_sections([])).images[0]
    report.case("no symbols", (image.symbol_at(0), image.symbol_named(b"")), (None, None))
    image = kesvuot.verify(data).images[0]
    names = ["_start", b"_start", bytearray(b"_start"), memoryview(b"?_start")[1:]]
    report.case("a name in all forms", [image.symbol_named(name).value for name in names], [0x100000440] * 4)
    report.case("an address that is no int, for its symbol", image.symbol_at(Number(0x10000045A)).value, 0x100000440)
    report.case("a name of no bytes", raised(TypeError, lambda: image.symbol_named(5)), True)


def judge_names_of_numbers(report):
    """By the headers, and by the names that LLVM's lipo prints."""
    constants = kesvuot.constants
    report.case("a command", kesvuot.command_name(constants.LC_MAIN), "LC_MAIN")
    report.case("a platform", kesvuot.platform_name(constants.PLATFORM_MACOS), "PLATFORM_MACOS")
    arm64e = (constants.CPU_TYPE_ARM64, constants.CPU_SUBTYPE_ARM64E)
    report.case("an architecture", [kesvuot.arch_name(*arm64e), kesvuot.arch_name(arm64e[0], 0x8000_0002)],
                ["arm64e"] * 2)
    none = [(0, 0), (7, 4), (-1, 3), (1 << 32 | 7, 3), (7, 1 << 32)]
    report.case("no architecture", [kesvuot.arch_name(*numbers) for numbers in none], [None] * len(none))
    report.case("an architecture by its name", [kesvuot.arch_named(name) for name in ("arm64e", b"arm64e")],
                [arm64e] * 2)
    report.case("no architecture has the name", [kesvuot.arch_named(name) for name in ("", "arm", "arm64e\0", "ARM64")],
                [None] * 4)


def judge_profiles(report, data):
    """The profile of each rule is that of the list. Without a profile there is no verdict."""
    report.alike("the profiles of the rules", "rules", (
        (rule.name, kesvuot.Refused(rule.name, 0).profile, rule.profile.lower()) for rule in read_rules()))
    report.case("the profile of no rule", kesvuot.Refused("no-rule", 0).profile, None)
    for name in ("", "none", "Strict", "strict\0", 2, True, None):
        report.case(f"the profile {name!r}", kind_of_error(lambda name=name: kesvuot.verify(data, name)),
                    ("ValueError", f"unknown profile {name!r}: choose from {', '.join(PROFILES)}"))


def kind_of_error(call):
    """The error of a call that fails."""
    try:
        call()
    except (OSError, ValueError, kesvuot.Refused) as error:
        return type(error).__name__, str(error)
    return None


def judge_paths(report, data):
    """Files by their paths."""
    with tempfile.TemporaryDirectory() as folder:
        path = Path(folder) / "file"
        path.write_bytes(data)
        for form in (path, str(path), os.fsencode(path)):
            report.case(f"a file by a {type(form).__name__}", bytes(kesvuot.verify_file(form).data) == data, True)
        path.write_bytes(data + b"more")
        report.case("a longer file", kesvuot.verify_file(path).slice_count, 1)
        report.case("a longer file, strictly", kind_of_error(lambda: kesvuot.verify_file(path, "strict")),
                    ("Refused", "stray-byte at 0x30f0"))
        path.write_bytes(b"")
        report.case("an empty file", kind_of_error(lambda: kesvuot.verify_file(path)), ("Refused", "magic at 0x0"))
        with open(path, "r+b") as file:
            file.truncate((1 << 32) + 1)
        report.case("a file that is too long", kind_of_error(lambda: kesvuot.verify_file(path)),
                    ("OSError", f"[Errno 27] more than 4294967296 bytes: {str(path)!r}"))
        path.unlink()
        report.case("no file", kind_of_error(lambda: kesvuot.verify_file(path)),
                    ("FileNotFoundError", f"[Errno 2] No such file or directory: {str(path)!r}"))
        os.mkfifo(path)
        report.case("a pipe", kind_of_error(lambda: kesvuot.verify_file(str(path))),
                    ("OSError", f"[Errno 22] not a regular file: {str(path)!r}"))
        report.case("a folder", kind_of_error(lambda: kesvuot.verify_file(folder)),
                    ("IsADirectoryError", f"[Errno 21] Is a directory: {folder!r}"))
    report.case("a device", kind_of_error(lambda: kesvuot.verify_file("/dev/null")),
                ("OSError", "[Errno 22] not a regular file: '/dev/null'"))


def judge_sources(report, data):
    """What is at an address is not mistaken for its truth."""
    image = kesvuot.verify(data).images[0]
    sources = [image.at(address) for address in (0x100000440, 0, 2 ** 63)]
    report.case("what is at addresses", [source.kind for source in sources],
                [kesvuot.SourceKind.FILE, kesvuot.SourceKind.ZERO, kesvuot.SourceKind.UNMAPPED])
    report.case("how many bytes there are", [len(source.bytes) for source in sources], [3008, 0, 0])
    report.case("none of them is true or false", [raised(TypeError, lambda it=it: bool(it)) for it in sources],
                [True, True, True])
    report.case("what is shown of them", list(map(str, sources)), [
        "<kesvuot.Source file, 3008 bytes>", "<kesvuot.Source zero, 0 bytes>", "<kesvuot.Source unmapped, 0 bytes>"])


def with_symbol(flags, kind, desc, value):
    """The first symbol of an executable of these flags of the header, of LC_SYMTAB, of a symbol of this type,
    description and value, and of the strings `_a` from 1 and `_b` from 4 on."""
    data = struct.pack("<14I", 0xFEEDFACF, 0x01000007, 3, 2, 1, 24, flags, 0, 2, 24, 56, 1, 72, 7)
    data += struct.pack("<IBBHQ", 1, kind, 0, desc, value) + b"\0_a\0_b\0"
    return kesvuot.verify(data).images[0].symbols[0]


def properties_of(symbol):
    return (symbol.kind.value, symbol.is_external, symbol.is_private, symbol.is_weak_reference,
            symbol.is_weak_definition, symbol.is_alternate_entry)


def judge_kinds_of_symbols(report, data):
    """What the bits of each type say, with each bit of the description that is not a part of an ordinal."""
    kinds = "undefined absolute other other other indirect prebound section".split()
    strings = kesvuot.verify(data).images[0].symbols[0].strings

    def pairs():
        for kind, desc in itertools.product(range(256), (0, N_WEAK_REF, N_WEAK_DEF, N_ALT_ENTRY)):
            is_plain_, word = kind < 0x20, kinds[kind >> 1 & 7] if kind < 0x20 else "debugging"
            yield f"{kind:#x} {desc:#x}", properties_of(kesvuot.Symbol(0, 0, desc, kind, 0, None, strings)), (
                word, is_plain_ and kind & 1 != 0, is_plain_ and kind & 16 != 0,
                word in ("undefined", "prebound") and desc == N_WEAK_REF,
                word in ("absolute", "section", "indirect") and desc == N_WEAK_DEF,
                word == "section" and desc == N_ALT_ENTRY)

    report.alike("the kinds of symbols", "types", pairs())
    library = kesvuot.SymbolLibrary
    for flags, kind, desc, value, wanted in (
            (MH_TWOLEVEL, 1, 0, 0, library.THIS_IMAGE), (MH_TWOLEVEL, 1, 1 << 8 | N_WEAK_REF, 0, 0),
            (MH_TWOLEVEL, 0xD, 0xFD << 8, 5, 0xFC), (MH_TWOLEVEL, 1, 0xFE << 8, 0, library.DYNAMIC_LOOKUP),
            (MH_TWOLEVEL, 1, 0xFF << 8, 0, library.EXECUTABLE), (MH_TWOLEVEL, 1, 1 << 8, 5, None),
            (MH_TWOLEVEL, 3, 1 << 8, 0, None), (MH_TWOLEVEL, 0x20, 1 << 8, 0, None), (0, 1, 1 << 8, 0, None)):
        report.case(f"the library of a symbol: {flags:#x} {kind:#x} {desc:#x} {value}",
                    with_symbol(flags, kind, desc, value).library, wanted)
    for kind, value, wanted in ((0xB, 4, b"_b"), (0xA, 5, b"b"), (0xA, 0, b""), (0xA, 7, b""), (0xA, 1 << 32 | 4, b""),
                                (0x2, 4, None)):
        symbol = with_symbol(0, kind, 0, value)
        report.case(f"the names of a symbol: {kind:#x} {value:#x}",
                    (symbol.name.tobytes(), symbol.other_name if wanted is None else symbol.other_name.tobytes()),
                    (b"_a", wanted))


def judge_texts_of_rows(report, data):
    """What `print` shows of rows: names as they are, and of other bytes how many there are."""
    image = kesvuot.verify(data).images[0]
    report.case("a segment", str(image.segments[1]),
                "Segment(name=b'__TEXT', bytes=<4096 bytes>, vmaddr=4294967296, vmsize=4096, fileoff=0, filesize=4096, "
                "first_section=0, section_count=1, maxprot=5, initprot=5)")
    report.case("a section", str(image.sections[0]),
                "Section(name=b'__text', segment=b'__TEXT', bytes=<27 bytes>, addr=4294968384, size=27, offset=1088, "
                "align=4, reloff=0, nreloc=0, flags=2147484672, reserved1=0, reserved2=0, zero_fill=False)")
    report.case("a library", str(image.libraries[0]),
                "Library(name=b'/usr/lib/libdemo.dylib', cmd=12, current=66051, compatible=66048)")
    report.case("a build", str(image.builds[0]), "Build(platform=1, minos=720896, sdk=720896, cmd=50)")
    command = next(command for command in image.commands if command.cmd == LC_LOAD_DYLINKER)
    report.case("a command", str(command),
                f"Command(bytes=<{len(command.bytes)} bytes>, name=b'/usr/lib/dyld', place={command.place}, cmd=14)")
    report.case("a symbol", str(image.symbols[0]).split(", desc=")[0] + ")",
                "Symbol(name=b'_start', value=4294968384, strx=2)")
    report.case("an export", str(image.find_export("_start")),
                "Export(flags=0, address=4294968384, resolver=None, ordinal=None, name=None)")


def made(name):
    """The file of this name of tests/fixtures/images.py."""
    out = io.BytesIO()
    images.maker(name)(out)
    return out.getvalue()


def judge_tables(report):
    """A table longer than two batches, by its indexes and by its slices."""
    count = 2 * BATCH + 5
    data = made(f"symbols-{count}")
    table = kesvuot.verify(data).images[0].symbols
    rows = list(wanted_symbols(oracle.File(data).slices[0]))

    def read(some):
        return list(map(as_bytes, some))

    report.case("a long table: its length", (len(table), len(rows)), (count, count))
    report.case("a long table: its rows differ", len(set(rows)) > count // 2, True)
    report.case("a long table in a loop", read(table) == rows, True)
    report.case("a long table by indexes", read(table[index] for index in range(count)) == rows, True)
    for key in (slice(3, 5), slice(BATCH - 1, BATCH + 1), slice(1, 2 * BATCH + 2), slice(None, None, 1000),
                slice(None, None, -999), slice(-3, None), slice(5, 5), slice(7, 3), slice(count, count + 9)):
        report.case(f"a long table: {key}", read(table[key]) == rows[key], True)
    report.case("a slice of a slice", read(table[10:90][20:30:3]) == rows[10:90][20:30:3], True)
    report.case("the ends of a table", (read([table[0], table[-1], table[-count]])), [rows[0], rows[-1], rows[0]])
    report.case("a long table backwards", read(reversed(table)) == rows[::-1], True)
    for index in (count, -count - 1, 2 ** 64):
        report.case(f"no row {index}", raised(IndexError, lambda index=index: table[index]), True)


def judge_walked_tables(report):
    """A table for which the library walks over the commands, and what it takes: a row in the form of the library has 48
    bytes, and as an object ten times as many."""
    count = 20_000
    data = made(f"commands-{count}-accepted")
    image = kesvuot.verify(data).images[0]
    rows = list(wanted_commands(oracle.File(data).slices[0]))
    tracemalloc.start()
    table = image.commands
    report.case("a walked table: its length", len(table), len(rows))
    report.case("it takes nothing before a row is asked for", tracemalloc.get_traced_memory()[1] < 10_000, True)
    report.case("a walked table: its ends", (as_bytes(table[0]), as_bytes(table[-1])), (rows[0], rows[-1]))
    report.case("a walked table in a loop", sum(1 for _ in table), len(rows))
    report.case("it takes 48 bytes for each row", tracemalloc.get_traced_memory()[1] < 48 * len(rows) + 100_000, True)
    tracemalloc.stop()
    report.case("a walked table: its rows", list(map(as_bytes, table)) == rows, True)
    report.case("a walked table by indexes", [as_bytes(table[index]) for index in range(len(rows))] == rows, True)
    report.case("a walked table backwards", list(map(as_bytes, reversed(table))) == rows[::-1], True)
    report.case("a part of a walked table", list(map(as_bytes, table[5:9000:7])) == rows[5:9000:7], True)
    report.case("a table is read once", image.commands is table, True)


def judge_uncounted_tables(report):
    """A table whose length nothing says, near the ends of batches: it is one as the others. And a walk begins anew."""
    for count in (1, BATCH - 1, BATCH, BATCH + 1, 2 * BATCH + 5):
        image = kesvuot.verify(made(f"starts-{count}")).images[0]
        starts = image.function_starts
        wanted = [starts[0] + 16 * index for index in range(count)]
        report.case(f"{count} functions", (len(starts), list(starts) == wanted, list(reversed(starts)) == wanted[::-1]),
                    (count, True, True))
        report.case(f"{count} functions: a part", list(starts[-5::2]), wanted[-5::2])
        report.case(f"{count} functions are read once", image.function_starts is starts, True)
    exports = kesvuot.verify(made("exports-10")).images[0].exports
    report.case("a walk again", (len(list(exports)), list(exports) == list(exports)), (10, True))


# Fixups


def with_streams(data_size=256, pointers=None, **streams):
    """The first image of a file with these streams, in hexadecimal. It loads one library, and its segment 1 has the
    data, at images.FAR: zeros, and these pointers at their offsets."""
    out = io.BytesIO()
    images.with_opcodes(out, data_size, **{name: bytes.fromhex(words) for name, words in streams.items()})
    data = bytearray(out.getvalue())
    start = kesvuot.verify(data).images[0].segments[1].fileoff
    for offset, pointer in (pointers or {}).items():
        struct.pack_into("<Q", data, start + offset, pointer)
    return kesvuot.verify(data).images[0]


def offsets_of(image, most=100):
    """Where the first pointers are in segment 1."""
    found = [(it.segment, it.offset, it.address - images.FAR) for it in itertools.islice(image.fixups, most)]
    return [offset for _, offset, _ in found] if found == [(1, offset, offset) for _, offset, _ in found] else found


def binds_of(image):
    """The pointers, each with its import and what is added in all; and the imports."""
    return ([(it.offset, it.import_index, it.addend) for it in image.fixups],
            [(it.name.tobytes(), it.library, it.addend, it.weak) for it in image.imports])


def judge_fixups(report):
    """An opcode of each kind, by hand."""
    rebase = "11 2108 52 3008 41 6002 7010 800208 51 00"
    rebases = with_streams(pointers={8: 0x1_0000_0010, 40: 2 ** 64 - 1}, rebase=rebase)
    report.case("rebases, by hand", list(rebases.fixups), [
        kesvuot.Fixup(images.FAR + offset, 1, offset, target, None, 0, None) for offset, target in (
            (8, 0x1_0000_0010), (16, 0), (40, 2 ** 64 - 1), (48, 0), (56, 0), (80, 0), (96, 0), (112, 0))])
    report.case("imports of rebases", list(rebases.imports), [])
    bind = "11 405f6100 51 7108 90 607e a008 b1 2000 3e 495f6200 c00208 80f8ffffffffffffffff01 90 00"
    pointers = [(8, 0, 0), (16, 1, -2), (32, 2, -2), (48, 3, -2), (64, 3, -2), (72, 4, -2)]
    rows = [(b"_a", 1, 0, False), (b"_a", 1, -2, False), (b"_a", 1, -2, False), (b"_b", -2, -2, True),
            (b"_b", -2, -2, True)]
    report.case("binds, by hand", binds_of(with_streams(bind=bind)), (pointers, rows))
    report.case("the same as weak binds", binds_of(with_streams(weak=bind)),
                (pointers, [(name, -3, addend, weak) for name, _, addend, weak in rows]))
    lazy = "7110 11 6005 425f6100 90 00 7118 405f6300 51 90 00 00"
    report.case("lazy binds, by hand", binds_of(with_streams(lazy=lazy)),
                ([(16, 0, 5), (24, 1, 0)], [(b"_a", 1, 5, False), (b"_c", 0, 0, False)]))
    report.case("all streams", binds_of(with_streams(lazy=lazy, weak="405f7700 7128 90", bind="405f6200 7120 90",
                                                     rebase="2130 51")),
                ([(48, None, 0), (32, 0, 0), (40, 1, 0), (16, 2, 5), (24, 3, 0)],
                 [(b"_b", 0, 0, False), (b"_w", -3, 0, False), (b"_a", 1, 5, False), (b"_c", 0, 0, False)]))
    image = with_streams(lazy=lazy)
    report.case("what is shown of a fixup", str(next(iter(image.fixups))),
                f"Fixup(address={images.FAR + 16}, segment=1, offset=16, target=None, import_index=0, addend=5, "
                "authentication=None)")
    report.case("what is shown of an import", str(next(iter(image.imports))),
                "Import(name=b'_a', library=1, addend=5, weak=False)")
    report.case("an image without opcodes", binds_of(with_streams()), ([], []))


def chained_file(form, pointers, starts, imports_format=1, imports=(), names=b"\0", streams=(), streams_at=0):
    """A file with chains of this format: in pages of 4096 bytes of its segment 1, at images.BASE + 0x1000, which has
    these pointers at their offsets. With streams of opcodes, their command is before that of the chains (0) or after it
    (1)."""
    size = max(pointers) + images.POINTER_SIZE
    data = bytearray(size)
    for offset, pointer in pointers.items():
        struct.pack_into("<Q", data, offset, pointer)
    segment_starts = struct.pack(f"<I2HQIH{len(starts)}H", 22 + 2 * len(starts), images.PAGE, form, images.PAGE, 0,
                                 len(starts), *starts)
    array = struct.pack("<4I", 3, 0, 16, 0)
    imports_offset = images.FIXUPS_HEADER_SIZE + len(array) + len(segment_starts)
    listed = b"".join(imports)
    table = struct.pack("<7I", 0, images.FIXUPS_HEADER_SIZE, imports_offset, imports_offset + len(listed), len(imports),
                        imports_format, 0) + array + segment_starts + listed + names
    begin = (images.HEADER_SIZE + 3 * images.SEGMENT_SIZE + images.LIBRARY_SIZE + images.LINKEDIT_DATA_SIZE
             + images.MAIN_SIZE + (images.DYLD_INFO_SIZE if streams else 0))
    end = begin + size + len(table)
    linkedit_size = len(table) + sum(map(len, streams))
    fixups = [images.linkedit_data(LC_DYLD_CHAINED_FIXUPS, begin + size, len(table))]
    if streams:
        fixups.insert(streams_at, images.dyld_info(end, list(map(len, streams))))
    commands = images.segment(b"__TEXT", images.BASE, images.PAGE, 0, begin)
    commands += images.segment(b"__DATA", images.BASE + images.PAGE, -(-size // images.PAGE) * images.PAGE, begin, size,
                               initprot=3)
    commands += images.segment(b"__LINKEDIT", images.FAR, images.PAGE, begin + size, linkedit_size, initprot=1)
    commands += images.library(0) + b"".join(fixups)
    out = io.BytesIO()
    images.image(out, commands, 4 + len(fixups), [bytes(data), table, *streams], accepted=True)
    return out.getvalue()


def chained(*words, **given):
    """The first image of such a file."""
    return kesvuot.verify(chained_file(*words, **given)).images[0]


def chained_rows(image):
    """All of the fixups of segment 1, but their addresses, which are those that their offsets say."""
    found = list(image.fixups)
    at = {(it.segment, it.address - it.offset - images.BASE) for it in found}
    if at != {(1, images.PAGE)}:
        return found
    return [it[2:6] + (it.authentication and tuple(it.authentication),) for it in found]


def judge_chains(report):
    """Pointers and imports of each format, and of an image that has opcodes too, by hand. (mach-o/fixup-chains.h)"""
    base = images.BASE
    imports = [struct.pack("<I", bits) for bits in (1 | 1 << 9, 0xFE | 1 << 8 | 4 << 9, 0xFD | 7 << 9)]
    names = b"\0_a\0_b\0_c\0"
    rows = [(b"_a", 1, 0, False), (b"_b", -2, 0, True), (b"_c", -3, 0, False)]
    # A chain in the first page, none in the second, and one in the third. `next` counts 4 bytes.
    image = chained(2, {8: 0x1_0000_0010 | 0x7F << 36 | 2 << 51, 16: 1 << 63 | 1 | 5 << 24 | 3 << 51, 28: 1 << 63 | 2,
                        0x2004: 0xF_FFFF_FFFF}, [8, 0xFFFF, 4], 1, imports, names)
    report.case("chains of 64 bits, by hand", chained_rows(image), [
        (8, 0x7F00_0001_0000_0010, None, 0, None), (16, None, 1, 5, None), (28, None, 2, 0, None),
        (0x2004, 0xF_FFFF_FFFF, None, 0, None)])
    report.case("their imports", binds_of(image)[1], rows)
    image = chained(6, {0: 0x1234 | 2 << 36}, [0])
    report.case("targets from the base, by hand", chained_rows(image), [
        (0, base + 0x1234 + (2 << 56), None, 0, None)])
    report.case("no imports", list(image.imports), [])
    # The opcodes rebase the pointer at 24, and bind the pointer at 32 to _x.
    streams = [bytes.fromhex(words) for words in ("11 2118 51 00", "11 405f7800 7120 90 00", "", "")]
    pointers = {8: 0x1_0000_0010 | 2 << 51, 16: 1 << 63, 32: 0}
    for streams_at, where in enumerate(("before", "after")):
        image = chained(2, pointers, [8], 1, imports, names, streams, streams_at)
        report.case(f"chains, and opcodes by a command {where} theirs, by hand",
                    (chained_rows(image), binds_of(image)[1]),
                    ([(8, 0x1_0000_0010, None, 0, None), (16, None, 0, 0, None)], rows))
    # The upper bits: is authenticated, is a bind, `next`, which counts 8 bytes, and the key or a part of the addend.
    pointers = {0: 0x2_0000_0010 | 0x80 << 43 | 1 << 51, 8: 1 << 62 | 1 | 0x7_FFFE << 32 | 1 << 51,
                16: 1 << 63 | 0x1010 | 0xBEEF << 32 | 1 << 48 | 2 << 49 | 2 << 51,
                32: 3 << 62 | 2 | 0x0102 << 32 | 3 << 49}
    for form in (1, 9, 12):
        target = 0x2_0000_0010 | 0x80 << 56
        image = chained(form, pointers, [0], 1, imports, names)
        report.case(f"chains of arm64e, format {form}, by hand", chained_rows(image), [
            (0, target if form == 1 else base + target, None, 0, None), (8, None, 1, -2, None),
            (16, base + 0x1010, None, 0, (2, 0xBEEF, True)), (32, None, 2, 0, (3, 0x0102, False))])
    # With addends of their own: of 32 bits, and of 64 bits, where libraries have 16 bits.
    image = chained(2, {0: 1 << 63 | 1 | 255 << 24}, [0], 2,
                    [struct.pack("<Ii", 1 | 1 << 9, 7), struct.pack("<Ii", 0xFF | 4 << 9, -16)], names)
    report.case("imports with an addend, by hand", (chained_rows(image), binds_of(image)[1]), (
        [(0, None, 1, 239, None)], [(b"_a", 1, 7, False), (b"_b", -1, -16, False)]))
    image = chained(2, {0: 1 << 63}, [0], 3, [struct.pack("<Qq", 0xFFFE | 1 << 16 | 4 << 32, -2 ** 63),
                                             struct.pack("<Qq", 0x0101 | 1 << 32, 1)], names)
    report.case("imports with a long addend, by hand", (chained_rows(image), binds_of(image)[1]), (
        [(0, None, 0, -2 ** 63, None)], [(b"_b", -2, -2 ** 63, True), (b"_a", 0x101, 1, False)]))


def judge_bad_chains(report):
    """Where the rows of chains and of imports end, by hand. Before what is wrong there is a good pointer, and after it
    another one, which is no row."""
    good = 0x10 | 2 << 51
    imports = [struct.pack("<I", 1), struct.pack("<I", 1 | 3 << 9)]
    for name, form, pointers, starts, wanted in (
            ("an import", 2, {0: good, 8: 1 << 63 | 2 | 2 << 51, 16: 0x30}, [0], [0]),
            ("the last import", 2, {0: good, 8: 1 << 63 | 1 | 2 << 51, 16: 0x30}, [0], [0, 8, 16]),
            ("a pointer in one before it", 2, {0: good, 8: 0x20 | 1 << 51}, [0], [0]),
            ("another page", 2, {0xFF0: 0x10 | 4 << 51, 0x1000: 0x20}, [0xFF0, 0], [0xFF0]),
            ("the end of a page", 2, {0xFF0: 0x10 | 3 << 51, 0xFFC: 0x20}, [0xFF0], [0xFF0]),
            ("the end of the bytes", 2, {0: good}, [0], [0]),
            ("a start past its page", 2, {0x1000: 0x20}, [0x1000, 0], []),
            ("a format", 3, {0: good}, [0], [])):
        image = chained(form, pointers, starts, 1, imports, b"_a\0_b\0")
        report.case(f"chains that end: {name}", [it.offset for it in image.fixups], wanted)
    for name, number, names, wanted in (
            ("a name past the end", 6, b"_a\0_b\0", [b"_a"]),
            ("a name without an end", 3, b"_a\0_b", [b"_a"]),
            ("both names", 3, b"_a\0_b\0", [b"_a", b"_b"])):
        image = chained(2, {0: 0x20}, [0], 1, [struct.pack("<I", 1), struct.pack("<I", 1 | number << 9)], names)
        report.case(f"imports that end: {name}", [it.name.tobytes() for it in image.imports], wanted)
    image = chained(2, {0: 1 << 63 | 1}, [0], 1, imports, b"_a\0_b")
    report.case("a bind of an import past the last row", binds_of(image), ([(0, 1, 0)], [(b"_a", 1, 0, False)]))
    many = [struct.pack("<I", 1)] * 20
    image = chained(2, {0: 0x20}, [0], 1, many, b"_" * 100 + b"\0")
    table = image.linkedit(LC_DYLD_CHAINED_FIXUPS)
    report.case("imports that end: names with more bytes than the table", len(list(image.imports)), len(table) // 101)


def judge_bad_opcodes(report):
    """A stream that cannot be followed ends, and of an opcode the pointers end before the first that is in no bytes of
    a segment, by hand. In the rebase streams a good opcode rebases the pointer at 128 before or after it."""
    most, back = "ff" * 9 + "01", "f8" + "ff" * 8 + "01"
    good = "218001 51"
    for name, words, wanted in (
            ("an opcode", f"{good} 90 {good}", [128]),
            ("another type", f"{good} 12 {good}", [128]),
            ("no type and the type of a pointer", f"{good} 11 {good}", [128, 128]),
            ("bytes past DONE", f"{good} 00 {good}", [128]),
            ("zeros past DONE", f"{good} 000000", [128]),
            ("no segment", f"51 {good}", [128]),
            ("a segment", f"2300 51 {good}", [128]),
            ("the last pointer", f"21f801 51 51 {good}", [248, 128]),
            ("a part of a pointer", f"21f901 51 {good}", [128]),
            ("the last of many pointers", f"21e801 6004 {good}", [232, 240, 248, 128]),
            ("a number at the end", f"{good} 3080", [128]),
            ("a number of eleven bytes", f"{good} 30{'80' * 10}00 {good}", [128]),
            ("a number of 65 bits", f"{good} 30{'80' * 9}02 {good}", [128])):
        report.case(f"rebases that end: {name}", offsets_of(with_streams(rebase=words)), wanted)
    report.case("one pointer again and again", offsets_of(with_streams(rebase=f"2108 80{most}{back}"), 5000),
                [8] * 5000)
    for name, words, pointers, imports in (
            ("an opcode", "405f6100 7108 90 d0 90", [(8, 0, 0)], [(b"_a", 0, 0, False)]),
            ("another type", "405f6100 7108 90 52 90", [(8, 0, 0)], [(b"_a", 0, 0, False)]),
            ("no name", "7108 90 405f6100 90", [(8, 0, 0), (16, 1, 0)], [(b"", 0, 0, False), (b"_a", 0, 0, False)]),
            ("a name", "405f6100 7108 90 405f62", [(8, 0, 0)], [(b"_a", 0, 0, False)]),
            ("a library", "12 405f6100 7108 90", [(8, 0, 0)], [(b"_a", 2, 0, False)]),
            ("a library by a number", f"20{most} 405f6100 7108 90", [(8, 0, 0)], [(b"_a", 2 ** 63 - 1, 0, False)]),
            ("a special library", "3c 405f6100 7108 90", [(8, 0, 0)], [(b"_a", -4, 0, False)]),
            ("an addend", f"405f6100 7108 90 60{'ff' * 9}01 90", [(8, 0, 0)], [(b"_a", 0, 0, False)]),
            ("a pointer", "405f6100 71f801 90 405f6200 90 405f6300 7108 90", [(248, 0, 0), (8, 2, 0)],
             [(b"_a", 0, 0, False), (b"_b", 0, 0, False), (b"_c", 0, 0, False)])):
        report.case(f"binds that end: {name}", binds_of(with_streams(bind=words)), (pointers, imports))
    report.case("a name after DONE", binds_of(with_streams(lazy="405f6100 7108 90 00 7110 90")),
                ([(8, 0, 0), (16, 1, 0)], [(b"_a", 0, 0, False), (b"", 0, 0, False)]))


def with_data(count):
    """An image of `count` segments between that of the headers and __LINKEDIT, each of one pointer. An opcode rebases
    the first pointer of segment 15."""
    opcodes = bytes.fromhex("2f00 51 00")
    start = images.HEADER_SIZE + images.SEGMENT_SIZE * (count + 2) + images.DYLD_INFO_SIZE + images.MAIN_SIZE
    end = start + images.POINTER_SIZE * count
    commands = images.segment(b"__TEXT", images.BASE, start, 0, start)
    for number in range(count):
        commands += images.segment(b"__DATA", images.FAR + images.PAGE * number, images.PAGE,
                                   start + images.POINTER_SIZE * number, images.POINTER_SIZE)
    commands += images.segment(b"__LINKEDIT", 2 * images.FAR, images.PAGE, end, len(opcodes))
    commands += images.dyld_info(end, [len(opcodes), 0, 0, 0])
    out = io.BytesIO()
    images.image(out, commands, count + 3, [bytes(end - start), opcodes], accepted=True)
    return kesvuot.verify(out.getvalue()).images[0]


def judge_last_segment(report):
    """An opcode can name 16 segments: the last of these is not there, is __LINKEDIT, which has four bytes, or has a
    pointer."""
    report.case("a pointer in segment 15", [[(it.segment, it.address - images.FAR) for it in with_data(count).fixups]
                                            for count in (13, 14, 15)], [[], [], [(15, 14 * images.PAGE)]])


def judge_much(report):
    """More pointers than a batch, and no more memory than for a batch."""
    image = kesvuot.verify(made("binds-100000")).images[0]
    report.case("the first of many binds", binds_of_first(image), (0, b"_symbol_0000000", 1))
    tracemalloc.start()
    report.case("many binds", [(it.address - images.FAR, it.import_index) for it in image.fixups]
                == [(8 * index, index) for index in range(100_000)], True)
    report.case("many imports", [it.name.tobytes() for it in image.imports]
                == [b"_symbol_%07d" % index for index in range(100_000)], True)
    tracemalloc.stop()
    for count in (1, BATCH - 1, BATCH, BATCH + 1, 2 * BATCH + 5):
        image = kesvuot.verify(made(f"rebases-{count}-one")).images[0]
        report.case(f"{count} rebases", [it.offset for it in image.fixups] == list(range(0, 8 * count, 8)), True)
        report.case(f"{count} rebases again, in two loops at once", all(
            one == other for one, other in itertools.zip_longest(image.fixups, image.fixups)), True)
    image = kesvuot.verify(made("rebases-100000-one")).images[0]
    tracemalloc.start()
    report.case("rebases of one opcode", sum(1 for _ in image.fixups), 100_000)
    report.case("the memory for them", tracemalloc.get_traced_memory()[1] < 100_000, True)
    tracemalloc.stop()


def binds_of_first(image):
    first = next(iter(image.fixups))
    bound = list(itertools.islice(image.imports, 1))[0]
    return first.address - images.FAR, bound.name.tobytes(), bound.library


def judge_streams(report):
    """On the vectors and on mutants of these and of the real files: a file that the linked profile accepts has the
    pointers that the plain dyld writes. For another there are some, and no exception."""
    vectors = [(vector.name, vector.data) for vector in read_vectors(LINKED)]
    compare_fixups(report, "vectors", vectors, 280)
    seeds = [data for _, data in vectors if has_fixups(data)] + [it[1] for it in oracle_trials.read_real()]
    compare_fixups(report, "mutants", [(f"mutant {number}", mutant_of(seeds, number)) for number in range(4000)], 200)


def has_fixups(data):
    return bool(table_mutants.streams(data)) or any(
        image.is_64_bit and image.only(LC_DYLD_CHAINED_FIXUPS) for image in oracle.File(data).slices)


def mutant_of(seeds, number):
    rng = random.Random(f"opcodes {number}")
    data = rng.choice(seeds)
    for _ in range(rng.choice((1, 1, 2, 3))):
        data = table_mutants.change(rng, data)
    return data


def compare_fixups(report, name, files, least):
    """At least `least` of the files are accepted by the linked profile."""
    judged = [(which, data, verdict(data, "linked") == "accepted") for which, data in files
              if verdict(data) == "accepted"]
    report.case(f"{name} with good fixups", sum(is_good for *_, is_good in judged) >= least, True)
    report.alike(f"the fixups of {name}, and the plain dyld", "files", (
        (which, list(map(fixups_read, kesvuot.verify(data).images)),
         [fixups_of(image) for image in oracle.File(data).slices if image.is_64_bit])
        for which, data, is_good in judged if is_good))
    for _, data, is_good in judged:
        if not is_good:
            for image in kesvuot.verify(data).images:
                read_fixups(image)


def read_fixups(image):
    """Reads the first fixups, and the imports."""
    for it in itertools.islice(image.fixups, 3 * BATCH):
        if len(image.segments[it.segment].bytes[it.offset:it.offset + 8]) != 8:
            raise ValueError(f"a pointer that is not whole: {it}")
    for name in itertools.islice(image.imports, 3 * BATCH):
        repr(name)


def judge_threads(report):
    """While a call runs, no other thread of Python does. This one gives way only where it sleeps. The calls take long
    enough for another one to begin."""
    data = made("symbols-100000")
    count, is_over = 0, False

    def work():
        nonlocal count
        while not is_over:
            count += 1
            time.sleep(0)

    before = sys.getswitchinterval()
    sys.setswitchinterval(1000)
    other = threading.Thread(target=work, daemon=True)
    other.start()
    while count == 0:
        time.sleep(0.001)
    started = count
    for _ in range(20):
        kesvuot.verify(data)
    report.case("what another thread does during calls", count - started, 0)
    report.case("and after them", wait_until(lambda: count > started), True)
    is_over = True
    other.join()
    sys.setswitchinterval(before)


def judge_changes(report, data):
    """Bytes that change after the verdict: each view still ends."""
    rng = random.Random(45)
    ended = 0
    for number in range(300):
        given = bytearray(data)
        image = kesvuot.verify(given).images[0]
        for _ in range(rng.choice((1, 1, 2, 5, 50))):
            width = rng.choice((1, 4, 4, 8))
            place = rng.randrange(0, len(data) - width if number % 2 else 0x420)
            given[place:place + width] = rng.choice((b"\xff", b"\0", bytes((rng.randrange(256),)))) * width
        read_all(image)
        ended += 1
    report.case("the views of bytes that have changed", ended, 300)
    given = bytearray(data)
    file = kesvuot.verify(given)
    given[0:4] = b"none"
    report.case("slices that are gone", raised(RuntimeError, lambda: file.slices), True)


def read_all(image):
    """Reads all views of an image."""
    list(all_parts(SimpleNamespace(data=image.bytes, images=[image])))
    for rows in (image.builds, image.indirects, image.local_symbols, image.defined_symbols, image.undefined_symbols):
        list(rows)
    read_fixups(image)


def judge_memory(report):
    """Without memory there is no verdict. The library keeps a list of the slices."""
    with tempfile.TemporaryDirectory() as room:
        path = Path(room, "slices")
        path.write_bytes(made("slices-100000-report"))
        lines = ("import resource, sys, kesvuot", "data = open(sys.argv[1], 'rb').read()", "kesvuot.library_version()",
                 "size = int(open('/proc/self/statm').read().split()[0]) * resource.getpagesize() + int(sys.argv[2])",
                 "resource.setrlimit(resource.RLIMIT_AS, (size, size))",
                 "try: print(kesvuot.verify(data).slice_count)", "except MemoryError: print('no memory')")
        environment = {**os.environ, "PYTHONPATH": str(TOP / "bindings" / "python")}
        for spare, wanted in ((1 << 20, "no memory"), (1 << 26, "100000")):
            said = subprocess.run([sys.executable, "-c", "\n".join(lines), path, str(spare)], stdout=subprocess.PIPE,
                                  check=False, text=True, env=environment)
            report.case(f"a file of 100,000 slices with {spare >> 20} MiB", said.stdout.strip(), wanted)


def judge_folders(report, folders):
    for folder in folders:
        files = oracle_trials.read_folder(folder)
        for profile in PROFILES:
            compare_program(report, folder, files, profile)
        compare_views(report, folder, [(name, data) for name, data in files if verdict(data) == "accepted"])


def main(words):
    report = Report()
    all_kinds, mixed = (Path(path).read_bytes() for path in words[:2])
    (_, program, layout), _ = oracle_trials.read_real()
    judge_vectors(report)
    explain_vectors(report)
    judge_texts(report)
    compare_reads(report, all_kinds)
    compare_mixed(report, mixed)
    compare_addresses(report)
    compare_all_views(report, all_kinds, mixed)
    compare_signatures(report)
    compare_json(report)
    judge_buffers(report, program, layout.decode())
    judge_lives(report, program)
    judge_exceptions(report, program)
    judge_sections_of_symbols(report)
    judge_kinds_of_symbols(report, program)
    judge_numbers(report, program)
    judge_lookups(report, program)
    judge_names_of_numbers(report)
    judge_profiles(report, program)
    judge_paths(report, program)
    judge_sources(report, program)
    judge_texts_of_rows(report, program)
    judge_tables(report)
    judge_walked_tables(report)
    judge_uncounted_tables(report)
    judge_fixups(report)
    judge_chains(report)
    judge_bad_chains(report)
    judge_bad_opcodes(report)
    judge_last_segment(report)
    judge_much(report)
    judge_streams(report)
    judge_threads(report)
    judge_changes(report, program)
    judge_memory(report)
    judge_folders(report, words[2:])


if __name__ == "__main__":
    main(sys.argv[1:])
