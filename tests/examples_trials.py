"""What tests/examples asks the examples, and what they must answer. Nothing here comes from the library or its program:
the lines of `symbolize` are by llvm-nm and llvm-objdump, and the files that `extract` makes by the readers of
tests/reference/oracle.py. The mutants are those that it accepts.
"""

from __future__ import annotations

import re
import subprocess
from pathlib import Path
from typing import Iterator, NamedTuple

from fixtures.file_mutants import WAYS, mutant
from reference import oracle, oracle_trials


SEED = 1
MOST_ADDRESSES = 500


# Symbols


class Section(NamedTuple):
    segment: str
    name: str
    addr: int
    size: int

    def has(self, address: int) -> bool:
        return self.addr <= address < self.addr + self.size


class Symbol(NamedTuple):
    value: int
    segment: str
    section: str
    name: str


def said(*command: str) -> str:
    return subprocess.run(command, stdout=subprocess.PIPE, check=True).stdout.decode("utf-8")


def first_architecture(path: Path) -> str:
    """That of the first slice that is read, as LLVM names it."""
    image = next(image for image in oracle.File(path.read_bytes()).slices if image.is_64_bit)
    return oracle.architecture(image.header.cputype, image.header.cpusubtype)


def read_sections(objdump: str, path: Path) -> Iterator[Section]:
    """The sections of mapped segments. Of the others, addr is no address."""
    text = said(objdump, "--macho", "--private-headers", f"--arch={first_architecture(path)}", str(path))
    for command in text.split("\nLoad command ")[1:]:
        found = re.findall(r"sectname (\S+)\n *segname (\S+)\n *addr (\S+)\n *size (\S+)", command)
        if re.search(r"\n *vmsize 0x0*[1-9a-f]", command):
            for name, segname, addr, size in found:
                yield Section(segname, name, int(addr, 16), int(size, 16))


# The value, the section and the name of a symbol of a section. Names may have blanks.
SYMBOL = re.compile(r"([0-9a-f]{16}) \(([^(),]+),([^(),]+)\) (?:\[[^]]+\] )*(?:weak |private )?(?:non-)?external "
                    r"(?:automatically hidden )?(?:\(was a private external\) )?(.+)")


def read_symbols(nm: str, path: Path) -> list[Symbol]:
    """The symbols of sections, in the order of the table."""
    lines = said(nm, "-m", "-p", f"--arch={first_architecture(path)}", str(path)).splitlines()
    defined = [line for line in lines if re.match(r"[0-9a-f]{16} \([^(),]+,[^(),]+\) ", line)]
    found = [SYMBOL.fullmatch(line) for line in defined]
    assert all(found), "a line of llvm-nm that is not understood"
    return [Symbol(int(match[1], 16), *match.groups()[1:]) for match in found if match]


def line_of(address: int, sections: list[Section], symbols: list[Symbol]) -> str:
    """The line of an address."""
    nearest = None
    for symbol in symbols:
        if symbol.value <= address and (nearest is None or symbol.value >= nearest.value):
            nearest = symbol
    for section in sections:
        if nearest and section[:2] == (nearest.segment, nearest.section) and section.has(address):
            return f"{address:#x} {nearest.name} + {address - nearest.value:#x} ({section.segment},{section.name})"
    return f"{address:#x} ?"


def lines_of(path: Path, nm: str, objdump: str) -> list[str]:
    """What `symbolize` must print of addresses that begin and end the symbols and sections of a file."""
    sections, symbols = list(read_sections(objdump, path)), read_symbols(nm, path)
    assert sections and symbols
    assert len({section[:2] for section in sections}) == len(sections), "LLVM does not say which section a symbol is of"
    addresses = {0, 2 ** 64 - 1}
    for symbol in symbols[::len(symbols) * 3 // MOST_ADDRESSES + 1]:
        addresses |= {max(symbol.value - 1, 0), symbol.value, symbol.value + 1}
    for section in sections:
        end = section.addr + section.size
        addresses |= {max(section.addr - 1, 0), section.addr, end - 1, end}
    return [line_of(address, sections, symbols) for address in sorted(addresses)]


# Fixups

# The tables of opcodes of llvm-objdump, in the order of a loader, and the option that prints each.
TABLES = {"Rebase": "--rebase", "Bind": "--bind", "Weak bind": "--weak-bind", "Lazy bind": "--lazy-bind"}


def target_of(image: oracle.Image, address: int) -> int:
    """The number in the 8 bytes of the file at an address."""
    segment = next(it for it in image.segments if it.vmaddr <= address < it.vmaddr + it.vmsize)
    place = segment.fileoff + address - segment.vmaddr
    return int.from_bytes(image.data[place:place + 8], "little")


def opcode_lines(text: str, image: oracle.Image) -> list[str]:
    """The address of each pointer of the tables of opcodes, and the name that it binds, or the address to which it
    points. A strong definition of the weak table binds no pointer."""
    words = re.split(rf"^({'|'.join(TABLES)}) table:\n.*\n", text, flags=re.MULTILINE)
    tables = dict(zip(words[1::2], words[2::2]))
    rows = [(name, line.split()) for name in TABLES for line in tables[name].splitlines() if " strong " not in line]
    return [f"{int(row[2], 16):#x} {target_of(image, int(row[2], 16)):#x}" if name == "Rebase"
            else f"{int(row[2], 16):#x} {row[-1]}" for name, row in rows if row]


def chain_lines(text: str) -> list[str]:
    """The same of chains."""
    rows = re.findall(r"(0x[0-9A-F]+) +0x[0-9A-F]+ (bind|rebase) .*?(\S+)(?: \(weak import\))?$", text, re.MULTILINE)
    return [f"{int(address, 16):#x} {name if kind == 'bind' else hex(int(name, 16))}" for address, kind, name in rows]


def fixup_lines(path: Path, objdump: str) -> list[str]:
    """What llvm-objdump lists of the fixups of the first slice that is read."""
    arch = f"--arch={first_architecture(path)}"
    image = next(image for image in oracle.File(path.read_bytes()).slices if image.is_64_bit)
    chains = chain_lines(said(objdump, "--macho", "--dyld-info", arch, str(path)))
    return chains or opcode_lines(said(objdump, "--macho", *TABLES.values(), arch, str(path)), image)


# Parts


def plain(name: bytes) -> str:
    """A name as a part of a path."""
    return "".join(chr(byte) if re.match(rb"[A-Za-z0-9_-]", bytes([byte])) else f"%{byte:02x}"
                   for byte in oracle.up_to_zero(name))


def parts(data: bytes) -> Iterator[tuple[str, int, int]]:
    """The name of each file that `extract` must make, and the place and the size of its bytes."""
    for index, image in enumerate(oracle.File(data).slices):
        yield f"{index}.slice", image.start, image.length
        for number, section in enumerate(image.sections if image.is_64_bit else []):
            if section.size > 0 and not oracle.is_zero_fill(section):
                name = f"{index}.{number}.{plain(section.segment.segname)}.{plain(section.sectname)}"
                yield name, image.start + section.offset, section.size


# Mutants


def accepted_mutants(others: list[bytes]) -> Iterator[bytes]:
    """Mutants of the vectors, of tests/real, and of other files, that are accepted and are none of the files."""
    files = [data for _, data, _ in oracle_trials.read_real()] + others
    vectors = [vector for _, some in oracle_trials.read_all_vectors("layout") for vector in some]
    corpus = files + [vector.data for vector in vectors]
    # Real files have symbols and sections: a mutant of one shows most.
    weights = [2000 / len(files)] * len(files) + [1 if vector.wanted == "accepted" else 0 for vector in vectors]
    number = 0
    while True:
        data, _ = mutant(SEED, number, corpus, weights, WAYS)
        number += 1
        if data not in files and oracle.first_broken(oracle.File(data)) is None:
            yield data
