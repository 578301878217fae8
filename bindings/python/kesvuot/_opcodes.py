"""What the bind opcodes of LC_DYLD_INFO and LC_DYLD_INFO_ONLY ask a dynamic loader for, opcode by opcode, with the
place of each. They are those of <mach-o/loader.h>, and are followed as linked.md says. Nothing is trusted: a stream is
read once, and binds no more pointers than the file has room for."""

from __future__ import annotations

from struct import Struct
from typing import Any, Iterator, NamedTuple, Optional, Tuple

from ._library import Bytes

# Where the offset and the size of each stream are in a dyld_info_command.
BIND, WEAK_BIND, LAZY_BIND = 16, 24, 32
SPAN = Struct("<2I")

OPCODE_MASK, IMMEDIATE_MASK = 0xF0, 0x0F
OPCODE_DONE = 0x00
# registry: opcodes
BIND_OPCODE_SET_DYLIB_ORDINAL_IMM = 0x10
BIND_OPCODE_SET_DYLIB_ORDINAL_ULEB = 0x20
BIND_OPCODE_SET_DYLIB_SPECIAL_IMM = 0x30
BIND_OPCODE_SET_SYMBOL_TRAILING_FLAGS_IMM = 0x40
BIND_OPCODE_SET_TYPE_IMM = 0x50
BIND_OPCODE_SET_ADDEND_SLEB = 0x60
BIND_OPCODE_SET_SEGMENT_AND_OFFSET_ULEB = 0x70
BIND_OPCODE_ADD_ADDR_ULEB = 0x80
BIND_OPCODE_DO_BIND = 0x90
BIND_OPCODE_DO_BIND_ADD_ADDR_ULEB = 0xa0
BIND_OPCODE_DO_BIND_ADD_ADDR_IMM_SCALED = 0xb0
BIND_OPCODE_DO_BIND_ULEB_TIMES_SKIPPING_ULEB = 0xc0
# registry: end
BIND_SPECIAL_DYLIB_WEAK_LOOKUP = -3

POINTER_SIZE = 8
NUMBER_SIZE = 10
WORD = 1 << 64
# As many segments as an opcode can name.
SEGMENTS = 16


class OpcodeError(ValueError):
    """An opcode cannot be followed. The linked profile refuses all files with such opcodes."""


class Run(NamedTuple):
    """The pointers of one opcode, which are in one segment."""

    addresses: range
    segment: int


NO_RUN = Run(range(0), 0)


class Binds:
    """The bytes of a stream, read up to a place, and what its opcodes have set."""

    is_lazy = False

    def __init__(self, data: Bytes, place: int, size: int, image: Any) -> None:
        self._data = data
        self._place = place
        self._bytes = bytes(data.part(place, size))
        self._segments = [(it.vmaddr, min(it.vmsize, it.filesize)) for it in image.segments[:SEGMENTS]]
        self._library_count = len(image.libraries)
        self._room = len(data) // POINTER_SIZE
        self._opcode = self._next = 0
        self.clear()

    def clear(self) -> None:
        """Sets what is set at the start."""
        self._segment: Optional[int] = None
        self._cursor = 0
        self.name, self._has_name = self._data.part(0, 0), False
        self.ordinal = self.addend = 0

    @property
    def place(self) -> int:
        """Where the opcode that is followed begins."""
        return self._place + self._opcode

    # Operands

    def _digits(self) -> Tuple[int, int]:
        """The low seven bits of each byte of a number, the first the lowest, and how many bits these are."""
        digits = 0
        for index, byte in enumerate(self._bytes[self._next:self._next + NUMBER_SIZE]):
            digits |= (byte & 0x7F) << 7 * index
            if byte < 0x80:
                self._next += index + 1
                return digits, 7 * (index + 1)
        raise OpcodeError("a number does not end")

    def _number(self) -> int:
        """A ULEB128."""
        number, _ = self._digits()
        if number >= WORD:
            raise OpcodeError("a number is 2^64 or more")
        return number

    def _signed_number(self) -> int:
        """A SLEB128."""
        digits, bits = self._digits()
        number = digits - (1 << bits) if digits >> (bits - 1) else digits
        if not -WORD <= 2 * number < WORD:
            raise OpcodeError("a number is not of 64 bits")
        return number

    def _text(self) -> memoryview:
        """A name, without the zero byte at its end."""
        end = self._bytes.find(0, self._next)
        if end < 0:
            raise OpcodeError("a name does not end")
        name = self._data.part(self._place + self._next, end - self._next)
        self._next = end + 1
        return name

    # Pointers

    def _set_ordinal(self, ordinal: int) -> None:
        if not BIND_SPECIAL_DYLIB_WEAK_LOOKUP <= ordinal <= self._library_count:
            raise OpcodeError("the library is not there")
        self.ordinal = ordinal

    def _move(self, distance: int) -> None:
        self._cursor = (self._cursor + distance) % WORD

    def _run(self, count: int, skip: int) -> Run:
        """So many pointers, the first at the cursor, and each later one 8 + skip after the one before it."""
        first, step = self._cursor, POINTER_SIZE + skip
        self._move(count * step)
        if count == 0:
            return NO_RUN
        if self._segment is None or self._segment >= len(self._segments):
            raise OpcodeError("no segment is set" if self._segment is None else "the segment is not there")
        vmaddr, size = self._segments[self._segment]
        if first + (count - 1) * step + POINTER_SIZE > size:
            raise OpcodeError("a pointer is not in the file bytes of the segment")
        self._room -= count
        if self._room < 0:
            raise OpcodeError("more pointers are bound than the file has")
        return Run(range(vmaddr + first, vmaddr + first + count * step, step), self._segment)

    def runs(self) -> Iterator[Run]:
        """Those of all opcodes. While one is looked at, the stream has what is set for its pointers."""
        while self._next < len(self._bytes):
            self._opcode, self._next = self._next, self._next + 1
            byte = self._bytes[self._opcode]
            if byte & OPCODE_MASK != OPCODE_DONE:
                yield self._follow(byte & OPCODE_MASK, byte & IMMEDIATE_MASK)
            elif self.is_lazy:
                self.clear()
            else:
                return

    def _follow(self, opcode: int, imm: int) -> Run:
        """Reads the operands of an opcode, and does what it says."""
        if opcode < BIND_OPCODE_DO_BIND:
            self._set(opcode, imm)
            return NO_RUN
        count, skip = self._count_and_skip(opcode, imm)
        if count and not self._has_name:
            raise OpcodeError("no name is set")
        return self._run(count, skip)

    def _set(self, opcode: int, imm: int) -> None:
        if opcode == BIND_OPCODE_SET_DYLIB_ORDINAL_IMM:
            self._set_ordinal(imm)
        elif opcode == BIND_OPCODE_SET_DYLIB_ORDINAL_ULEB:
            self._set_ordinal(self._number())
        elif opcode == BIND_OPCODE_SET_DYLIB_SPECIAL_IMM:
            self._set_ordinal(imm - 16 if imm else 0)
        elif opcode == BIND_OPCODE_SET_SYMBOL_TRAILING_FLAGS_IMM:
            self.name, self._has_name = self._text(), True
        elif opcode == BIND_OPCODE_SET_ADDEND_SLEB:
            self.addend = self._signed_number()
        elif opcode == BIND_OPCODE_SET_SEGMENT_AND_OFFSET_ULEB:
            self._segment, self._cursor = imm, self._number()
        elif opcode == BIND_OPCODE_ADD_ADDR_ULEB:
            self._move(self._number())

    def _count_and_skip(self, opcode: int, imm: int) -> Tuple[int, int]:
        if opcode == BIND_OPCODE_DO_BIND:
            return 1, 0
        if opcode == BIND_OPCODE_DO_BIND_ADD_ADDR_ULEB:
            return 1, self._number()
        if opcode == BIND_OPCODE_DO_BIND_ADD_ADDR_IMM_SCALED:
            return 1, imm * POINTER_SIZE
        if opcode == BIND_OPCODE_DO_BIND_ULEB_TIMES_SKIPPING_ULEB:
            return self._number(), self._number()
        raise OpcodeError("the opcode is not known")


class LazyBinds(Binds):
    """The stream of lazy binds. DONE ends one of its entries, and not the stream."""

    is_lazy = True
