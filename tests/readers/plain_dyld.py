"""The plain dyld of linked.md, under watch: it follows the opcodes and the chains of an image, checks nothing, and
really writes. Then it goes to each function and to the data in code, as tools do.

Its memory is a copy of the file bytes of the mapped segments, with zeros after them, and with other bytes where a
kernel decrypts some. The slide, by which segments would be at other addresses, it takes from the segments named
`__TEXT`. What it does is compared with what the linked profile promises, and the first thing that breaks the promise
raises `Breach`: a byte of a table or of the headers that is read outside of them, that cannot be read, or that is no
longer the file's; a write that is no whole pointer in the file bytes of one writable segment; a pointer of a
chain that is read elsewhere, or that is no longer the file's; a segment, a library or an import that is not there;
pages that are not those of the segment, or cannot be written; more writes of a stream or of all chains than the budget,
or more steps than the bytes and writes explain; a function where the file has no byte; data of no kind, or not in the
bytes of one executable segment. So it ends on all files, and on one that breaks the rules it says how.

It reads all nodes of an export trie, as a tool that lists the exports does, and looks some of the names up. There a
breach is also a terminal part that is not read to its end or says what is not known, and an address in no segment.

From tests/reference/oracle.py it takes the commands of an image, and nothing that decodes a stream.
"""

import bisect
from collections import namedtuple

from kesvuot.constants import (
    DICE_KIND_ABS_JUMP_TABLE32, DICE_KIND_DATA, EXPORT_SYMBOL_FLAGS_KIND_ABSOLUTE, EXPORT_SYMBOL_FLAGS_REEXPORT,
    EXPORT_SYMBOL_FLAGS_STUB_AND_RESOLVER, LC_DATA_IN_CODE, LC_DYLD_CHAINED_FIXUPS, LC_DYLD_EXPORTS_TRIE, LC_DYLD_INFO,
    LC_DYLD_INFO_ONLY, LC_ENCRYPTION_INFO_64, LC_FUNCTION_STARTS, LC_LAZY_LOAD_DYLIB, LC_LOAD_DYLIB,
    LC_LOAD_UPWARD_DYLIB, LC_LOAD_WEAK_DYLIB, LC_REEXPORT_DYLIB, VM_PROT_EXECUTE, VM_PROT_READ, VM_PROT_WRITE)

# mach-o/loader.h
REBASE_OPCODE_DONE = 0x00
REBASE_OPCODE_SET_TYPE_IMM = 0x10
REBASE_OPCODE_SET_SEGMENT_AND_OFFSET_ULEB = 0x20
REBASE_OPCODE_ADD_ADDR_ULEB = 0x30
REBASE_OPCODE_ADD_ADDR_IMM_SCALED = 0x40
REBASE_OPCODE_DO_REBASE_IMM_TIMES = 0x50
REBASE_OPCODE_DO_REBASE_ULEB_TIMES = 0x60
REBASE_OPCODE_DO_REBASE_ADD_ADDR_ULEB = 0x70
REBASE_OPCODE_DO_REBASE_ULEB_TIMES_SKIPPING_ULEB = 0x80
BIND_OPCODE_DONE = 0x00
BIND_OPCODE_SET_DYLIB_ORDINAL_IMM = 0x10
BIND_OPCODE_SET_DYLIB_ORDINAL_ULEB = 0x20
BIND_OPCODE_SET_DYLIB_SPECIAL_IMM = 0x30
BIND_OPCODE_SET_SYMBOL_TRAILING_FLAGS_IMM = 0x40
BIND_OPCODE_SET_TYPE_IMM = 0x50
BIND_OPCODE_SET_ADDEND_SLEB = 0x60
BIND_OPCODE_SET_SEGMENT_AND_OFFSET_ULEB = 0x70
BIND_OPCODE_ADD_ADDR_ULEB = 0x80
BIND_OPCODE_DO_BIND = 0x90
BIND_OPCODE_DO_BIND_ADD_ADDR_ULEB = 0xa0
BIND_OPCODE_DO_BIND_ADD_ADDR_IMM_SCALED = 0xb0
BIND_OPCODE_DO_BIND_ULEB_TIMES_SKIPPING_ULEB = 0xc0
ENTRY_SIZE = 8
KNOWN_KINDS = (0, 1, 2)
LOADS = (LC_LOAD_DYLIB, LC_LOAD_WEAK_DYLIB, LC_REEXPORT_DYLIB, LC_LAZY_LOAD_DYLIB, LC_LOAD_UPWARD_DYLIB)
SG_PROTECTED_VERSION_1 = 8

# mach-o/fixup-chains.h. For an import, by its format: its size, how many bits its ordinal has, and from which bit up to
# which one the offset of its name is. For a pointer, by its format: the mask of `next`, which begins at bit 51, the
# bytes of a step of it, the bit that says bind, and the mask of the ordinal.
DYLD_CHAINED_IMPORT, DYLD_CHAINED_IMPORT_ADDEND, DYLD_CHAINED_IMPORT_ADDEND64 = 1, 2, 3
IMPORTS = {DYLD_CHAINED_IMPORT: (4, 8, 9, 32), DYLD_CHAINED_IMPORT_ADDEND: (8, 8, 9, 32),
           DYLD_CHAINED_IMPORT_ADDEND64: (16, 16, 32, 64)}
POINTERS = {1: (0x7ff, 8, 62, 0xffff), 2: (0xfff, 4, 63, 0xffffff), 6: (0xfff, 4, 63, 0xffffff),
            9: (0x7ff, 8, 62, 0xffff), 12: (0x7ff, 8, 62, 0xffffff)}
NEXT_BIT = 51
PAGE_SIZES = (0x1000, 0x4000)
NO_CHAIN = 0xffff

POINTER = 8
WORD = 2 ** 64
SLIDE = 0x12345678000
# What a look-up finds: an address whose bytes are all opcodes that no stream may have.
FOUND = 0xf1f2f3f4f5f6f7f8

# How many names of an export trie are looked up at most, and how long they are at most.
MOST_LOOK_UPS, LONGEST_NAME = 20, 1000

# What is written for chains, in the place of a stream.
CHAINS = "chains"

# A write: the stream, or CHAINS, and the address; of a bind of a stream the ordinal, the name, the addend and the
# flags, and of one of a chain the ordinal and the name.
Write = namedtuple("Write", "stream address ordinal name addend flags")

class Breach(Exception):
    """The promise is broken."""

def decrypted(image):
    """The bytes of the image as a kernel decrypts them: those that are encrypted have other values."""
    content = bytearray(image.data)
    ranges = [(command.cryptoff, command.cryptsize) for command in image.listed if command.cmd == LC_ENCRYPTION_INFO_64]
    ranges += [(segment.fileoff, segment.filesize) for segment in image.segments
               if segment.flags & SG_PROTECTED_VERSION_1 and segment is not image.base_segment]
    for start, size in ranges:
        content[start:start + size] = bytes(byte ^ 0xff for byte in content[start:start + size])
    return content

class Memory:
    """The mapped segments, by their addresses: of each its address, its file bytes, its end and its command."""

    def __init__(self, image):
        mapped = sorted((segment for segment in image.segments if segment.vmsize > 0), key=lambda s: s.vmaddr)
        self.starts = [segment.vmaddr for segment in mapped]
        content = decrypted(image)
        self.parts = [(segment, bytearray(content[segment.fileoff:segment.fileoff + segment.filesize]))
                      for segment in mapped]

    def part_of(self, address, size):
        """The segment that has all these addresses, its file bytes, and the offset in it."""
        at = bisect.bisect(self.starts, address) - 1
        if at >= 0:
            segment, content = self.parts[at]
            offset = address - segment.vmaddr
            if offset + size <= segment.vmsize:
                return segment, content, offset
        raise Breach("0x%x is not mapped, or not all of %d bytes" % (address, size))

    def read(self, address, size):
        _, content, offset = self.part_of(address, size)
        return bytes(content[offset:offset + size]).ljust(size, b"\0")

    def read_judged(self, address, size):
        """Reads bytes of the headers or of a stream, which are in a segment that can be read."""
        if self.part_of(address, size)[0].initprot & VM_PROT_READ == 0:
            raise Breach("0x%x is read, which cannot be" % address)
        return self.read(address, size)

    def write(self, address, pointer):
        segment, content, offset = self.part_of(address, POINTER)
        if segment.initprot & VM_PROT_WRITE == 0:
            raise Breach("0x%x is written, which is not writable" % address)
        if offset + POINTER > len(content):
            raise Breach("0x%x is written, which is no whole pointer in the file" % address)
        content[offset:offset + POINTER] = pointer.to_bytes(POINTER, "little")

class Dyld:
    """A loader of one image. `writes` has what it has written."""

    def __init__(self, image):
        self.image = image
        self.memory = Memory(image)
        self.writes = []
        self.steps = self.slide = 0
        # The promise: no more writes by a stream than this.
        self.budget = sum(segment.filesize // POINTER for segment in image.segments
                          if segment.vmsize > 0 and segment.initprot & VM_PROT_WRITE)
        self.segments = [segment.place for segment in image.segments]
        self.libraries = [command.place for command in image.commands if command.cmd in LOADS]

    # The headers, in memory

    def header(self, place, width):
        """A number of the headers in memory, which is still the file's."""
        if self.image.base is None:
            raise Breach("there are no headers in memory")
        found = self.memory.read_judged(self.image.base + place, width)
        if found != self.image.data[place:place + width]:
            raise Breach("the header at 0x%x has changed" % place)
        return int.from_bytes(found, "little")

    def named(self, name):
        """The segments of this name, of which there is one."""
        found = [segment for segment in self.image.segments if segment.segname.split(b"\0")[0] == name]
        if not found:
            raise Breach("no segment is named %s" % name.decode())
        return found

    def slide_by(self, text):
        """How far the image is from the addresses in its headers, by a segment that should have these."""
        if self.image.base is None:
            raise Breach("there are no headers in memory")
        return self.image.base - text.vmaddr

    def address_of(self, segment, cursor):
        if segment is None or segment >= len(self.segments):
            raise Breach("segment %s is not there" % segment)
        return (self.header(self.segments[segment] + 24, 8) + self.slide + cursor) % WORD

    def look_up(self, ordinal, name):
        """Finds the library, and then the name, which it returns."""
        self.find_library(ordinal)
        if name is None:
            raise Breach("there is no name")
        return self.name_at(name)

    def find_library(self, ordinal):
        """Reads the name of a library. The image itself and the special ones have none."""
        if ordinal > 0:
            if ordinal > len(self.libraries):
                raise Breach("library %d is not there" % ordinal)
            place = self.libraries[ordinal - 1]
            self.header(place + self.header(place + 8, 4), 1)
        elif ordinal < -3:
            raise Breach("library %d is not there" % ordinal)

    # A table, in memory. It is where the last segment named __LINKEDIT has it, by the slide of the first named __TEXT.
    # That of the last one is for slots.

    def begin(self, start, size, steps_of_byte):
        """Begins a table. So many steps for each of its bytes are promised, besides those for writes."""
        linkedit, text = self.named(b"__LINKEDIT")[-1], self.named(b"__TEXT")
        self.slide = self.slide_by(text[-1])
        self.place = start
        self.start, self.end = start, start + size
        self.steps = self.written = self.moves = 0
        self.steps_of_byte = steps_of_byte
        self.to_address = linkedit.vmaddr + self.slide_by(text[0]) - linkedit.fileoff

    def table_byte(self, place):
        if not self.start <= place < self.end:
            raise Breach("0x%x is read, which is not in the table" % place)
        byte = self.memory.read_judged((place + self.to_address) % WORD, 1)[0]
        if byte != self.image.data[place]:
            raise Breach("the byte at 0x%x has changed" % place)
        return byte

    def step(self):
        """A step more: of the bytes of the table and of its names, and of the writes."""
        self.steps += 1
        if self.steps > self.steps_of_byte * (self.end - self.start) + self.written + 1:
            raise Breach("%d bytes and %d writes took more steps" % (self.end - self.start, self.written))

    def next_byte(self):
        self.step()
        self.place += 1
        return self.table_byte(self.place - 1)

    def digits(self):
        """The low seven bits of each byte of a number, the first the lowest, and how many bits these are."""
        digits, bits = 0, 0
        while True:
            byte = self.next_byte()
            digits |= (byte & 0x7f) << bits
            bits += 7
            if byte < 0x80:
                return digits, bits

    def number(self):
        return self.digits()[0] % WORD

    def signed_number(self):
        digits, bits = self.digits()
        return digits - (1 << bits) if digits >> (bits - 1) else digits

    def name(self):
        """The place of a name, past which it goes on."""
        place = self.place
        while self.next_byte() != 0:
            pass
        return place

    def name_at(self, place):
        """The name is read again where it is looked up."""
        name = bytearray()
        while True:
            self.step()
            byte = self.table_byte(place + len(name))
            if byte == 0:
                return bytes(name)
            name.append(byte)

    # What is written

    def write(self, stream, address, pointer, *of_bind):
        self.step()
        self.memory.write(address, pointer % WORD)
        self.writes.append(Write(stream, address, *of_bind))
        self.written += 1
        if self.written > self.budget:
            raise Breach("more than %d writes of %s" % (self.budget, stream))

    def rebase_slots(self, segment, cursor, count, skip):
        for _ in range(count):
            address = self.address_of(segment, cursor)
            value = int.from_bytes(self.memory.read(address, POINTER), "little")
            self.write("rebase", address, value + SLIDE, None, None, None, None)
            cursor = (cursor + POINTER + skip) % WORD
        return cursor

    def follow_rebases(self):
        segment, cursor = None, 0
        while self.place < self.end:
            byte = self.next_byte()
            opcode, imm = byte & 0xf0, byte & 0x0f
            if opcode == REBASE_OPCODE_DONE:
                return
            if opcode == REBASE_OPCODE_SET_TYPE_IMM:
                pass
            elif opcode == REBASE_OPCODE_SET_SEGMENT_AND_OFFSET_ULEB:
                segment, cursor = imm, self.number()
            elif opcode == REBASE_OPCODE_ADD_ADDR_ULEB:
                cursor = (cursor + self.number()) % WORD
            elif opcode == REBASE_OPCODE_ADD_ADDR_IMM_SCALED:
                cursor = (cursor + imm * POINTER) % WORD
            elif opcode == REBASE_OPCODE_DO_REBASE_IMM_TIMES:
                cursor = self.rebase_slots(segment, cursor, imm, 0)
            elif opcode == REBASE_OPCODE_DO_REBASE_ULEB_TIMES:
                cursor = self.rebase_slots(segment, cursor, self.number(), 0)
            elif opcode == REBASE_OPCODE_DO_REBASE_ADD_ADDR_ULEB:
                # The slot is written before the number is read, as a loader may do it.
                cursor = self.rebase_slots(segment, cursor, 1, 0)
                cursor = (cursor + self.number()) % WORD
            elif opcode == REBASE_OPCODE_DO_REBASE_ULEB_TIMES_SKIPPING_ULEB:
                count = self.number()
                cursor = self.rebase_slots(segment, cursor, count, self.number())
            else:
                raise Breach("0x%02x is no opcode" % byte)

    def bind_slots(self, stream, state, count, skip):
        for _ in range(count):
            if state["found"] is None:
                state["found"] = self.look_up(state["ordinal"], state["name"])
            address = self.address_of(state["segment"], state["cursor"])
            self.write(stream, address, FOUND + state["addend"],
                       state["ordinal"], state["found"], state["addend"], state["flags"])
            state["cursor"] = (state["cursor"] + POINTER + skip) % WORD

    def follow_binds(self, stream):
        # The name is found again after it or the ordinal was set.
        first = {"segment": None, "cursor": 0, "ordinal": 0, "name": None, "addend": 0, "flags": 0, "found": None}
        state = dict(first)
        while self.place < self.end:
            byte = self.next_byte()
            opcode, imm = byte & 0xf0, byte & 0x0f
            if opcode == BIND_OPCODE_DONE:
                if stream != "lazy":
                    return
                state = dict(first)
            elif opcode == BIND_OPCODE_SET_DYLIB_ORDINAL_IMM:
                state["ordinal"], state["found"] = imm, None
            elif opcode == BIND_OPCODE_SET_DYLIB_ORDINAL_ULEB:
                state["ordinal"], state["found"] = self.number(), None
            elif opcode == BIND_OPCODE_SET_DYLIB_SPECIAL_IMM:
                state["ordinal"], state["found"] = imm - 16 if imm else 0, None
            elif opcode == BIND_OPCODE_SET_SYMBOL_TRAILING_FLAGS_IMM:
                state["flags"], state["name"], state["found"] = imm, self.name(), None
            elif opcode == BIND_OPCODE_SET_TYPE_IMM:
                pass
            elif opcode == BIND_OPCODE_SET_ADDEND_SLEB:
                state["addend"] = self.signed_number()
            elif opcode == BIND_OPCODE_SET_SEGMENT_AND_OFFSET_ULEB:
                state["segment"], state["cursor"] = imm, self.number()
            elif opcode == BIND_OPCODE_ADD_ADDR_ULEB:
                state["cursor"] = (state["cursor"] + self.number()) % WORD
            elif opcode == BIND_OPCODE_DO_BIND:
                self.bind_slots(stream, state, 1, 0)
            elif opcode == BIND_OPCODE_DO_BIND_ADD_ADDR_ULEB:
                self.bind_slots(stream, state, 1, 0)
                state["cursor"] = (state["cursor"] + self.number()) % WORD
            elif opcode == BIND_OPCODE_DO_BIND_ADD_ADDR_IMM_SCALED:
                self.bind_slots(stream, state, 1, imm * POINTER)
            elif opcode == BIND_OPCODE_DO_BIND_ULEB_TIMES_SKIPPING_ULEB:
                count = self.number()
                self.bind_slots(stream, state, count, self.number())
            else:
                raise Breach("0x%02x is no opcode" % byte)

    # A chain table, and the chains

    def number_at(self, place, width):
        """A number of the table, at any place."""
        content = bytearray()
        for byte in range(place, place + width):
            self.step()
            content.append(self.table_byte(byte))
        return int.from_bytes(content, "little")

    def read_imports(self, first, count, form, symbols):
        """Looks up each import. Returns of each its place, its size, its ordinal and its name."""
        found = []
        if form not in IMPORTS:
            raise Breach("imports of format %d are not known" % form)
        size, bits, name_bit, name_end = IMPORTS[form]
        for k in range(count):
            raw = self.number_at(first + k * size, size)
            ordinal = raw % (1 << bits)
            # The ordinals up to 0xf0, or 0xfff0, count libraries.
            if ordinal > (1 << bits) - 16:
                ordinal -= 1 << bits
            name = self.look_up(ordinal, symbols + (raw % (1 << name_end) >> name_bit))
            found.append((first + k * size, size, ordinal, name))
        return found

    def follow_starts(self, array, found):
        """Follows the chains of each segment that has starts."""
        for k in range(self.number_at(array, 4)):
            self.move()
            offset = self.number_at(array + 4 + 4 * k, 4)
            if offset != 0:
                self.follow_pages(k, array + offset, found)

    def follow_pages(self, segment, starts, found):
        """Reads where the pages of a segment are, and follows the chain of each. A page start is read only after the
        chains of the pages before it were written."""
        page_size, form = self.number_at(starts + 4, 2), self.number_at(starts + 6, 2)
        if form not in POINTERS or page_size not in PAGE_SIZES:
            raise Breach("pointers of format %d in pages of %d bytes are not known" % (form, page_size))
        address = (self.image.base + self.number_at(starts + 8, 8)) % WORD
        if address != self.address_of(segment, 0):
            raise Breach("0x%x is not where segment %d is" % (address, segment))
        if self.memory.part_of(address, 1)[0].initprot & VM_PROT_WRITE == 0:
            raise Breach("segment %d, of pointers, is not writable" % segment)
        for page in range(self.number_at(starts + 20, 2)):
            self.move()
            start = self.number_at(starts + 22 + 2 * page, 2)
            if start != NO_CHAIN:
                self.follow_chain(segment, (address + page * page_size + start) % WORD, form, found)

    def follow_chain(self, segment, address, form, found):
        """Reads each pointer, and then writes other bytes there."""
        mask, stride, bind, ordinals = POINTERS[form]
        while True:
            self.move()
            raw = self.pointer_at(segment, address)
            ordinal_and_name = self.import_at(raw & ordinals, found) if raw >> bind & 1 else (None, None)
            self.write(CHAINS, address, ~raw, *ordinal_and_name, None, None)
            distance = (raw >> NEXT_BIT & mask) * stride
            if distance == 0:
                return
            address = (address + distance) % WORD

    def pointer_at(self, segment, address):
        """A pointer in memory, which is whole in the file bytes of a writable segment, and still the file's."""
        part, content, offset = self.memory.part_of(address, POINTER)
        if part is not self.image.segments[segment] or part.initprot & VM_PROT_WRITE == 0:
            raise Breach("the pointer at 0x%x is in no writable segment of these chains" % address)
        if offset + POINTER > len(content):
            raise Breach("the pointer at 0x%x is not whole in the file" % address)
        place = part.fileoff + offset
        if content[offset:offset + POINTER] != self.image.data[place:place + POINTER]:
            raise Breach("the pointer at 0x%x has changed" % address)
        return int.from_bytes(content[offset:offset + POINTER], "little")

    def import_at(self, index, found):
        """The ordinal and the name of an import, which is read again."""
        if index >= len(found):
            raise Breach("import %d is not there" % index)
        place, size, ordinal, name = found[index]
        for byte in range(place, place + size):
            self.table_byte(byte)
        return ordinal, name

    def move(self):
        """Goes on with a segment, a page or a pointer: no more often than there are bytes in the table, and pointers in
        the writable segments."""
        self.moves += 1
        if self.moves > self.end - self.start + self.budget:
            raise Breach("a table of %d bytes led to more segments, pages and pointers" % (self.end - self.start))

    def follow_chains(self, start, size):
        """Reads the table, and follows the chains. A byte can be one of the header, an import, a name, the array and
        the starts: five steps. That the size is not 0 is not asked."""
        self.begin(start, size, 5)
        version, starts_offset, imports_offset, symbols_offset, count, form, symbols_format = (
            self.number_at(start + 4 * k, 4) for k in range(7))
        if version != 0 or symbols_format != 0:
            raise Breach("a table of version %d with symbols of format %d is not known" % (version, symbols_format))
        found = self.read_imports(start + imports_offset, count, form, start + symbols_offset)
        self.follow_starts(start + starts_offset, found)

    # What tools read

    def visit_functions(self, start, size):
        """Goes to each function, where the file has a byte."""
        self.begin(start, size, 1)
        address = self.image.base
        while self.place < self.end:
            distance = self.number()
            if distance == 0:
                return
            address = (address + distance) % WORD
            _, content, offset = self.memory.part_of(address, 1)
            if offset >= len(content):
                raise Breach("the file has no byte for the function at 0x%x" % address)

    def visit_data(self, start, size):
        """Takes the bytes of each entry for data in code, which is in one executable segment."""
        self.begin(start, size, 1)
        for place in range(start, start + size, ENTRY_SIZE):
            offset, length, kind = (self.number_at(place + at, width) for at, width in ((0, 4), (4, 2), (6, 2)))
            if not DICE_KIND_DATA <= kind <= DICE_KIND_ABS_JUMP_TABLE32:
                raise Breach("data of kind %d is not known" % kind)
            if length > 0 and not any(segment.fileoff <= offset and offset + length <= segment.fileoff + segment.filesize
                                      for segment in self.image.segments if segment.initprot & VM_PROT_EXECUTE):
                raise Breach("the %d bytes of data at 0x%x are in no executable segment" % (length, offset))

    def visit_exports(self, start, size):
        """Goes to each node, as often as an edge leads there, with a list of those that wait and no other one. Then it
        looks some of the names up."""
        if size == 0:
            return
        self.begin(start, size, 1)
        names = []
        # The place of a node, and the name that led there, or None if that is too long to be looked up.
        waiting = [(0, b"")]
        while waiting:
            offset, name = waiting.pop()
            has_export, edges = self.read_node(offset)
            if has_export and name is not None and len(names) < MOST_LOOK_UPS:
                names.append(name)
            waiting += [(child, longer(name, label)) for label, child in reversed(edges)]
        for name in [*names, b"_main", b"", max(names, default=b"") + b"_"]:
            self.begin(start, size, 1)
            self.find_export(name)

    def read_node(self, offset):
        """Whether a node has an export, which is read, and its edges: of each the label and the child."""
        self.place = self.start + offset
        size = self.number()
        past = self.place + size
        if size > 0:
            self.read_terminal(past)
        self.place = past
        edges = []
        for _ in range(self.next_byte()):
            label = self.label()
            edges.append((label, self.number()))
        return size > 0, edges

    def label(self):
        label = bytearray()
        while True:
            byte = self.next_byte()
            if byte == 0:
                return bytes(label)
            label.append(byte)

    def read_terminal(self, past):
        """Reads an export, as far as its flags say. Then it has to be past the terminal part."""
        flags = self.number()
        if flags & 3 not in KNOWN_KINDS or flags > 0x1f or flags & 0x18 == 0x18:
            raise Breach("flags 0x%x of an export are not known" % flags)
        if flags & EXPORT_SYMBOL_FLAGS_REEXPORT:
            self.find_library(self.signed(self.number()))
            self.label()
        else:
            for _ in range(2 if flags & EXPORT_SYMBOL_FLAGS_STUB_AND_RESOLVER else 1):
                self.read_export(self.number(), flags & 3)
        if self.place != past:
            raise Breach("an export ends at 0x%x, and not at 0x%x" % (self.place, past))

    @staticmethod
    def signed(number):
        return number - WORD if number >= WORD // 2 else number

    def read_export(self, number, kind):
        """Goes to the address of an export, which need not be in the file."""
        if kind != EXPORT_SYMBOL_FLAGS_KIND_ABSOLUTE:
            self.memory.part_of(self.image.base + number, 1)

    def find_export(self, name):
        """Looks a name up: compares it once, by the first edge that fits, and keeps no list of where it has been."""
        offset = 0
        while True:
            has_export, edges = self.read_node(offset)
            if name == b"" and has_export:
                return
            fitting = [(label, child) for label, child in edges if name.startswith(label)]
            if not fitting:
                return
            (label, offset), *_ = fitting
            name = name[len(label):]

    def load(self):
        """Writes the fixups. Then it reads the exports, the function starts and the data in code, which still are those
        of the file."""
        self.fix_up()
        self.visit()

    def fix_up(self):
        """Follows the streams of each command that names some, and the chains of each chain table."""
        for command in self.image.listed:
            if command.cmd == LC_DYLD_CHAINED_FIXUPS:
                self.follow_chains(command.dataoff, command.datasize)
            if command.cmd in (LC_DYLD_INFO, LC_DYLD_INFO_ONLY):
                self.follow("rebase", command.rebase_off, command.rebase_size)
                self.follow("bind", command.bind_off, command.bind_size)
                self.follow("weak", command.weak_bind_off, command.weak_bind_size)
                self.follow("lazy", command.lazy_bind_off, command.lazy_bind_size)

    def visit(self):
        """Reads what tools do."""
        for command in self.image.listed:
            if command.cmd == LC_DYLD_EXPORTS_TRIE:
                self.visit_exports(command.dataoff, command.datasize)
            if command.cmd in (LC_DYLD_INFO, LC_DYLD_INFO_ONLY):
                self.visit_exports(command.export_off, command.export_size)
            if command.cmd == LC_FUNCTION_STARTS and command.datasize > 0:
                self.visit_functions(command.dataoff, command.datasize)
            if command.cmd == LC_DATA_IN_CODE and command.datasize > 0:
                self.visit_data(command.dataoff, command.datasize)

    def follow(self, stream, start, size):
        if size == 0:
            return
        self.begin(start, size, 2)
        if stream == "rebase":
            self.follow_rebases()
        else:
            self.follow_binds(stream)

def longer(name, label):
    return None if name is None or len(name) + len(label) > LONGEST_NAME else name + label

def load(image):
    """Loads an image that has been opened, and returns what was written."""
    dyld = Dyld(image)
    dyld.load()
    return dyld.writes

def load_opcodes(image):
    """The writes that the opcodes ask for alone."""
    return [write for write in load(image) if write.stream != CHAINS]
