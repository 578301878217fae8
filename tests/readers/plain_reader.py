"""The plain reader, under watch: it reads the code signature, the symbols, the relocations, the threads and the other
commands of an image as tools and kernels do, and checks nothing.

Each part that it reads has an end, and the first thing that it reads past one raises `Breach`: of the signature, of the
superblob, of a blob, or of the bytes before the signature. So does what it has no way to read: a magic number, a
version, a hash or a page that is not known, blobs that share bytes, a signature without a directory, a page without a
hash or a hash without a page, and bytes before the signature that no directory has hashes of. So do a library, a symbol
or a section that is not there, an address of a symbol that no segment has, a relocation of a loader that is not of a
pointer, an entry of the indirect symbol table that is not there, an initializer, a thread or a routine that begins
where no code is, a thread without a start or with two, a second thread or routine, and a command for another kind of
image. So it ends on all files, and on one that breaks the rules of linked.md it says how.

It reads the superblob, its index and all blobs. In each code directory it reads the fields of its version, the
identifier, the team, the hashes of the special slots and before encryption, the linkage, and each page with its hash.
What a hash should be it does not ask.

`read_seal` reads signatures alone, and asks that: it compares each page and each blob of a special slot with its hash
in each directory. A hash that is another, or that is not there, raises `Breach`, and so do a byte that is not in
exactly one page, a byte of the signature or past it that is not zero and in no blob, two directories of one slot, a
signature that can be executed, and an image without a signature. So it says how a file breaks the rules of sealed.md.

From tests/reference/oracle.py it takes the commands, segments and sections of an image, and nothing that decodes what
it reads here.
"""

import hashlib

from kesvuot.constants import (
    CPU_TYPE_ARM64, CPU_TYPE_X86_64, CSSLOT_ALTERNATE_CODEDIRECTORIES, CSSLOT_CODEDIRECTORY, LC_ATOM_INFO,
    LC_CODE_SIGNATURE, LC_DYSYMTAB, LC_ENCRYPTION_INFO, LC_FILESET_ENTRY, LC_FVMFILE, LC_IDENT, LC_IDFVMLIB,
    LC_LINKER_OPTION, LC_LOADFVMLIB, LC_PREBIND_CKSUM, LC_PREBOUND_DYLIB, LC_PREPAGE, LC_ROUTINES, LC_ROUTINES_64,
    LC_SEGMENT, LC_SOURCE_VERSION, LC_SUB_CLIENT, LC_SUB_FRAMEWORK, LC_SUB_LIBRARY, LC_SUB_UMBRELLA, LC_SYMSEG,
    LC_SYMTAB, LC_TARGET_TRIPLE, LC_THREAD, LC_TWOLEVEL_HINTS, LC_UNIXTHREAD, LC_VERSION_MIN_IPHONEOS,
    LC_VERSION_MIN_MACOSX, LC_VERSION_MIN_TVOS, LC_VERSION_MIN_WATCHOS, N_SECT, N_STAB, N_TYPE,
    S_LAZY_DYLIB_SYMBOL_POINTERS, S_LAZY_SYMBOL_POINTERS, S_NON_LAZY_SYMBOL_POINTERS, S_SYMBOL_STUBS,
    S_THREAD_LOCAL_VARIABLE_POINTERS, SECTION_TYPE, VM_PROT_EXECUTE)

from .plain_dyld import LOADS, Breach

# kern/cs_blobs.h. The slots of directories; how many bytes the fields of a directory have from a version on; and the
# sizes of hashes, by their types.
CSMAGIC_EMBEDDED_SIGNATURE, CSMAGIC_CODEDIRECTORY = 0xfade0cc0, 0xfade0c02
ALTERNATE_SLOTS = range(CSSLOT_ALTERNATE_CODEDIRECTORIES, CSSLOT_ALTERNATE_CODEDIRECTORIES + 5)
SIZES_OF_VERSIONS = ((0x20600, 108), (0x20500, 96), (0x20400, 88), (0x20300, 64), (0x20200, 52), (0x20100, 48),
                     (0x20000, 44))
HASH_SIZES = {1: 20, 2: 32, 3: 20, 4: 48}
HASH_FUNCTIONS = {1: hashlib.sha1, 2: hashlib.sha256, 3: hashlib.sha256, 4: hashlib.sha384}
# A directory has hashes only of blobs in slots before this one.
LEAST_OTHER_SLOT = 0x1000
# The number 1 of 32 bits is shifted no further.
MOST_SHIFTED = 31

# mach-o/loader.h, nlist.h and reloc.h
MH_TWOLEVEL, OTHER_LIBRARIES = 0x80, (0, 0xfe, 0xff)
N_UNDF, N_INDR, N_PBUD, SYMBOL_SIZE = 0x0, 0xa, 0xc, 16
RELOCATION_SIZE, POINTER_LENGTH, ARM64_RELOC_ADDEND = 8, 3, 10
# Sections of pointers with entries of the indirect symbol table, and a section of offsets of initializers.
S_INIT_FUNC_OFFSETS = 0x16
POINTERS_TO_SYMBOLS = (S_NON_LAZY_SYMBOL_POINTERS, S_LAZY_SYMBOL_POINTERS, S_LAZY_DYLIB_SYMBOL_POINTERS,
                       S_THREAD_LOCAL_VARIABLE_POINTERS)
POINTER_SIZE, INDIRECT_SIZE, INIT_OFFSET_SIZE = 8, 4, 4

# mach/i386/thread_status.h and mach/arm/thread_status.h. The states with registers, by the cputype and the flavor:
# where the start of the thread is in their words. Those of x86_THREAD_STATE are another state.
x86_THREAD_STATE64, x86_THREAD_STATE = 4, 7
REGISTERS = {CPU_TYPE_X86_64: {x86_THREAD_STATE64: 128}, CPU_TYPE_ARM64: {6: 256}}

# mach-o/loader.h. How many bytes the structures of other commands have, and which of them have a name, at an offset
# that stands in the third word; which name bytes of the image, and how many bytes one of their entries has.
SIZES_OF_COMMANDS = {
    LC_SYMSEG: 16, LC_LOADFVMLIB: 20, LC_IDFVMLIB: 20, LC_IDENT: 8, LC_FVMFILE: 16, LC_PREPAGE: 8,
    LC_PREBOUND_DYLIB: 20, LC_ROUTINES: 40, LC_SUB_FRAMEWORK: 12, LC_SUB_UMBRELLA: 12, LC_SUB_CLIENT: 12,
    LC_SUB_LIBRARY: 12, LC_TWOLEVEL_HINTS: 16, LC_PREBIND_CKSUM: 12, LC_ROUTINES_64: 72, LC_VERSION_MIN_MACOSX: 16,
    LC_VERSION_MIN_IPHONEOS: 16, LC_SOURCE_VERSION: 16, LC_LINKER_OPTION: 12, LC_VERSION_MIN_TVOS: 16,
    LC_VERSION_MIN_WATCHOS: 16, LC_ATOM_INFO: 16, LC_TARGET_TRIPLE: 12}
WITH_A_NAME = (
    LC_LOADFVMLIB, LC_IDFVMLIB, LC_FVMFILE, LC_PREBOUND_DYLIB, LC_SUB_FRAMEWORK, LC_SUB_UMBRELLA, LC_SUB_CLIENT,
    LC_SUB_LIBRARY, LC_TARGET_TRIPLE)
WITH_BYTES = {LC_SYMSEG: 1, LC_TWOLEVEL_HINTS: 4, LC_ATOM_INFO: 1}
FOR_OTHER_IMAGES = (LC_SEGMENT, LC_ENCRYPTION_INFO, LC_FILESET_ENTRY)

class Part:
    """Some bytes of an image, of which no others are read."""

    def __init__(self, content, name, order="big"):
        self.content = content
        self.name = name
        self.order = order

    def bytes_at(self, offset, size):
        if offset < 0 or offset + size > len(self.content):
            raise Breach("%d bytes at 0x%x are read, which are not all in the %s" % (size, offset, self.name))
        return self.content[offset:offset + size]

    def number(self, offset, width=4):
        return int.from_bytes(self.bytes_at(offset, width), self.order)

    def part(self, offset, size, name):
        return Part(self.bytes_at(offset, size), name, self.order)

    def text(self, offset):
        """The bytes up to a zero byte, one after the other."""
        end = offset
        while self.bytes_at(end, 1) != b"\0":
            end += 1
        return self.content[offset:end]

class Directory:
    """A code directory, whose fields are read only if its version has them."""

    def __init__(self, blob):
        self.blob = blob
        if blob.number(0) != CSMAGIC_CODEDIRECTORY:
            raise Breach("0x%x is no magic number of a directory" % blob.number(0))
        self.version = blob.number(8)
        size = next((size for version, size in SIZES_OF_VERSIONS if version <= self.version), None)
        if size is None:
            raise Breach("version 0x%x is not known" % self.version)
        blob.bytes_at(0, size)
        self.hash_offset, self.special_count, self.count = blob.number(16), blob.number(24), blob.number(28)
        self.hash_size, self.hash_type, self.page_size = blob.number(36, 1), blob.number(37, 1), blob.number(39, 1)
        if HASH_SIZES.get(self.hash_type) != self.hash_size:
            raise Breach("a hash of type %d has not %d bytes" % (self.hash_type, self.hash_size))
        if self.page_size > MOST_SHIFTED:
            raise Breach("1 is shifted by %d" % self.page_size)
        if self.version >= 0x20100 and blob.number(44) != 0:
            raise Breach("the pages are scattered, which is not known")

    def limit(self):
        limit = self.blob.number(56, 8) if self.version >= 0x20300 else 0
        return limit or self.blob.number(32)

    def texts(self):
        """The identifier and the team, those that there are."""
        offsets = [self.blob.number(20)] + ([self.blob.number(48)] if self.version >= 0x20200 else [])
        return [self.blob.text(offset) for offset in offsets if offset != 0]

    def hash_of(self, slot):
        """The hash of a page, or of a special slot, whose number is below 0."""
        return self.blob.bytes_at(self.hash_offset + slot * self.hash_size, self.hash_size)

    def page_length(self):
        return 1 << self.page_size if self.page_size > 0 else self.limit()

    def page(self, slot, signed):
        """The bytes of a page."""
        limit, start = self.limit(), slot * self.page_length()
        if start >= limit:
            raise Breach("hash %d is of no page of the %d bytes" % (slot, limit))
        return signed.bytes_at(start, min(self.page_length(), limit - start))

    def read_before_encryption(self):
        """Reads the hashes that the pages have before they are encrypted, if there are any."""
        offset = self.blob.number(92) if self.version >= 0x20500 else 0
        if offset != 0:
            self.blob.bytes_at(offset, self.count * self.hash_size)

    def read_linkage(self):
        if self.version >= 0x20600:
            self.blob.bytes_at(self.blob.number(100), self.blob.number(104))

    def read_pages(self, signed):
        """Reads each page, and its hash."""
        limit = self.limit()
        for slot in range(self.count):
            self.hash_of(slot)
            self.page(slot, signed)
        if self.count * self.page_length() < limit:
            raise Breach("there are %d hashes for %d bytes" % (self.count, limit))
        if limit < len(signed.content):
            raise Breach("there are hashes of %d bytes alone" % limit)

    def compare(self, slot, content):
        """Compares some bytes with the hash in a slot."""
        found = HASH_FUNCTIONS[self.hash_type](content).digest()
        if found[:self.hash_size] != self.hash_of(slot):
            raise Breach("the hash in slot %d is another" % slot)

def read_directory(blob, signed):
    """Reads all of a directory."""
    directory = Directory(blob)
    directory.texts()
    for slot in range(1, directory.special_count + 1):
        directory.hash_of(-slot)
    directory.read_before_encryption()
    directory.read_linkage()
    directory.read_pages(signed)

def blobs_of(superblob):
    """The slots and the blobs, none of which has a byte of another one or of the index."""
    count = superblob.number(8)
    end = 12 + 8 * count
    ranges = [(0, end)]
    for place in range(12, end, 8):
        slot, offset = superblob.number(place), superblob.number(place + 4)
        length = superblob.number(offset + 4)
        blob = superblob.part(offset, length, "blob of slot 0x%x" % slot)
        # The first 8 bytes are the blob's own.
        blob.bytes_at(0, 8)
        ranges.append((offset, offset + length))
        yield slot, blob
    ranges.sort()
    for (_, before), (start, _) in zip(ranges, ranges[1:]):
        if start < before:
            raise Breach("the bytes at 0x%x of the superblob are of two blobs" % start)

def read_signature(table, signed):
    """Reads a signature, and the bytes before it."""
    if table.number(0) != CSMAGIC_EMBEDDED_SIGNATURE:
        raise Breach("0x%x is no magic number of a signature" % table.number(0))
    slots = set()
    for slot, blob in blobs_of(table.part(0, table.number(4), "superblob")):
        slots.add(slot)
        if slot == CSSLOT_CODEDIRECTORY or slot in ALTERNATE_SLOTS:
            read_directory(blob, signed)
    if CSSLOT_CODEDIRECTORY not in slots:
        raise Breach("there is no directory")

def compare_pages(directory, signed):
    """Compares each page with its hash. Each byte is in one page."""
    times = bytearray(len(signed.content))
    for slot in range(directory.count):
        content = directory.page(slot, signed)
        directory.compare(slot, content)
        start = slot * directory.page_length()
        times[start:start + len(content)] = bytes(number + 1 for number in times[start:start + len(content)])
    if times.count(1) != len(times):
        raise Breach("a byte is in none of the pages, or in several")

def compare_blobs(directory, blobs):
    """Compares each blob of a special slot with its hash."""
    for slot, blob in blobs:
        if 0 < slot < LEAST_OTHER_SLOT:
            if slot > directory.special_count:
                raise Breach("there is no hash of the blob of slot 0x%x" % slot)
            directory.compare(-slot, blob.content)

def loose_bytes(table):
    """The signature with zeros in place of its header, its index and its blobs."""
    loose = bytearray(table.content)
    end = 12 + 8 * table.number(8)
    loose[:end] = bytes(end)
    for place in range(12, end, 8):
        offset = table.number(place + 4)
        length = table.number(offset + 4)
        loose[offset:offset + length] = bytes(length)
    return loose

def compare_signature(table, signed, past):
    """Compares all that the directories of a signature have hashes of. Past it there are zeros."""
    blobs = list(blobs_of(table.part(0, table.number(4), "superblob")))
    slots = [slot for slot, _ in blobs if slot == CSSLOT_CODEDIRECTORY or slot in ALTERNATE_SLOTS]
    if CSSLOT_CODEDIRECTORY not in slots:
        raise Breach("there is no directory")
    if len(set(slots)) < len(slots):
        raise Breach("there are two directories of one slot")
    if any(loose_bytes(table)):
        raise Breach("a byte of the signature is in no blob")
    if any(past.content):
        raise Breach("a byte past the signature has no hash")
    for slot, blob in blobs:
        if slot in slots:
            directory = Directory(blob)
            compare_pages(directory, signed)
            compare_blobs(directory, blobs)

def go_to(image, address):
    """Goes to code at an address."""
    if not any(segment.vmsize > 0 and segment.initprot & VM_PROT_EXECUTE
               and segment.vmaddr <= address < segment.vmaddr + segment.filesize for segment in image.segments):
        raise Breach("there is no code at 0x%x" % address)

def go_near(image, address):
    """Goes to a symbol, which may be the end of a segment."""
    if not any(segment.vmsize > 0 and segment.vmaddr <= address <= segment.vmaddr + segment.vmsize
               for segment in image.segments):
        raise Breach("no segment has a symbol at 0x%x" % address)

def item(items, number, name):
    """The item of a number, of which the first has number 1."""
    if not 1 <= number <= len(items):
        raise Breach("there is no %s %d" % (name, number))
    return items[number - 1]

def read_symbol(image, symbol, libraries, strings):
    kind, value = symbol.number(4, 1), symbol.number(8, 8)
    if kind & N_STAB:
        return
    if kind & N_TYPE == N_PBUD or kind & N_TYPE == N_UNDF and value == 0:
        ordinal = symbol.number(6, 2) >> 8
        if image.header.flags & MH_TWOLEVEL and ordinal not in OTHER_LIBRARIES:
            item(libraries, ordinal, "library")
    elif kind & N_TYPE == N_SECT:
        if item(image.sections, symbol.number(5, 1), "section").segment.vmsize > 0:
            go_near(image, value)
    elif kind & N_TYPE == N_INDR:
        strings.text(value)

def read_symbols(image, whole):
    """Reads each symbol, and what it says of another name, a library or an address. The symbols are the result."""
    symtab = image.only(LC_SYMTAB)
    if symtab is None:
        return []
    table = whole.part(symtab.symoff, SYMBOL_SIZE * symtab.nsyms, "symbols") if symtab.nsyms > 0 else None
    strings = whole.part(symtab.stroff, symtab.strsize, "strings") if symtab.strsize > 0 else Part(b"", "strings")
    symbols = [table.part(SYMBOL_SIZE * k, SYMBOL_SIZE, "symbol") for k in range(symtab.nsyms)]
    libraries = [command for command in image.commands if command.cmd in LOADS]
    for symbol in symbols:
        read_symbol(image, symbol, libraries, strings)
    return symbols

def read_relocations(image, whole, symbols):
    """Reads each relocation, and finds its symbol or its section. A loader writes pointers alone."""
    tables = [(section.reloff, section.nreloc, False) for section in image.sections]
    dysymtab = image.only(LC_DYSYMTAB)
    if dysymtab is not None:
        tables += [(dysymtab.extreloff, dysymtab.nextrel, True), (dysymtab.locreloff, dysymtab.nlocrel, True)]
    for start, count, is_of_loader in tables:
        for place in range(start, start + RELOCATION_SIZE * count, RELOCATION_SIZE):
            bits = whole.number(place + 4)
            number = bits & 0xffffff
            if bits >> 27 & 1:
                item(symbols, number + 1, "symbol")
            elif number > 0 and (image.header.cputype, bits >> 28) != (CPU_TYPE_ARM64, ARM64_RELOC_ADDEND):
                item(image.sections, number, "section")
            if is_of_loader and bits >> 25 & 3 != POINTER_LENGTH:
                raise Breach("a loader has a relocation of %d bytes" % 2 ** (bits >> 25 & 3))

def read_indirects(image, whole):
    """Reads the entry of each stub and of each pointer to a symbol. They are numbered from `reserved1` of a section on,
    and `reserved2` is how many bytes a stub has."""
    dysymtab = image.only(LC_DYSYMTAB)
    count = 0 if dysymtab is None else dysymtab.nindirectsyms
    start = dysymtab.indirectsymoff if count > 0 else 0
    table = whole.part(start, INDIRECT_SIZE * count, "indirect symbols")
    for section in image.sections:
        kind = section.flags & SECTION_TYPE
        if kind == S_SYMBOL_STUBS or kind in POINTERS_TO_SYMBOLS:
            size = section.reserved2 if kind == S_SYMBOL_STUBS else POINTER_SIZE
            if size == 0:
                raise Breach("stubs have no bytes")
            items, rest = divmod(section.size, size)
            if rest > 0:
                raise Breach("the last item of a section is cut")
            table.bytes_at(INDIRECT_SIZE * section.reserved1, INDIRECT_SIZE * items)

def go_to_initializers(image, whole):
    """Goes to each initializer whose offset from the base stands in a section."""
    for section in image.sections:
        if section.flags & SECTION_TYPE == S_INIT_FUNC_OFFSETS and section.segment.vmsize > 0:
            end = section.offset + section.size
            for place in range(section.offset, end, INIT_OFFSET_SIZE):
                if place + INIT_OFFSET_SIZE > end or image.base is None:
                    raise Breach("the initializer at 0x%x is cut, or there is no base" % place)
                go_to(image, image.base + whole.number(place, INIT_OFFSET_SIZE))

def starts_of_state(cputype, flavor, words):
    """Where a thread starts that has such a state: once, or not at all."""
    if (cputype, flavor) == (CPU_TYPE_X86_64, x86_THREAD_STATE):
        inside = words.part(8, 4 * words.number(4), "state in a state")
        return starts_of_state(cputype, words.number(0), inside) if words.number(0) != x86_THREAD_STATE else []
    registers = REGISTERS.get(cputype, {})
    return [words.number(registers[flavor], 8)] if flavor in registers else []

def start_of_thread(cputype, thread):
    """Where a thread starts, which one of its states has."""
    starts = []
    place = 8
    while place < len(thread.content):
        flavor, size = thread.number(place), 4 * thread.number(place + 4)
        starts += starts_of_state(cputype, flavor, thread.part(place + 8, size, "words of a state"))
        place += 8 + size
    if len(starts) != 1:
        raise Breach("a thread has %d starts" % len(starts))
    return starts[0]

def read_strings(command, place, count=None):
    """Reads `count` strings of a command, or all up to its end."""
    while place < len(command.content) if count is None else count > 0:
        place += len(command.text(place)) + 1
        count = count and count - 1

def read_command(image, whole, cmd, command):
    """Reads what one of the other commands has."""
    command.bytes_at(0, SIZES_OF_COMMANDS[cmd])
    if cmd in WITH_A_NAME:
        command.text(command.number(8))
    if cmd in WITH_BYTES and command.number(12) > 0:
        whole.bytes_at(command.number(8), command.number(12) * WITH_BYTES[cmd])
    if cmd == LC_PREBOUND_DYLIB and command.number(12) > 0:
        command.bytes_at(command.number(16), -(-command.number(12) // 8))
    if cmd == LC_IDENT:
        read_strings(command, 8)
    if cmd == LC_LINKER_OPTION:
        read_strings(command, 12, command.number(8))
    if cmd in (LC_ROUTINES, LC_ROUTINES_64):
        go_to(image, command.number(8, 8 if cmd == LC_ROUTINES_64 else 4))

def read_commands(image, whole):
    """Reads the threads and the other commands that are known, and goes to the one start of a thread and to the one
    routine that there may be."""
    threads = routines = 0
    for header in image.commands:
        command = whole.part(header.place, header.cmdsize, "command")
        if header.cmd in FOR_OTHER_IMAGES:
            raise Breach("command 0x%x is for another kind of image" % header.cmd)
        if header.cmd in (LC_THREAD, LC_UNIXTHREAD):
            go_to(image, start_of_thread(image.header.cputype, command))
        elif header.cmd in SIZES_OF_COMMANDS:
            read_command(image, whole, header.cmd, command)
        threads += header.cmd in (LC_THREAD, LC_UNIXTHREAD)
        routines += header.cmd in (LC_ROUTINES, LC_ROUTINES_64)
    if threads > 1 or routines > 1:
        raise Breach("there are %d threads and %d routines" % (threads, routines))

def signatures(image):
    """The commands of the signatures of an image that has been opened."""
    return [command for command in image.listed if command.cmd == LC_CODE_SIGNATURE and command.datasize > 0]

def parts_of(image, command):
    """A signature, the bytes before it, and those past it."""
    whole = Part(image.data, "image")
    end = command.dataoff + command.datasize
    return (whole.part(command.dataoff, command.datasize, "signature"),
            whole.part(0, command.dataoff, "bytes before the signature"),
            whole.part(end, len(image.data) - end, "bytes past the signature"))

def run_all(image, command):
    """Runs each executable byte of the file. None is one of the signature, of which there is no hash."""
    signature = range(command.dataoff, command.dataoff + command.datasize)
    for segment in image.segments:
        if segment.vmsize > 0 and segment.initprot & VM_PROT_EXECUTE:
            start = max(segment.fileoff, signature.start)
            if start < min(segment.fileoff + segment.filesize, signature.stop):
                raise Breach("the byte of the signature at 0x%x is run" % start)

def read_seal(image):
    """Compares what an image that has been opened is signed with, and runs its code."""
    found = signatures(image)
    if not found:
        raise Breach("there is no signature")
    for command in found:
        compare_signature(*parts_of(image, command))
        run_all(image, command)

def read(image):
    """Reads what an image that has been opened is signed with, its symbols, relocations and initializers, and its other
    commands."""
    for command in signatures(image):
        table, signed, _ = parts_of(image, command)
        read_signature(table, signed)
    whole = Part(image.data, "image", "little")
    read_relocations(image, whole, read_symbols(image, whole))
    read_indirects(image, whole)
    go_to_initializers(image, whole)
    read_commands(image, whole)
