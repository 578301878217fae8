"""What the pointers that the plain dyld writes say, and what they are bound to, in the order in which it writes them.
To a write it adds what it does not need itself: where a rebase points, what is added, and how a pointer is signed.
"""

from collections import namedtuple

from kesvuot.constants import LC_DYLD_CHAINED_FIXUPS

from .plain_dyld import (
    CHAINS, DYLD_CHAINED_IMPORT, DYLD_CHAINED_IMPORT_ADDEND, DYLD_CHAINED_IMPORT_ADDEND64, POINTER, WORD, Dyld)

# mach-o/fixup-chains.h: the formats of pointers that can be signed, and those whose targets count from the base.
ARM64E = (1, 9, 12)
OFFSETS = (6, 9, 12)
# For an import, by its format: which bit says weak, and the bytes of the addend.
IMPORTS = {DYLD_CHAINED_IMPORT: (8, slice(0)), DYLD_CHAINED_IMPORT_ADDEND: (8, slice(4, 8)),
           DYLD_CHAINED_IMPORT_ADDEND64: (16, slice(8, 16))}

# mach-o/loader.h
BIND_SYMBOL_FLAGS_WEAK_IMPORT = 1
WEAK_LOOKUP = -3

# A pointer that is written. A rebase has a target, and a bind what it is bound to, with all that is added.
Fixup = namedtuple("Fixup", "address target bound signing")
Bound = namedtuple("Bound", "name library weak addend")
Signing = namedtuple("Signing", "key diversity address_diversity")

def bits_of(raw, first, count):
    return raw >> first & (1 << count) - 1

def signed(number, bits):
    return number - (1 << bits) if number >> (bits - 1) else number

class Fixer(Dyld):
    """A loader that keeps what the pointers say."""

    def __init__(self, image):
        super().__init__(image)
        self.fixups, self.imports, self.form = [], [], None
        self.is_chained = any(it.cmd == LC_DYLD_CHAINED_FIXUPS for it in image.listed)

    def read_imports(self, first, count, form, symbols):
        found = super().read_imports(first, count, form, symbols)
        weak_bit, addend = IMPORTS[form]
        for place, size, ordinal, name in found:
            raw = self.image.data[place:place + size]
            self.imports.append(Bound(name, ordinal, bool(bits_of(int.from_bytes(raw, "little"), weak_bit, 1)),
                                      int.from_bytes(raw[addend], "little", signed=True)))
        return found

    def follow_chain(self, segment, address, form, found):
        self.form = form
        super().follow_chain(segment, address, form, found)

    def write(self, stream, address, pointer, *of_bind):
        super().write(stream, address, pointer, *of_bind)
        ordinal, name, addend, flags = of_bind
        raw = self.raw_at(address)
        if stream == CHAINS:
            self.fixups.append(self.chained(address, raw, name is not None))
        elif self.is_chained:
            return
        elif name is None:
            self.fixups.append(Fixup(address, raw, None, None))
        else:
            library = WEAK_LOOKUP if stream == "weak" else ordinal
            bound = Bound(name, library, bool(flags & BIND_SYMBOL_FLAGS_WEAK_IMPORT), addend)
            self.fixups.append(Fixup(address, None, bound, None))

    def raw_at(self, address):
        """The pointer as it is in the file."""
        segment, _, offset = self.memory.part_of(address, POINTER)
        place = segment.fileoff + offset
        return int.from_bytes(self.image.data[place:place + POINTER], "little")

    def chained(self, address, raw, is_bind):
        """What a pointer of a chain says."""
        is_signed = self.form in ARM64E and bool(bits_of(raw, 63, 1))
        signing = Signing(bits_of(raw, 49, 2), bits_of(raw, 32, 16), bool(bits_of(raw, 48, 1))) if is_signed else None
        if not is_bind:
            return Fixup(address, self.target(raw, is_signed), None, signing)
        index = bits_of(raw, 0, 16 if self.form in (1, 9) else 24)
        if self.form not in ARM64E:
            own = bits_of(raw, 24, 8)
        else:
            own = 0 if is_signed else signed(bits_of(raw, 32, 19), 19)
        bound = self.imports[index]
        return Fixup(address, None, bound._replace(addend=signed((bound.addend + own) % WORD, 64)), signing)

    def target(self, raw, is_signed):
        if is_signed:
            return (self.image.base + bits_of(raw, 0, 32)) % WORD
        width = 43 if self.form in ARM64E else 36
        target = bits_of(raw, 0, width) | bits_of(raw, width, 8) << 56
        return (self.image.base + target) % WORD if self.form in OFFSETS else target

def fixups_of(image):
    """The pointers that are written, and the imports of a chain table, if there is one. Where there is one, a loader
    passes opcodes over."""
    fixer = Fixer(image)
    fixer.fix_up()
    return fixer.fixups, fixer.imports if fixer.is_chained else None

def fixups_read(image):
    """The same, as the library for Python reads them. Of opcodes each import is bound, in their order."""
    imports = [Bound(it.name.tobytes(), it.library, it.weak, it.addend) for it in image.imports]
    fixups, used = [], []
    for it in image.fixups:
        bound = None
        if it.import_index is not None:
            bound = imports[it.import_index]._replace(addend=it.addend)
            used += [it.import_index] if used[-1:] != [it.import_index] else []
        segment = image.segments[it.segment]
        place = segment.bytes[it.offset:it.offset + POINTER]
        if it.address != (segment.vmaddr + it.offset) % WORD or len(place) != POINTER:
            raise ValueError("the pointer at 0x%x is not at 0x%x of segment %d" % (it.address, it.offset, it.segment))
        fixups.append(Fixup(it.address, it.target, bound, it.authentication and Signing(*it.authentication)))
    if any(command.cmd == LC_DYLD_CHAINED_FIXUPS for command in image.commands):
        return fixups, imports
    if used != list(range(len(imports))):
        raise ValueError("of %d imports the binds are %r" % (len(imports), used))
    return fixups, None
