"""The words for the numbers of an image, after <mach-o/loader.h> and <mach/vm_prot.h>."""

from __future__ import annotations

from typing import List

from . import constants
from .constants import (
    LC_ID_DYLIB, LC_LAZY_LOAD_DYLIB, LC_LOAD_DYLIB, LC_LOAD_UPWARD_DYLIB, LC_LOAD_WEAK_DYLIB, LC_REEXPORT_DYLIB)

# PLATFORM_*, for LC_BUILD_VERSION.
PLATFORMS = {
    # registry: platforms
    1: "macOS", 2: "iOS", 3: "tvOS", 4: "watchOS", 5: "bridgeOS", 6: "Mac Catalyst", 7: "iOS Simulator",
    8: "tvOS Simulator", 9: "watchOS Simulator", 10: "DriverKit", 11: "visionOS", 12: "visionOS Simulator",
    # registry: end
}

# The filetypes, and the numbers of those that are judged.
FILETYPES = {
    # registry: filetypes
    1: "object file", 2: "program", 3: "fixed library", 4: "core file", 5: "preloaded program", 6: "library",
    7: "dynamic linker", 8: "bundle", 9: "stub of a library", 10: "debugging data", 11: "kernel extension",
    12: "set of kernel extensions",
    # registry: end
}
JUDGED_FILETYPES = [constants.MH_EXECUTE, constants.MH_DYLIB, constants.MH_BUNDLE]

# What an image has to do with a library that it names.
LIBRARIES = {
    LC_ID_DYLIB: "its own name", LC_LOAD_DYLIB: "loaded", LC_LOAD_WEAK_DYLIB: "loaded if it is there",
    LC_REEXPORT_DYLIB: "re-exported", LC_LAZY_LOAD_DYLIB: "loaded when it is needed",
    LC_LOAD_UPWARD_DYLIB: "loaded, upward"}

# Where names are looked up by an ordinal of no library.
ELSEWHERE = {0: "the image itself", -1: "the main executable", -2: "any image",
             -3: "any image with a weak definition"}

# The keys with which pointers of arm64e are signed.
KEYS = ("IA", "IB", "DA", "DB")

# The load commands.
COMMANDS = {number: name for name, number in vars(constants).items() if name.startswith("LC_")}

# The opcodes of LC_DYLD_INFO by their upper four bits: without REBASE_OPCODE_, and without BIND_OPCODE_.
REBASE_OPCODES = (
    "DONE", "SET_TYPE_IMM", "SET_SEGMENT_AND_OFFSET_ULEB", "ADD_ADDR_ULEB", "ADD_ADDR_IMM_SCALED",
    "DO_REBASE_IMM_TIMES", "DO_REBASE_ULEB_TIMES", "DO_REBASE_ADD_ADDR_ULEB", "DO_REBASE_ULEB_TIMES_SKIPPING_ULEB")
BIND_OPCODES = (
    "DONE", "SET_DYLIB_ORDINAL_IMM", "SET_DYLIB_ORDINAL_ULEB", "SET_DYLIB_SPECIAL_IMM",
    "SET_SYMBOL_TRAILING_FLAGS_IMM", "SET_TYPE_IMM", "SET_ADDEND_SLEB", "SET_SEGMENT_AND_OFFSET_ULEB", "ADD_ADDR_ULEB",
    "DO_BIND", "DO_BIND_ADD_ADDR_ULEB", "DO_BIND_ADD_ADDR_IMM_SCALED", "DO_BIND_ULEB_TIMES_SKIPPING_ULEB")

# CS_HASHTYPE_*: the words in which `macho-verify sealed` prints them.
HASH_TYPES = {number: name[len("CS_HASHTYPE_"):].lower().replace("_", "-")
              for name, number in vars(constants).items() if name.startswith("CS_HASHTYPE_")}

# The flags of a code directory: the words of `codesign`.
SIGNATURE_FLAGS = {
    0x1: "host", constants.CS_ADHOC: "adhoc", constants.CS_HARD: "hard", constants.CS_KILL: "kill",
    constants.CS_CHECK_EXPIRATION: "expires", constants.CS_RESTRICT: "restrict",
    constants.CS_ENFORCEMENT: "enforcement", constants.CS_REQUIRE_LV: "library-validation",
    constants.CS_RUNTIME: "runtime", constants.CS_LINKER_SIGNED: "linker-signed"}

# VM_PROT_READ, VM_PROT_WRITE and VM_PROT_EXECUTE.
PROTECTIONS = ("read", "write", "execute")

UNITS = ("B", "KiB", "MiB", "GiB", "TiB", "PiB", "EiB")


def plain(name: memoryview) -> str:
    """A name, with numbers for a quote, a backslash and all that is not printable ASCII."""
    return "".join(chr(byte) if 0x20 <= byte <= 0x7E and byte not in b'"\\' else f"\\x{byte:02x}" for byte in name)


def command_name(cmd: int) -> str:
    return COMMANDS.get(cmd, f"command {cmd:#x}")


def opcode_name(byte: int, rebases: bool) -> str:
    """The name of an opcode, or its byte."""
    family, names = ("REBASE", REBASE_OPCODES) if rebases else ("BIND", BIND_OPCODES)
    return f"{family}_OPCODE_{names[byte >> 4]}" if byte >> 4 < len(names) else f"the byte {byte:02x}"


def platform_name(number: int) -> str:
    return PLATFORMS.get(number, f"platform {number}")


def hash_type_name(number: int) -> str:
    return HASH_TYPES.get(number, f"hash type {number}")


def signature_flags(flags: int) -> List[str]:
    """The words for the flags of a code directory, and a number for those that have none."""
    rest = flags & ~sum(SIGNATURE_FLAGS)
    return [*(word for bit, word in SIGNATURE_FLAGS.items() if flags & bit), *([f"{rest:#x}"] if rest else [])]


def version_text(number: int) -> str:
    """A version of 16, 8 and 8 bits."""
    return f"{number >> 16}.{number >> 8 & 0xFF}.{number & 0xFF}"


def protection_text(bits: int) -> str:
    words = [word for number, word in enumerate(PROTECTIONS) if bits >> number & 1]
    return ", ".join(words) or "no access"


def count_text(number: int, word: str) -> str:
    return f"{number} {word}{'' if number == 1 else 's'}"


def size_text(size: int) -> str:
    """A size in the greatest unit of which there is at least one, to a tenth."""
    number = min(max(size.bit_length() - 1, 0) // 10, len(UNITS) - 1)
    tenths = (size * 10 >> 10 * number) % 10
    return f"{size >> 10 * number}{f'.{tenths}' if tenths else ''} {UNITS[number]}"
