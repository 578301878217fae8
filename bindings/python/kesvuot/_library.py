"""The shared library with its structures and calls, as in kesvuot.h, and the bytes of a file, which it reads."""

from __future__ import annotations

import ctypes
import mmap
import os
import re
import struct
from functools import lru_cache
from typing import Any, Dict, List, Tuple, Union

Data = Union[bytes, bytearray, memoryview, mmap.mmap]

SONAME, MAJOR = "libkesvuot.so.2", 2
# Where `make install-lib` puts this package, and where the archive of `make dist` has it: below the folder of `lib`.
INSTALLED = re.compile("(.*)/(?:lib/python3[^/]*/(?:site|dist)-packages|share/kesvuot/python)/kesvuot")
# registry: numbers
OK = 0
REFUSED = 1
NO_MEMORY = 2
NONE = 3
UNREAD = 4
ZERO = 5
UNKNOWN_PROFILE = 6
HAS_UUID = 1
HAS_BASE = 2
HAS_ENTRY = 4
HAS_SYMTAB = 8
HAS_DYSYMTAB = 16
HAS_ID = 32
# registry: end
NO_SECTION = NO_INDEX = 0xFFFF_FFFF

# x is reserved.
SPAN = struct.Struct("@2Q")
CURSOR = struct.Struct("@4Q")
TEXT = struct.Struct("@PN")
VERDICT = struct.Struct("@2QI4x")
EXPLANATION = struct.Struct("@3Q2I3Q2I3Q2I2Q4I")
IMAGE = struct.Struct("@2Q13Q2Q3I4x12I16s16x")
EXPORT = struct.Struct("@6Q8x")
# Its terminal part is not taken.
EXPORT_NODE = struct.Struct("@6Q8x16x4QI4x")
EXPORT_EDGE = struct.Struct("@3Q")
BLOB = struct.Struct("@2Q2I")
CODE_DIRECTORY = struct.Struct("@8QQ5I2H")
CDHASH = struct.Struct("@48s2I")

CHANGED = "the bytes have changed after the verdict"


def _find() -> str:
    """What to ask the loader for."""
    folder = os.environ.get("KESVUOT_LIB_DIR")
    if folder:
        return os.path.join(os.path.abspath(folder), SONAME)
    package = os.path.dirname(os.path.realpath(__file__))
    found = [os.path.join(package, SONAME)]
    installed = INSTALLED.fullmatch(package)
    if installed:
        found.append(os.path.join(installed[1], "lib", SONAME))
    return next(filter(os.path.exists, found), SONAME)


@lru_cache(maxsize=None)
def load() -> Any:
    """The library, which the first call loads. Raises ImportError if that fails."""
    try:
        # A call of a PyDLL holds the GIL.
        library = ctypes.PyDLL(_find())
        if library.kesvuot_version() >> 16 != MAJOR:
            raise OSError(f"its version is not {MAJOR}")
        _declare(library)
    except (OSError, AttributeError) as error:
        raise ImportError(f"{SONAME} cannot be loaded: {error}") from error
    return library


def _declare(library: Any) -> None:
    """Gives each call its types, as in kesvuot.h."""
    pointer, size, i32 = ctypes.c_void_p, ctypes.c_size_t, ctypes.c_int
    u32, u64 = ctypes.c_uint32, ctypes.c_uint64
    calls: Dict[str, Tuple[Any, List[Any]]] = {
        # registry: calls
        "kesvuot_version": (u32, []),
        "kesvuot_verify": (i32, [pointer, size, u32, pointer]),
        "kesvuot_layout": (u32, [pointer, size, pointer, size, pointer]),
        "kesvuot_find_rule": (u32, [u32, pointer]),
        "kesvuot_rule_profile": (u32, [u32]),
        "kesvuot_find_profile": (u32, [u32, pointer]),
        "kesvuot_find_command": (u32, [u32, pointer]),
        "kesvuot_find_platform": (u32, [u32, pointer]),
        "kesvuot_explain": (u32, [pointer, size, pointer, pointer]),
        "kesvuot_find_arch": (u32, [u32, u32, pointer]),
        "kesvuot_arch_named": (u32, [pointer, size, pointer, pointer]),
        "kesvuot_read_image": (u32, [pointer, size, u64, pointer]),
        "kesvuot_read_commands": (size, [pointer, size, pointer, pointer, pointer, size]),
        "kesvuot_read_segments": (size, [pointer, size, pointer, pointer, pointer, size]),
        "kesvuot_read_sections": (size, [pointer, size, pointer, pointer, pointer, size]),
        "kesvuot_read_libraries": (size, [pointer, size, pointer, pointer, pointer, size]),
        "kesvuot_read_builds": (size, [pointer, size, pointer, pointer, pointer, size]),
        "kesvuot_read_symbols": (size, [pointer, size, pointer, pointer, pointer, size]),
        "kesvuot_read_indirects": (size, [pointer, size, pointer, pointer, pointer, size]),
        "kesvuot_read_relocations": (size, [pointer, size, pointer, u32, u32, pointer, pointer, size]),
        "kesvuot_read_function_starts": (size, [pointer, size, pointer, pointer, pointer, size]),
        "kesvuot_read_data_in_code": (size, [pointer, size, pointer, pointer, pointer, size]),
        "kesvuot_read_blobs": (size, [pointer, size, pointer, pointer, pointer, size]),
        "kesvuot_read_code_directory": (u32, [pointer, size, pointer, pointer]),
        "kesvuot_read_cdhash": (u32, [pointer, size, pointer, pointer]),
        "kesvuot_symbol_name": (u32, [pointer, size, pointer, u32, pointer]),
        "kesvuot_read_names": (size, [pointer, size, pointer, pointer, size, pointer, size]),
        "kesvuot_index_symbols": (size, [pointer, size, pointer, pointer, size]),
        "kesvuot_find_symbol": (u32, [pointer, size, pointer, pointer, size, u64, pointer, pointer]),
        "kesvuot_find_name": (u32, [pointer, size, pointer, pointer, size, pointer, pointer]),
        "kesvuot_read_fixups": (size, [pointer, size, pointer, pointer, pointer, size]),
        "kesvuot_read_imports": (size, [pointer, size, pointer, pointer, pointer, size]),
        "kesvuot_find_export": (u32, [pointer, size, pointer, pointer, size, pointer]),
        "kesvuot_find_export_trie": (u32, [pointer, size, pointer, pointer]),
        "kesvuot_read_export_node": (u32, [pointer, size, pointer, pointer, u64, pointer]),
        "kesvuot_read_export_edges": (size, [pointer, size, pointer, pointer, pointer, size]),
        "kesvuot_find_data": (u32, [pointer, size, pointer, u32, pointer]),
        "kesvuot_find_table": (u32, [pointer, size, pointer, u32, pointer]),
        "kesvuot_find_source_version": (u32, [pointer, size, pointer, pointer]),
        "kesvuot_find_thread_entry": (u32, [pointer, size, pointer, pointer]),
        "kesvuot_find_address": (u32, [pointer, size, pointer, u64, pointer]),
        # registry: end
    }
    for name, (result, arguments) in calls.items():
        call = getattr(library, name)
        call.restype, call.argtypes = result, arguments


class _Buffer(ctypes.Structure):
    """A Py_buffer."""

    _fields_ = [("buf", ctypes.c_void_p), ("obj", ctypes.c_void_p), ("len", ctypes.c_ssize_t),
                ("itemsize", ctypes.c_ssize_t), ("readonly", ctypes.c_int), ("ndim", ctypes.c_int),
                ("format", ctypes.c_void_p), ("shape", ctypes.c_void_p), ("strides", ctypes.c_void_p),
                ("suboffsets", ctypes.c_void_p), ("internal", ctypes.c_void_p)]


_get_buffer = ctypes.PYFUNCTYPE(ctypes.c_int, ctypes.py_object, ctypes.c_void_p, ctypes.c_int)(
    ("PyObject_GetBuffer", ctypes.pythonapi))
_release_buffer = ctypes.PYFUNCTYPE(None, ctypes.c_void_p)(("PyBuffer_Release", ctypes.pythonapi))


def address_of(view: memoryview) -> int:
    """The address of the bytes of a view. The calls of ctypes for this refuse read-only bytes."""
    buffer = _Buffer()
    _get_buffer(view, ctypes.byref(buffer), 0)
    try:
        return buffer.buf or 0
    finally:
        _release_buffer(ctypes.byref(buffer))


class Bytes:
    """The bytes of a file. They stay where they are for as long as this object or a part of them lives."""

    def __init__(self, data: Data) -> None:
        self.view = memoryview(data).toreadonly().cast("B")
        self.address = address_of(self.view)

    def __len__(self) -> int:
        return len(self.view)

    def part(self, offset: int, size: int) -> memoryview:
        """The bytes of a span."""
        return self.view[offset:offset + size]
