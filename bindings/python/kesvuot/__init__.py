"""Judges the layout of Mach-O files, and reads the files that it accepts. A binding of libkesvuot.

    import kesvuot

    try:
        file = kesvuot.verify(data)
    except kesvuot.Refused as refused:
        print(refused.rule, hex(refused.place))
    else:
        for image in file.images:
            print(image.arch)
            for segment in image.segments:
                print(segment.name.tobytes(), len(segment.bytes))

`kesvuot.verify(data, "strict")` judges by more rules: the profiles are "layout" (the default), "strict", "linked",
"unambiguous" and "sealed". `kesvuot.verify_file(path)` reads the file, too. `explain(data, refused)` says which
structures, parts and numbers a refusal is about. `kesvuot.constants` has the numbers of <mach-o/loader.h> and its kin,
such as LC_SEGMENT_64.

The values and tables of an image are properties. A table is a Table of rows, found by their indices as in a list;
exports, fixups and imports are a Walk each. The values of a row are its fields, and properties of it decode its bits, such as
`Symbol.kind`.

`data` is bytes, a bytearray, an mmap, or any other object whose bytes are in one piece. Names and contents are
read-only memoryviews of it. Nothing is copied, and `data` lives for as long as a view of it does. A view compares with
bytes, as in `segment.name == b"__TEXT"`. A name of a bytearray cannot be a key of a dict: use `name.tobytes()`.

THE BYTES MUST NOT CHANGE WHILE A CALL RUNS, or the process may crash. Nobody can change `bytes`. A call holds the GIL,
so other Python threads cannot change a bytearray during it. Code that releases the GIL can, such as `readinto`,
`recv_into` or numpy, and so can any thread of a Python without a GIL. Other programs can change a mapped file: read the
files of strangers into memory, or map only what nobody else can write to or truncate. If the bytes change after the
verdict, every call is still safe, but the verdict says nothing about the new bytes.

As a call holds the GIL, threads do not judge in parallel: use processes for that.

    python3 -m kesvuot check PATH..

is the command `kesvuot`, which judges files and folders (docs/guide/kesvuot.md). As in version 1.0.0,
`python3 -m kesvuot FILE..` judges files alone. With `--json` each of them gives an object with "file" and "verdict":
"accepted", with "slices"; "refused", with "rule" and "place"; or null, with "error". A slice has "place", "size",
"arch" and "is_read", and if it is read also "filetype", "flags", "uuid", "base", "entry", "builds", "libraries",
"segments", each with its "sections", and in "symbols" how many there are.

The library comes from the folder KESVUOT_LIB_DIR if that is set, otherwise from the folder of this package, from `lib`
of the installation or the archive that the package is in, or from where the system finds it. It is loaded by the first
call, which raises ImportError where it is not found. The package needs CPython 3.8 or later.
"""

from . import _interrupts, constants
from ._explanation import Explanation, Part, explain
from ._files import (
    BoundedTable, Dysymtab, File, Image, Refused, Slice, Source, SourceKind, Symtab, arch_name, arch_named,
    command_name, library_version, platform_name, verify, verify_file)
from ._fixups import Authentication, Fixup, Import
from ._rows import (
    Blob, Build, CodeDirectory, Command, DataInCode, Export, Library, Relocation, Section, Segment, Table, Walk)
from ._symbols import Strings, Symbol, SymbolKind, SymbolLibrary

__all__ = ["verify", "verify_file", "explain", "library_version", "arch_name", "arch_named", "command_name",
           "platform_name", "constants", "Refused", "Explanation", "Part", "File", "Slice", "Image", "Source",
           "SourceKind", "Table", "Walk", "Segment", "Section", "Library", "Build", "Command", "Symbol", "SymbolKind",
           "SymbolLibrary", "Strings", "Relocation", "DataInCode", "Blob", "CodeDirectory", "Export", "BoundedTable",
           "Symtab", "Dysymtab", "Fixup", "Import", "Authentication"]
