"""The layout of one file, for people and for JSON."""

from __future__ import annotations

import json
from functools import partial
from itertools import islice
from typing import Any, Dict, Iterator, Optional

from ._check import ACCEPTED, NO_VERDICT, Choice, Outcome
from ._entitlements import Unreadable, entitlement_values
from ._files import File, Image, Slice
from ._layout import (
    Signature, cdhashes_of, disagreements, exports_of, fixups_of, imports_of, layout_objects, libraries_of,
    signatures_of)
from ._named import judge_named
from ._names import (
    FILETYPES, LIBRARIES, count_text, plain, platform_name, protection_text, signature_flags, size_text, version_text)
from ._output import Cells, Output, columns, say
from ._paths import shown
from ._reports import check_object, reason_text
from .constants import LC_LOAD_DYLINKER, LC_RPATH

# The form of the object of JSON (docs/layout.schema.json). A field may be added without a new version.
LAYOUT_VERSION = 1

# How many pieces of JSON are written at once.
PIECES = 4096


def show(name: str, profile: str, as_json: bool, has_all: bool, most_unpacked: int) -> int:
    """Prints the layout of a file by its name, or why it has none, and returns the status."""
    output = Output()
    extra = partial(layout_objects if as_json else _lines, has_all=has_all)
    outcome = judge_named(name, Choice(profile, walks=False, extra=extra, most_unpacked=most_unpacked))
    if as_json:
        pieces = json.JSONEncoder(indent=1).iterencode(_object(outcome, profile))
        for text in iter(lambda: "".join(islice(pieces, PIECES)), ""):
            output.write(text)
        output.write("\n")
    elif outcome.word == ACCEPTED:
        output.write(f"{shown(outcome.path)}: accepted, {size_text(outcome.size)}, {count_text(outcome.slices, 'slice')}\n")
        for line in outcome.extra:
            output.write(f"{line}\n".replace(" \n", "\n"))
    elif outcome.word == NO_VERDICT:
        say(f"{shown(outcome.path)}: {outcome.reason}")
    else:
        output.write(f"{shown(outcome.path)}: {reason_text(outcome)}\n")
    output.flush()
    return outcome.status


def _object(outcome: Outcome, profile: str) -> Dict[str, Any]:
    whole = {"schema": "kesvuot-layout", "version": LAYOUT_VERSION, "profile": profile, **check_object(outcome)}
    if outcome.word == ACCEPTED:
        whole["slices"] = outcome.extra
    return whole


def _lines(file: File, has_all: bool) -> Iterator[str]:
    for part in file.slices:
        yield ""
        yield from _slice_lines(part, has_all)


def _slice_lines(part: Slice, has_all: bool) -> Iterator[str]:
    kind = FILETYPES.get(part.filetype, "") if isinstance(part, Image) else "image that is not judged"
    yield f"slice {part.index}: {part.arch} {kind}, {size_text(len(part.bytes))} at {part.place:#x}"
    if isinstance(part, Image):
        yield from columns(partial(_properties, part))
        if len(part.segments):
            yield ""
            yield from columns(partial(_segments, part))
        if libraries_of(part):
            yield ""
            yield from columns(partial(_libraries, part))
        for rows in (_exports, _imports, _fixups) if has_all else ():
            yield ""
            yield from columns(partial(rows, part))


def _properties(image: Image) -> Iterator[Cells]:
    if image.uuid:
        yield "uuid", str(image.uuid).upper()
    for build in image.builds:
        yield "platform", (f"{platform_name(build.platform)} {version_text(build.minos)} or later, "
                           f"SDK {version_text(build.sdk)}")
    for command in image.commands:
        if command.cmd == LC_LOAD_DYLINKER:
            yield "linker", plain(command.name)
        elif command.cmd == LC_RPATH:
            yield "run path", plain(command.name)
    if image.symtab:
        yield "symbols", str(image.symtab.nsyms)
    entry = image.thread_entry if image.entry is None else image.entry
    yield "entry", "none" if entry is None else f"{entry:#x}"
    signatures = signatures_of(image)
    yield "signature", signature_text(signatures[0]) if signatures else "none"
    for other in signatures[1:]:
        for name, value in disagreements(signatures[0], other).items():
            text = flags_text(value) if name == "flags" else f'"{value}"' if value else "none"
            yield "disagrees", f"the directory of slot {other.slot:#x} has the {name} {text}"
    for cdhash in cdhashes_of(image):
        yield "cdhash", f"{cdhash.hash_type} {cdhash.cdhash}"
    yield from _entitlements(image)


def signature_text(signature: Signature) -> str:
    """The quotes keep a name apart from what follows it: `plain` leaves none in a name."""
    identifier = f'"{signature.identifier}"' if signature.identifier else "no identifier"
    team = f', team "{signature.team}"' if signature.team else ""
    return (f"{identifier}{team}, flags {flags_text(signature.flags)}, {signature.hash_type}, by the directory of slot "
            f"{signature.slot:#x}")


def flags_text(flags: int) -> str:
    return f"{flags:#x} ({', '.join(signature_flags(flags)) or 'none'})"


def _entitlements(image: Image) -> Iterator[Cells]:
    try:
        for name, value in entitlement_values(image).items():
            yield "entitlement", f"{json.dumps(name)[1:-1]}: {json.dumps(value)}"
    except Unreadable as error:
        yield "entitlements", f"cannot be read: {error}"


def _exports(image: Image) -> Iterator[Cells]:
    yield "export", "address", "what"
    for export in exports_of(image):
        yield export.name, "none" if export.address is None else f"{export.address:#x}", export.what


def _imports(image: Image) -> Iterator[Cells]:
    yield "import", "library", "how"
    for name, _, library, addend, weak in imports_of(image):
        yield name, library, _how(addend, weak)


def _fixups(image: Image) -> Iterator[Cells]:
    yield "fixup", "address", "what", "target", "library", "how"
    names = [plain(segment.name) for segment in image.segments]
    for row in fixups_of(image):
        bound = (row.name or "", row.library or "") if row.target is None else (f"{row.target:#x}", "")
        yield (f"{names[row.segment]}+{row.offset:#x}", f"{row.address:#x}", "bind" if row.target is None else "rebase",
               *bound, _how(row.addend, row.weak, row.key, row.diversity, row.address_diversity))


def _how(addend: Optional[int], weak: Optional[bool], key: Optional[str] = None, diversity: Optional[int] = None,
         has_address: Optional[bool] = None) -> str:
    """What else is said of an import or of a pointer."""
    words = [f"addend {addend}"] if addend else []
    words += ["weak"] if weak else []
    words += [f"key {key}", f"diversity {diversity:#x}"] if key else []
    return ", ".join(words + (["address diversity"] if has_address else []))


def _segments(image: Image) -> Iterator[Cells]:
    yield "segment", "address", "size", "in the slice", "size there", "protection"
    for segment in image.segments:
        source = (f"{segment.fileoff:#x}", size_text(segment.filesize)) if segment.filesize else ("nothing", "")
        yield (plain(segment.name), f"{segment.vmaddr:#x}", size_text(segment.vmsize), *source,
               protection_text(segment.initprot))
        for section in image.sections_of(segment):
            place = "zeros" if section.zero_fill else f"{section.offset:#x}"
            yield f"  {plain(section.name)}", f"{section.addr:#x}", size_text(section.size), place


def _libraries(image: Image) -> Iterator[Cells]:
    yield "library", "version", "compatible", "how"
    for library in libraries_of(image):
        yield (plain(library.name), version_text(library.current), version_text(library.compatible),
               LIBRARIES.get(library.cmd, f"{library.cmd:#x}"))
