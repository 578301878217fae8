"""The Mach-O files in archives: the members of zip and tar, and of archives among these. Each is judged out of memory,
and nothing is written.

One process walks an archive, and looks at the first bytes of each member. What can be read at any offset of a file is
read again by the process that judges it: a member goes there as its place. All else is unpacked here.
"""

from __future__ import annotations

import os
import re
import stat
from array import array
from collections import defaultdict
from functools import partial
from posixpath import normpath
from typing import Callable, DefaultDict, Iterator, NamedTuple, Optional, Tuple, Union

from ._paths import SEPARATOR
from ._reading import (
    JUDGED_MAGICS, LIMIT, MACH_O_MAGICS, PIECE_SIZE, Stamp, Stamps, Unread, is_stub, read_given, read_head, stamp_of,
    too_long)
from ._reading import Contents as FileContents
from ._streams import (
    BZIP2, GZIP, MOST_SIZE, STORED, XZ, Allowance, File, Flow, Memory, Packed, Source, Spent, Stream, Unpacking, Window,
    unpack)
from ._tar import BLOCK_SIZE, TarMember, is_tar, tar_members
from ._zip import EMPTY, MEMBER, ZipMember, zip_count, zip_members

# How many archives may be one in the other.
MOST_DEPTH = 3
# How much of archives is unpacked, if the user does not say.
MOST_UNPACKED = 1 << 34
# As many bytes tell an archive.
HEAD_SIZE = BLOCK_SIZE
ZIP, TAR = "zip", "tar"
COMPRESSED = ((re.compile(rb"\x1f\x8b\x08"), GZIP), (re.compile(rb"\xfd7zXZ\0"), XZ),
              (re.compile(rb"BZh[1-9](?:1AY&SY|\x17rE8P\x90)"), BZIP2))
FAULTS = (Unread, OSError, MemoryError)
NO_STAMP = Stamp(0, 0, 0, 0)


class Place(NamedTuple):
    """A member in a file, with the stamp of the file."""

    path: str
    stamp: Stamp
    packed: Packed


class Begun(NamedTuple):
    """Standard input, of which these bytes are read."""

    head: bytes


Contents = Union[bytes, bytearray, Place, Begun]


class Member(NamedTuple):
    """A member: a Mach-O file with its contents, or another one that is judged all the same; what is compressed, of this
    kind; or what cannot be read, by a fault. Anything else is no Mach-O."""

    path: str
    contents: Optional[Contents] = None
    kind: str = ""
    fault: Optional[Exception] = None


class Wanted(NamedTuple):
    """Which members the user wants: by the path of each, and of the folders in the archive that it is in. Which of them
    are named, so that they are judged whatever they are. And whether all their bytes are wanted, also where the first
    ones decide."""

    is_left_out: Callable[[str], bool]
    is_asked_for: Callable[[str], bool]
    is_named: Callable[[str], bool] = lambda path: False
    has_all_bytes: bool = False


# What is an archive


class Container(NamedTuple):
    """An archive that can be read; or a file that is compressed, and no archive."""

    kind: str
    stream: Stream


def container_in(stream: Stream, allowance: Allowance) -> Optional[Container]:
    """What the stream has, if that is an archive or a compressed Mach-O. Raises Unread if it is compressed, and cannot
    be unpacked."""
    head = stream.peek(HEAD_SIZE)
    found = _archive_kind(head)
    compression = next((kind for beginning, kind in COMPRESSED if beginning.match(head)), None)
    if found or not compression:
        return Container(found, stream) if found else None
    unpacking = Unpacking(stream, compression, allowance)
    inner = Flow(unpacking.pieces(), unpacking)
    head = inner.peek(HEAD_SIZE)
    found = f"{compression} of a Mach-O" if head[:4] in MACH_O_MAGICS else _archive_kind(head)
    return Container(found, inner) if found else None


def _archive_kind(head: bytes) -> str:
    if head[:4] in MACH_O_MAGICS:
        return ""
    return ZIP if head.startswith((MEMBER, EMPTY)) else TAR if is_tar(head) else ""


# Archives


class Archive:
    """A file that is an archive. `file` is the source that `stream` reads, if it can be read at any offset."""

    def __init__(self, path: str, file: Optional[File], container: Optional[Container],
                 fault: Optional[Exception] = None) -> None:
        self.path = path
        self.file = file
        self.container = container
        self.fault = fault
        # Whether a member was met that is judged, or cannot be.
        self.has_image = fault is not None

    def members(self, wanted: Wanted, allowance: Allowance) -> Iterator[Member]:
        """The members, in their order, and those of archives among them."""
        try:
            if self.fault:
                yield Member(self.path, fault=self.fault)
            elif self.container:
                yield from _Walk(self, wanted, allowance).archive(self.container, self.path, 1)
        except Exception as fault:  # pylint: disable=broad-except # one archive without a verdict is not all of them
            self.has_image = True
            yield Member(self.path, fault=fault)
        finally:
            self.close()

    @property
    def is_packed(self) -> bool:
        """Whether it is a file that has to be unpacked from its beginning on."""
        return self.path != "-" and self.container is not None and isinstance(self.container.stream, Flow)

    def count(self) -> int:
        """How many members there are, as far as that is known without a walk. Then it is closed."""
        try:
            stream = self.container.stream if self.container and self.container.kind == ZIP else None
            return zip_count(stream) if isinstance(stream, Window) else 1
        except FAULTS:
            return 1
        finally:
            self.close()

    def close(self) -> None:
        if self.file and self.path != "-":
            os.close(self.file.descriptor)


def archive_at(path: str, is_found: bool, allowance: Allowance) -> Union[Archive, Begun, None]:
    """The archive at a path, by its first bytes. None if there is none, or the path cannot be read. Of standard input
    that is no archive some bytes may have been read."""
    try:
        if path == "-":
            return _input(allowance)
        flags = os.O_NOFOLLOW | os.O_NONBLOCK if is_found else 0
        # Opening a device may do something, and opening a pipe waits for its writer.
        if not is_found and not stat.S_ISREG(os.stat(path).st_mode):
            return None
        descriptor = os.open(path, os.O_RDONLY | os.O_CLOEXEC | os.O_NOCTTY | flags)
    except OSError:
        return None
    archive = _archive_of(path, descriptor, 0, allowance)
    if archive is None:
        os.close(descriptor)
    return archive


def archive_kind(path: str, head: bytes) -> str:
    """What kind of archive a file is, or how it is compressed, if it is either: standard input by its first bytes,
    which were read."""
    allowance = Allowance(MOST_UNPACKED)
    try:
        if path == "-":
            container = container_in(Window(Memory(head), 0, len(head)), allowance)
        else:
            archive = archive_at(path, False, allowance)
            container = archive.container if isinstance(archive, Archive) else None
            if isinstance(archive, Archive):
                archive.close()
    except (*FAULTS, Spent):
        return ""
    return container.kind if container else ""


def _archive_of(path: str, descriptor: int, start: int, allowance: Allowance) -> Optional[Archive]:
    known = os.fstat(descriptor)
    if not stat.S_ISREG(known.st_mode):
        return None
    file = File(descriptor)
    try:
        container = container_in(Window(file, start, max(known.st_size - start, 0)), allowance)
    except (*FAULTS, Spent) as fault:
        return Archive(path, file, None, fault)
    return container and Archive(path, file, container)


def _input(allowance: Allowance) -> Union[Archive, Begun, None]:
    if stat.S_ISREG(os.fstat(0).st_mode):
        archive = _archive_of("-", 0, os.lseek(0, 0, os.SEEK_CUR), allowance)
        if archive:
            # The next reader is at its end.
            os.lseek(0, 0, os.SEEK_END)
        return archive
    head = read_head(0)
    if head[:4] in MACH_O_MAGICS:
        return Begun(head)
    stream = Flow(iter(partial(os.read, 0, PIECE_SIZE), b""))
    stream.kept = head
    try:
        container = container_in(stream, allowance)
    except (*FAULTS, Spent) as fault:
        return Archive("-", None, None, fault)
    return Archive("-", None, container) if container else Begun(stream.peek(len(stream.kept)))


# Members


class Entry(NamedTuple):
    """A member in its archive: what it has, its mode, and where it is in a source, if the archive can be read at any
    offset."""

    stream: Stream
    mode: int
    source: Optional[Source] = None
    packed: Optional[Packed] = None

    @property
    def is_judged(self) -> bool:
        """Whether it is a Mach-O file, or should be one."""
        head = self.stream.peek(4)
        return head in MACH_O_MAGICS or (is_stub(head, self.mode) and self.is_regular)

    @property
    def is_regular(self) -> bool:
        """Whether it is no link, whose contents are where it leads to."""
        return stat.S_IFMT(self.mode) in (0, stat.S_IFREG)


class _Hashes:
    """Names, of each no more than a hash."""

    BUCKETS = 4096

    def __init__(self) -> None:
        self.buckets: DefaultDict[int, "array[int]"] = defaultdict(partial(array, "Q"))

    def _bucket(self, name: str) -> Tuple[int, "array[int]"]:
        number = (hash(name) & (1 << 63) - 1) << 1
        return number, self.buckets[number // 2 % self.BUCKETS]

    def has(self, name: str, is_judged: bool) -> bool:
        """Whether a member before it has this name, and one of the two is judged."""
        number, bucket = self._bucket(name)
        return number | 1 in bucket or (is_judged and number in bucket)

    def add(self, name: str, is_judged: bool) -> None:
        number, bucket = self._bucket(name)
        bucket.append(number | is_judged)


class _Names:
    """The names of the members of an archive, and in lower case those that have a capital letter."""

    def __init__(self) -> None:
        self.names, self.lowered = _Hashes(), _Hashes()

    def add(self, name: str, is_judged: bool) -> str:
        """Adds a name. Returns what is told if a member before it has this name, or one that is the same where cases do
        not differ, and one of the two is judged."""
        name = normpath(name)
        lower = name.casefold()
        is_repeated = self.names.has(name, is_judged)
        is_alike = self.lowered.has(lower, is_judged) or (lower != name and self.names.has(lower, is_judged))
        self.names.add(name, is_judged)
        if lower != name:
            self.lowered.add(lower, is_judged)
        if is_repeated:
            return "another member has its name"
        return "the name of another member differs in case alone" if is_alike else ""


class _Walk:
    def __init__(self, archive: Archive, wanted: Wanted, allowance: Allowance) -> None:
        self.path = archive.path
        self.opened = archive
        self.file = archive.file
        self.stamp = stamp_of(os.fstat(archive.file.descriptor)) if archive.file else NO_STAMP
        self.wanted = wanted
        self.allowance = allowance

    def archive(self, container: Container, path: str, depth: int) -> Iterator[Member]:
        """The members of an archive. `depth` counts it and the archives around it."""
        names = _Names()
        if container.kind not in (ZIP, TAR):
            self.opened.has_image = True
            yield Member(path, kind=container.kind)
            return
        try:
            for name, take in (self._zip if container.kind == ZIP else self._tar)(container.stream):
                yield from self._member(f"{path}{SEPARATOR}{name}", name, take, depth, names)
            if isinstance(container.stream, Flow):
                # Compressed data is checked at its end.
                container.stream.drain()
        except FAULTS as fault:
            yield self._fault(path, fault)

    def _fault(self, path: str, fault: Exception) -> Member:
        self.opened.has_image = True
        return Member(path, fault=fault)

    def _zip(self, stream: Stream) -> Iterator[Tuple[str, Callable[[], Entry]]]:
        if isinstance(stream, Flow):
            data = whole(stream)
            stream = Window(Memory(data), 0, len(data))
        for member in zip_members(stream):
            is_folder = member.name.endswith("/") and member.size == 0
            if not is_folder:
                yield member.name, partial(self._zip_entry, stream, member)

    def _zip_entry(self, archive: Window, member: ZipMember) -> Entry:
        source, packed = archive.source, member.place(archive)
        is_plain = packed.method == STORED and packed.size == packed.packed_size
        stream = Window(source, packed.start, packed.size) if is_plain else self._unpacked(source, packed)
        return Entry(stream, member.mode, source, packed)

    def _unpacked(self, source: Source, packed: Packed) -> Flow:
        return Flow(unpack(source, packed, self.allowance))

    @staticmethod
    def _tar(stream: Stream) -> Iterator[Tuple[str, Callable[[], Optional[Entry]]]]:
        for member in tar_members(stream):
            yield member.name, partial(_tar_entry, stream, member)

    def _member(self, path: str, name: str, take: Callable[[], Optional[Entry]], depth: int,
                names: _Names) -> Iterator[Member]:
        if self.wanted.is_left_out(path):
            return
        if leads_out(name):
            yield self._fault(path, Unread("its name leads out of the archive"))
        is_judged = False
        try:
            entry = take()
            is_image = entry is not None and entry.is_judged
            container = None if is_image or not entry else container_in(entry.stream, self.allowance)
            is_judged = is_image or container is not None
            if container:
                yield from self._inner(container, path, depth)
            elif self.wanted.is_asked_for(path):
                is_image = is_image or (entry is not None and entry.is_regular and self.wanted.is_named(path))
                self.opened.has_image |= is_image
                # No name here has the contents, which can be large: their last owner is whoever judges them.
                yield Member(path, self._contents(entry) if entry and is_image else None)
        except FAULTS as fault:
            yield self._fault(path, fault)
        said = names.add(name, is_judged)
        if said:
            yield self._fault(path, Unread(said))

    def _inner(self, container: Container, path: str, depth: int) -> Iterator[Member]:
        if depth == MOST_DEPTH and container.kind in (ZIP, TAR):
            raise Unread(f"it is an archive in {depth} archives, and not opened")
        return self.archive(container, path, depth + 1)

    def _contents(self, entry: Entry) -> Contents:
        """What a Mach-O file has, or where it is."""
        head = entry.stream.peek(HEAD_SIZE)
        if head[:4] not in JUDGED_MAGICS and not self.wanted.has_all_bytes:
            # It is refused by these bytes.
            return head
        if not entry.source or not entry.packed:
            return whole(entry.stream)
        if entry.packed.size > LIMIT:
            raise too_long()
        if entry.source is not self.file:
            return whole(self._unpacked(entry.source, entry.packed))
        self.allowance.spend(entry.packed.size)
        return Place(self.path, self.stamp, entry.packed)


def _tar_entry(archive: Stream, member: TarMember) -> Optional[Entry]:
    if member.fault:
        raise Unread(member.fault)
    source = archive.source if isinstance(archive, Window) else None
    return Entry(member.stream, member.mode, source, member.packed) if member.stream else None


def leads_out(name: str) -> bool:
    """Whether a name can lead out of the folder into which an archive is unpacked, also where a backslash is a
    slash."""
    has_drive = name[:1].isalpha() and name[1:2] == ":"
    slashed = normpath(name.replace("\\", "/"))
    return has_drive or slashed.startswith("/") or slashed.split("/")[0] == ".."


def whole(stream: Stream) -> bytearray:
    """All bytes of a stream, up to the limit of a file."""
    data = bytearray()
    while True:
        piece = stream.read(PIECE_SIZE)
        if not piece:
            return data
        data += piece
        if len(data) > LIMIT:
            raise too_long()


# In the process that judges


class _Opened:
    """The archive that was read last, which stays open: its members come one after the other."""

    key: Tuple[str, Stamp] = ("", NO_STAMP)
    descriptor = -1


def contents_of(contents: Contents, stamps: Stamps = None) -> FileContents:
    """The bytes of a member. Standard input is read whole if `stamps` are wanted, of which it has none."""
    if isinstance(contents, Begun):
        return read_given("-", stamps=stamps, head=contents.head)
    if not isinstance(contents, Place):
        return contents
    return whole(Flow(unpack(File(_descriptor_of(contents)), contents.packed, first=MOST_SIZE)))


def _descriptor_of(place: Place) -> int:
    if place[:2] != _Opened.key:
        if _Opened.descriptor > 0:
            os.close(_Opened.descriptor)
        _Opened.key, _Opened.descriptor = ("", NO_STAMP), -1
        flags = os.O_RDONLY | os.O_CLOEXEC | os.O_NOCTTY | os.O_NONBLOCK
        _Opened.descriptor = 0 if place.path == "-" else os.open(place.path, flags)
        _Opened.key = place.path, place.stamp
    if stamp_of(os.fstat(_Opened.descriptor)) != place.stamp:
        raise Unread("the archive has changed")
    return _Opened.descriptor
