"""What is told of a code signature that breaks a rule. (cs_blobs.h)"""

from __future__ import annotations

import hashlib
from typing import Any, Callable, Dict, Iterator, NamedTuple, Tuple

from ._explanation import Part as FilePart
from ._names import HASH_TYPES, count_text
from ._structures import DIRECTORY_SIZES, directory_size, number_in
from ._teller import MOST_STEPS, Story, Teller
from .constants import CSMAGIC_CODEDIRECTORY, CSMAGIC_EMBEDDED_SIGNATURE

SUPERBLOB_SIZE, ENTRY_SIZE, DIRECTORY_SIZE = 12, 8, 44
# The bytes of a hash, by its type.
HASH_SIZES = {1: 20, 2: 32, 3: 20, 4: 48}
MOST_PAGE_SIZE = 31
SUPPORTS_SCATTER, SUPPORTS_TEAM, SUPPORTS_LIMIT_64 = 0x20100, 0x20200, 0x20300
SUPPORTS_RUNTIME, SUPPORTS_LINKAGE = 0x20500, 0x20600

# What the blobs in special slots are, CSSLOT_*.
SPECIAL_SLOTS = {2: "the requirements", 5: "the entitlements", 7: "the entitlements in DER",
                 **dict.fromkeys((8, 9, 10), "a launch constraint"), 11: "a library constraint"}
# What makes the hashes of a type. Of SHA-256 that is cut, the directory has fewer bytes.
HASHES: Dict[int, Callable[[memoryview], Any]] = {
    1: hashlib.sha1, 2: hashlib.sha256, 3: hashlib.sha256, 4: hashlib.sha384}
# So many bytes at least are shown of a hash.
SHOWN_OF_HASH = 8

# Whether something is wrong, what is said of it, and what the two numbers are.
Fault = Tuple[bool, str, str, str]


def signature_blob(it: Teller) -> Story:
    return _superblob(it) if it.at_part.kind == "byte" else _blob(it)


def _superblob(it: Teller) -> Story:
    size = it.first_part.size
    if size < SUPERBLOB_SIZE:
        return it.story(f"{it.first} has {count_text(size, 'byte')}, and a superblob has at least {SUPERBLOB_SIZE}.",
                        "size of the table", "least size")
    data = it.case.data[it.first_part.start:]
    if number_in(data, "CS_SuperBlob", "magic") != CSMAGIC_EMBEDDED_SIGNATURE:
        return it.story(f"{it.first} begins with the magic number {it.value:#x}, and a superblob with {it.limit:#x}.",
                        "magic", "CSMAGIC_EMBEDDED_SIGNATURE")
    if number_in(data, "CS_SuperBlob", "length") > size:
        return it.story(f"the superblob has {count_text(it.value, 'byte')}, as its length says, and {it.first} has "
                        f"{it.limit}.", "length", "size of the table")
    count = number_in(data, "CS_SuperBlob", "count")
    return it.story(f"with a count of {count} the entries of the superblob end at {it.value:#x}, past its end, "
                    f"{it.limit:#x}.", "12 + 8 * count", "length")


def _blob(it: Teller) -> Story:
    offset = number_in(it.case.data[it.at_part.start:], "CS_BlobIndex", "offset")
    if it.value == offset and offset < it.limit:
        before = "the entries end" if it.second_part.kind == "table" else f"{it.second} ends"
        return it.story(f"{it.first} begins at {offset:#x} of the superblob, and {before} at {it.limit:#x}.", "offset",
                        "end of what is before")
    if not it.second:
        return it.story(f"{it.first} has {count_text(it.value, 'byte')}, as its length says, and each has at least "
                        f"{it.limit}.", "length", "least length")
    return it.story(f"{it.first} ends at {it.value:#x} of the superblob, past its end, {it.limit:#x}.", "end of the blob",
                    "length of the superblob")


class _Directory:
    """The fields of a code directory, as far as it has bytes for them."""

    def __init__(self, it: Teller) -> None:
        self.data = it.case.data[it.first_part.start:it.first_part.end]

    def __getitem__(self, name: str) -> int:
        return number_in(self.data, "CS_CodeDirectory", name)

    @property
    def limit(self) -> int:
        limit = self["codeLimit64"] if self["version"] >= SUPPORTS_LIMIT_64 else 0
        return limit or self["codeLimit"]

    def lacks_end(self, name: str) -> bool:
        """Whether the name at an offset in a field does not end in the blob."""
        return self[name] != 0 and 0 not in bytes(self.data[self[name]:])


def signature_directory(it: Teller) -> Story:
    if it.at_part.kind == "byte":
        return it.story(f"no entry of {it.first} has the slot 0, which is that of the code directory.",
                        "code directories", "least number of them")
    for is_wrong, says, value, limit in _faults(it, _Directory(it)):
        if is_wrong:
            return it.story(says, value, limit)
    raise AssertionError(it.first)


def _faults(it: Teller, found: _Directory) -> Iterator[Fault]:
    """What can be wrong with a code directory, in the order in which it is looked at."""
    size, version, value = len(found.data), found["version"], it.value
    has = f"{it.first} has {count_text(size, 'byte')}"
    yield (found["magic"] != CSMAGIC_CODEDIRECTORY,
           f"{it.first} begins with the magic number {value:#x}, and a code directory with {it.limit:#x}.", "magic",
           "CSMAGIC_CODEDIRECTORY")
    yield (size < DIRECTORY_SIZE, f"{has}, and a code directory at least {it.limit}.", "length", "least length")
    yield (version < min(DIRECTORY_SIZES), f"{it.first} is of version {version:#x}, and the least one is {it.limit:#x}.",
           "version", "least version")
    fields = directory_size(version)
    yield (size < fields, f"{has}, and the fields of version {version:#x} have {it.limit}.", "length", "size of the fields")
    yield (version >= SUPPORTS_SCATTER and found["scatterOffset"] != 0,
           f"{it.first} is for scattered pages, by its scatterOffset {value:#x}.", "scatterOffset", "")
    yield (found["hashType"] not in HASH_SIZES, f"{it.first} has hashes of type {value}, which is not known.", "hashType",
           "greatest hashType")
    yield (found["hashSize"] != HASH_SIZES.get(found["hashType"]),
           f"{it.first} has hashes of {count_text(value, 'byte')}, and those of its type have {it.limit}.", "hashSize",
           "bytes of such a hash")
    yield (found["pageSize"] > MOST_PAGE_SIZE, f"{it.first} has pages of 2^{value} bytes, and the most is 2^{it.limit}.",
           "pageSize", "greatest pageSize")
    special = found["nSpecialSlots"] * found["hashSize"]
    yield (special > found["hashOffset"],
           f"the special hashes of {it.first} have {count_text(value, 'byte')}, and begin before the blob: hashOffset is "
           f"{it.limit:#x}.", "nSpecialSlots * hashSize", "hashOffset")
    yield (found["hashOffset"] + found["nCodeSlots"] * found["hashSize"] > size,
           f"the hashes of {it.first} end at {value:#x}, past its end, {it.limit:#x}.", "end of the hashes", "length")
    yield (bool(it.second), f"{it.first} covers the bytes up to {value:#x}, past {it.limit:#x}, where the signature begins.",
           "limit of the code", "dataoff")
    pages = -(-found.limit // (1 << found["pageSize"])) if found["pageSize"] else min(found.limit, 1)
    yield (found["nCodeSlots"] != pages,
           f"{it.first} has hashes of {count_text(value, 'page')}, and the bytes up to {found.limit:#x} have {it.limit}.",
           "nCodeSlots", "pages of the code")
    for name, what in (("identOffset", "identifier"), ("teamOffset", "team")):
        yield (found.lacks_end(name) and (name == "identOffset" or version >= SUPPORTS_TEAM),
               f"the {what} at {value:#x} of {it.first} does not end in it.", name, "length")
    earlier = found["preEncryptOffset"]
    yield (version >= SUPPORTS_RUNTIME and earlier != 0 and earlier + found["nCodeSlots"] * found["hashSize"] > size,
           f"the hashes before encryption of {it.first} end at {value:#x}, past its end, {it.limit:#x}.",
           "preEncryptOffset + nCodeSlots * hashSize", "length")
    yield (version >= SUPPORTS_LINKAGE and found["linkageOffset"] + found["linkageSize"] > size,
           f"the linkage of {it.first} ends at {value:#x}, past its end, {it.limit:#x}.", "linkageOffset + linkageSize",
           "length")


def signature_whole(it: Teller) -> Story:
    return it.story(f"{it.first} covers the bytes up to {it.value:#x}, and the signature begins at {it.limit:#x}.",
                    "limit of the code", "dataoff")


# The sealed profile


def signature_missing(it: Teller) -> Story:
    says = f"{it.first} names no bytes" if it.first else "the image has no LC_CODE_SIGNATURE"
    return it.story(f"{says}, and so no code directory.", "code directories", "least number of them")


def directory_repeated(it: Teller) -> Story:
    return it.story(f"{it.first} and {it.second} are code directories of one slot, {it.value:#x}.", "slot")


class _Blob(NamedTuple):
    """An entry of a superblob, by its index, and where its blob begins and ends in the file."""

    index: int
    start: int
    end: int


def _blobs(data: memoryview, table: FilePart) -> Iterator[_Blob]:
    """The blobs of a signature, in which each lies past the one before it."""
    count = number_in(data[table.start:], "CS_SuperBlob", "count")
    for index in range(min(count, table.size // ENTRY_SIZE)):
        entry = table.start + SUPERBLOB_SIZE + ENTRY_SIZE * index
        start = table.start + number_in(data[entry:], "CS_BlobIndex", "offset")
        yield _Blob(index, start, start + number_in(data[start:], "CS_GenericBlob", "length"))


def signature_slack(it: Teller) -> Story:
    end = it.first_part.end
    if it.case.place >= end:
        return it.story(f"the byte {it.value:02x} is past {it.first}, which ends at {end:#x}: no hash is of it.", "byte")
    sides: Dict[str, int] = {}
    is_short = number_in(it.case.data[it.first_part.start:], "CS_SuperBlob", "count") <= MOST_STEPS
    for blob in _blobs(it.case.data, it.first_part) if is_short else ():
        if blob.end <= it.case.place:
            sides["after"] = blob.index
        else:
            sides.setdefault("before", blob.index)
    where = " and ".join(f"{word} the blob of entry {index}" for word, index in sides.items())
    return it.story(f"the byte {it.value:02x} is in no blob of {it.first}{where and f': it is {where}'}.", "byte")


def signature_hash(it: Teller) -> Story:
    if it.case.is_of_page:
        return it.story(_compared(it, it.first), "page", "nCodeSlots")
    what = SPECIAL_SLOTS.get(it.value)
    blob = f"{it.first} ({what})" if what else it.first
    if it.second_part.kind == "code-hash":
        return it.story(_compared(it, blob), "slot", "nSpecialSlots")
    return it.story(f"{blob} is in special slot {it.value}, and {it.second}, a code directory, has hashes of "
                    f"{count_text(it.limit, 'special slot')}.", "slot", "nSpecialSlots")


def _compared(it: Teller, what: str) -> str:
    """The hash of a part, and the one in the directory: as many bytes of each as show that they differ."""
    data, first, second = it.case.data, it.first_part, it.second_part
    kind = number_in(data[second.described:], "CS_CodeDirectory", "hashType")
    wanted = data[second.start:second.end].tobytes()
    found = HASHES[kind](data[first.start:first.end]).digest()[:len(wanted)]
    size = SHOWN_OF_HASH
    while size < len(wanted) and found[:size] == wanted[:size]:
        size += 1
    return (f"the {HASH_TYPES[kind]} hash of {what} begins with {found[:size].hex()}, and the one in the code directory "
            f"at {second.described:#x} with {wanted[:size].hex()}.")
