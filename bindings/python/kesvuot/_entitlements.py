"""The entitlements of an image: what its code signature lets it do, by the property list and by the DER in it."""

from __future__ import annotations

import plistlib
import re
from typing import Any, Dict, Iterator, Tuple

from ._files import Image
from ._names import plain
from .constants import (
    CSMAGIC_EMBEDDED_DER_ENTITLEMENTS, CSMAGIC_EMBEDDED_ENTITLEMENTS, CSSLOT_DER_ENTITLEMENTS, CSSLOT_ENTITLEMENTS)

# The magic numbers of the blobs, by their slots.
MAGICS = {CSSLOT_ENTITLEMENTS: CSMAGIC_EMBEDDED_ENTITLEMENTS,
          CSSLOT_DER_ENTITLEMENTS: CSMAGIC_EMBEDDED_DER_ENTITLEMENTS}
# The magic and the length of a blob.
HEAD = 8
# Longer ones are not read. Those of real programs have some kilobytes.
MOST_BYTES = 1 << 20
# No value that is shown is deeper, and no number longer.
MOST_DEPTH, MOST_BITS = 64, 64
# What begins an entity, which can stand for a text of any length.
ENTITY = "<!ENTITY"
XML_ENCODING = re.compile(r"\ufeff?\s*<\?xml[^>]*\bencoding\s*=\s*[\"']([^\"']*)[\"']")
PLAIN_ENCODINGS = ("utf-8", "us-ascii", "ascii")

# Tags of DER: of what is around the entitlements, of their version, of dictionaries and their pairs, and of values.
OUTER, INTEGER, DICTIONARIES, PAIR, STRING, BOOLEAN = 0x70, 0x02, (0xB0, 0x31), 0x30, 0x0C, 0x01


class Unreadable(Exception):
    """Entitlements cannot be read, for this reason."""


class _Names(Dict[str, Any]):
    """A dictionary that takes each name once: of two values one reader takes the first, and another the last."""

    def __setitem__(self, name: str, value: Any) -> None:
        if name in self:
            raise Unreadable("a name is there twice")
        super().__setitem__(name, value)


def entitlements_of(image: Image) -> Dict[str, Any]:
    """The entitlements by their names. Their values are those of the property list; DER tells false from all others.
    A name in several blobs has the value that lets more. Raises Unreadable."""
    found: Dict[str, Any] = {}
    for blob in image.blobs:
        magic = MAGICS.get(blob.slot)
        if magic is None:
            continue
        if blob.magic != magic:
            raise Unreadable(f"the magic of their blob is {blob.magic:#x}")
        if len(blob.bytes) - HEAD > MOST_BYTES:
            raise Unreadable(f"they have more than {MOST_BYTES} bytes")
        read = read_xml if blob.slot == CSSLOT_ENTITLEMENTS else read_der
        for name, value in read(bytes(blob.bytes[HEAD:])).items():
            if found.get(name, False) is False:
                found[name] = value
    return found


def entitlement_values(image: Image) -> Dict[str, Any]:
    """The same, with values of JSON: bytes in hexadecimal, and dates, fractions and long numbers as texts."""
    return {_text(name): _plain_value(value) for name, value in entitlements_of(image).items()}


def _text(text: str) -> str:
    """A text without halves of letters, for which it has the numbers of the bytes."""
    return text.encode("utf-8", "surrogateescape").decode("utf-8", "backslashreplace")


def _plain_value(value: Any, depth: int = 0) -> Any:
    if depth > MOST_DEPTH:
        raise Unreadable("a value in them is too deep")
    if isinstance(value, dict):
        return {_text(str(name)): _plain_value(it, depth + 1) for name, it in value.items()}
    if isinstance(value, list):
        return [_plain_value(it, depth + 1) for it in value]
    if isinstance(value, bytes):
        return value.hex()
    if isinstance(value, int) and value.bit_length() > MOST_BITS:
        return f"{value:#x}"
    return value if isinstance(value, (str, int)) else str(value)


def read_xml(data: bytes) -> Dict[str, Any]:
    """Those of a property list. Nothing in it stands for something else."""
    if not data:
        return {}
    try:
        text = data.decode("utf-8")
    except UnicodeDecodeError:
        raise Unreadable("their property list is not in UTF-8") from None
    encoding = XML_ENCODING.match(text)
    if "\0" in text or (encoding and encoding[1].lower() not in PLAIN_ENCODINGS):
        raise Unreadable("their property list is not in UTF-8")
    if ENTITY in text:
        raise Unreadable("their property list has entities")
    try:
        whole = plistlib.loads(data, fmt=plistlib.FMT_XML, dict_type=_Names)
    except MemoryError:
        raise
    except Exception as error:  # pylint: disable=broad-except # plistlib raises what its steps raise
        why = plain(memoryview((str(error) or type(error).__name__).encode("utf-8", "replace")))
        raise Unreadable(f"their property list is malformed: {why}") from None
    if not isinstance(whole, dict) or not all(isinstance(name, str) for name in whole):
        raise Unreadable("their property list is not a dictionary")
    return whole


def read_der(data: bytes) -> Dict[str, Any]:
    """Those of DER: true, or false where that is the value."""
    if not data:
        return {}
    items = list(_items(data))
    if len(items) == 1 and items[0][0] == OUTER:
        items = [item for item in _items(items[0][1]) if item[0] != INTEGER]
    if len(items) != 1 or items[0][0] not in DICTIONARIES:
        raise Unreadable("their DER is not a dictionary")
    found = _Names()
    for tag, content in _items(items[0][1]):
        name, value = _pair(tag, content)
        found[name] = value
    return found


def _pair(tag: int, content: bytes) -> Tuple[str, bool]:
    items = list(_items(content)) if tag == PAIR else []
    if len(items) != 2 or items[0][0] != STRING:
        raise Unreadable("their DER has an item that is not a name with a value")
    return items[0][1].decode("utf-8", "surrogateescape"), items[1] != (BOOLEAN, b"\0")


def _items(data: bytes) -> Iterator[Tuple[int, bytes]]:
    """The items of DER, each with its tag and its content."""
    place = 0
    while place < len(data):
        head = data[place:place + 2]
        start = place + 2
        size = head[1] if len(head) == 2 else len(data)
        if size & 0x80 and len(head) == 2:
            count = size & 0x7F
            size = int.from_bytes(data[start:start + count], "big") if 0 < count <= 4 else len(data)
            start += count
        if start + size > len(data):
            raise Unreadable("their DER has an item that passes its end")
        yield head[0], data[start:start + size]
        place = start + size
