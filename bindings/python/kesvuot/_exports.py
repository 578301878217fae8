"""All exports of an image, by a walk over its export trie."""

from __future__ import annotations

import ctypes
from typing import Any, Iterator, List, Optional, Tuple

from . import _library, _rows
from ._library import EXPORT, EXPORT_EDGE, EXPORT_NODE, SPAN, Bytes, load
from ._rows import Export

# The most edges of a node: one byte counts them.
MOST_EDGES = 255

# A node that is to be met: its offset in the trie, how many bytes of the name of the node before it lead to it, and the
# label that follows them.
Waiting = Tuple[int, int, memoryview]


class _Trie:
    """The export trie of an image, by the library."""

    def __init__(self, data: Bytes, image: Any) -> None:
        self._data, self._image = data, image
        self._span = ctypes.create_string_buffer(SPAN.size)
        self._node = ctypes.create_string_buffer(EXPORT_NODE.size)
        self._edges = ctypes.create_string_buffer(MOST_EDGES * EXPORT_EDGE.size)
        status = load().kesvuot_find_export_trie(data.address, len(data), image, self._span)
        self.size: int = SPAN.unpack(self._span)[1] if status == _library.OK else 0

    def read(self, offset: int) -> Optional[Tuple[Optional[Export], int, List[Tuple[int, memoryview]]]]:
        """The export of the node at an offset, the offset past its last edge, and where its edges lead, with their
        labels. None if it does not end in the trie."""
        data, library = self._data, load()
        if library.kesvuot_read_export_node(
                data.address, len(data), self._image, self._span, ctypes.c_uint64(offset), self._node) != _library.OK:
            return None
        *_, place, commands, segment, items, has_export = EXPORT_NODE.unpack(self._node)
        export = _rows.export_of(data, self._node[:EXPORT.size]) if has_export else None
        cursor = ctypes.create_string_buffer(_library.CURSOR.pack(place, commands, segment, items), _library.CURSOR.size)
        count = library.kesvuot_read_export_edges(data.address, len(data), self._span, cursor, self._edges, MOST_EDGES)
        end, _, _, left = _library.CURSOR.unpack(cursor)
        if left:
            return None
        rows = EXPORT_EDGE.iter_unpack(self._edges[:count * EXPORT_EDGE.size])
        return export, end, [(child, data.part(start, size)) for start, size, child in rows]


def exports(data: Bytes, image: Any) -> Iterator[Tuple[bytes, Export]]:
    """The exports of an image with their names. The nodes that are met have no more bytes than the trie."""
    trie = _Trie(data, image)
    left, name = trie.size, bytearray()
    waiting: List[Waiting] = [(0, 0, data.part(0, 0))] if left else []
    while waiting:
        offset, shared, label = waiting.pop()
        name[shared:] = label
        node = trie.read(offset)
        if node is None:
            return
        export, end, edges = node
        left -= end - offset
        if left < 0:
            return
        waiting.extend((child, len(name), label) for child, label in reversed(edges))
        if export is not None:
            yield bytes(name), export
