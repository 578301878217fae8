"""Export tries, read and written by the words of <mach-o/loader.h>: "The symbols exported by a dylib are encoded in a
trie".

A table is a stream of nodes, of which the first is the root. A node begins with the size of what it says of a symbol,
which is 0 if no name ends there. What it says follows. Then come a byte, which is the number of edges, and the edges:
each is a string, which a zero byte ends, and the offset in the table of the node that it leads to. A name is the
strings of a way from the root. All numbers are ULEB128.

A node says flags first. With REEXPORT it then says the ordinal of a library, and the name of the symbol there, which is
empty if it is the same. Otherwise it says an address, and with STUB_AND_RESOLVER that of a resolver. Both count from
the mach_header, but not the address of a symbol of the kind ABSOLUTE.

The readers end on any bytes, as the library does: the nodes that are passed, each counted as often as it is passed,
have at most the bytes of the table. Past that, and where bytes are no node, they raise Malformed or find nothing.
"""

from __future__ import annotations

from os.path import commonprefix
from typing import Iterable, Iterator, List, NamedTuple, Optional, Tuple

from fixtures.table_mutants import WORD, uleb
from kesvuot.constants import (
    EXPORT_SYMBOL_FLAGS_KIND_ABSOLUTE as ABSOLUTE, EXPORT_SYMBOL_FLAGS_KIND_MASK as KIND_MASK,
    EXPORT_SYMBOL_FLAGS_REEXPORT as REEXPORT, EXPORT_SYMBOL_FLAGS_STUB_AND_RESOLVER as STUB_AND_RESOLVER,
    LC_DYLD_EXPORTS_TRIE, LC_DYLD_INFO, LC_DYLD_INFO_ONLY)
from reference.oracle import Image, Malformed, operand


class Export(NamedTuple):
    """What is said of a symbol. What is not said is None."""
    flags: int
    address: Optional[int] = None
    resolver: Optional[int] = None
    ordinal: Optional[int] = None
    name: Optional[bytes] = None


class Node(NamedTuple):
    """A node: what it says, its edges, and how many bytes it has."""
    said: bytes
    edges: List[Tuple[bytes, int]]
    size: int


# Reading


def read_node(table: bytes, offset: int) -> Node:
    """The node at an offset of a table, all of which lies in the table."""
    size, start = operand(table, offset, len(table), "number")
    if start + size >= len(table):
        raise Malformed
    place, edges = start + size + 1, []
    for _ in range(table[start + size]):
        label, end = operand(table, place, len(table), "name")
        child, place = operand(table, end, len(table), "number")
        edges.append((table[label:end - 1], child))
    return Node(table[start:start + size], edges, place - offset)


def read_export(said: bytes) -> Export:
    """What the bytes say of a symbol. More bytes may follow."""
    flags, place = operand(said, 0, len(said), "number")
    first, place = operand(said, place, len(said), "number")
    if flags & REEXPORT:
        name, end = operand(said, place, len(said), "name")
        return Export(flags, ordinal=first, name=said[name:end - 1])
    if flags & STUB_AND_RESOLVER:
        return Export(flags, first, operand(said, place, len(said), "number")[0])
    return Export(flags, first)


def look_up(table: bytes, name: bytes) -> Optional[Export]:
    """What the table says of a name. At each node the first edge whose string begins the rest of the name leads on."""
    place, rest, left = 0, name, len(table)
    try:
        while True:
            node = read_node(table, place)
            left -= node.size
            if left < 0:
                return None
            if not rest and node.said:
                return read_export(node.said)
            label, place = next(edge for edge in node.edges if rest.startswith(edge[0]))
            rest = rest[len(label):]
    except (Malformed, StopIteration):
        return None


def meet_all(table: bytes) -> Iterator[Tuple[bytes, bytes]]:
    """The names that lead to the nodes, with what these say: a node before the nodes that it leads to, by the order of
    the edges."""
    left, ways = len(table), [(b"", 0)]
    while ways and table:
        name, place = ways.pop()
        node = read_node(table, place)
        left -= node.size
        if left < 0:
            raise Malformed
        yield name, node.said
        ways += [(name + label, child) for label, child in reversed(node.edges)]


def read_all(table: bytes) -> Iterator[Tuple[bytes, Export]]:
    """The symbols by their names, in the order of the nodes."""
    return ((name, read_export(said)) for name, said in meet_all(table) if said)


def table_of(image: Image) -> bytes:
    """The table of an image: the data of the first LC_DYLD_EXPORTS_TRIE, or if it has no bytes, of the first
    LC_DYLD_INFO_ONLY, or without that of the first LC_DYLD_INFO. It is empty if there is none."""
    tries = [(it.dataoff, it.datasize) for it in image.listed if it.cmd == LC_DYLD_EXPORTS_TRIE]
    infos = [(it.export_off, it.export_size) for cmd in (LC_DYLD_INFO_ONLY, LC_DYLD_INFO) for it in image.listed
             if it.cmd == cmd]
    return next((image.data[start:start + size] for start, size in tries[:1] + infos[:1] if size), b"")


def from_base(export: Optional[Export], base: Optional[int]) -> Optional[Export]:
    """The same, with addresses of an image that is at this base."""
    if export is None or export.address is None:
        return export
    is_absolute = export.flags & KIND_MASK == ABSOLUTE
    address, resolver = (None if number is None else (number + (base or 0)) % WORD
                         for number in (export.address, export.resolver))
    return Export(export.flags, export.address if is_absolute else address, resolver)


# Writing


def write_export(export: Export) -> bytes:
    """The bytes that say it."""
    if export.flags & REEXPORT:
        return uleb(export.flags) + uleb(export.ordinal) + export.name + b"\0"
    resolver = uleb(export.resolver) if export.flags & STUB_AND_RESOLVER else b""
    return uleb(export.flags) + uleb(export.address) + resolver


class Made:
    """A node to be written: the bytes of what it says, and its edges, of which each leads to another one."""

    def __init__(self, said: bytes = b"", edges: Iterable[Tuple[bytes, Made]] = ()) -> None:
        self.said = said
        self.edges = list(edges)

    def content(self, offsets: dict[Made, int]) -> bytes:
        edges = b"".join(label + b"\0" + uleb(offsets[child]) for label, child in self.edges)
        return uleb(len(self.said)) + self.said + bytes([len(self.edges)]) + edges

    def add(self, name: bytes, said: bytes) -> None:
        """Adds what is said of a name. No two edges of a node begin with the same byte, before and after that."""
        node = self
        while name:
            index = next((k for k, (label, _) in enumerate(node.edges) if label[0] == name[0]), len(node.edges))
            if index == len(node.edges):
                node.edges.append((name, Made()))
            label, child = node.edges[index]
            shared = len(commonprefix([label, name]))
            if shared < len(label):
                child = Made(edges=[(label[shared:], child)])
                node.edges[index] = name[:shared], child
            node, name = child, name[shared:]
        node.said = said


def make_trie(exports: dict[bytes, Export]) -> Made:
    """The root of a trie that has these symbols by their names."""
    root = Made()
    for name, export in exports.items():
        root.add(name, write_export(export))
    return root


def nodes_of(root: Made) -> List[Made]:
    """All nodes, each once, with the root first."""
    found, ways = {}, [root]
    while ways:
        node = ways.pop()
        if node not in found:
            found[node] = None
            ways += [child for _, child in reversed(node.edges)]
    return list(found)


def write_nodes(nodes: List[Made]) -> bytes:
    """The table of these nodes in their order, of which the first is the root. An offset has as few bytes as it
    needs."""
    offsets = dict.fromkeys(nodes, 0)
    while True:
        contents = [node.content(offsets) for node in nodes]
        places, at = {}, 0
        for node, content in zip(nodes, contents):
            places[node] = at
            at += len(content)
        if places == offsets:
            return b"".join(contents)
        offsets = places


def write_trie(exports: dict[bytes, Export]) -> bytes:
    """The table of a trie that has these symbols by their names. Each node is before those that it leads to."""
    return write_nodes(nodes_of(make_trie(exports)))
