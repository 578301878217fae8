"""Policies: what a release asks of accepted files besides the rules of a profile, by the keys of a file in TOML or
JSON. A policy is judged by the views of the library. It is tested, not proved."""

from __future__ import annotations

import json
import sys
from typing import Any, Dict, Iterator, List, NamedTuple, Optional, Tuple

from ._files import File, Slice
from ._policy_facts import Facts, architecture
from ._policy_keys import KEYS, Key
from ._policy_values import Malformed, Patterns, nearest, shortly

# A longer file is not read.
MOST_BYTES = 1 << 26
# What an editor looks for, and says nothing of a file.
IGNORED = "$schema"
# The tables, with the keys in each.
TABLES: Dict[str, List[str]] = {}
for _name in KEYS:
    _table, _, _inner = _name.partition(".")
    TABLES.setdefault(_table, []).extend([_inner] if _inner else [])
# Those in a table too, without its name: where a key is in the wrong table.
NAMES = {**{name: name for name in TABLES}, **{name.partition(".")[2]: name for name in KEYS if "." in name},
         **{name: name for name in KEYS}}


class Unmet(NamedTuple):
    """A key of a policy that a file does not meet: what was found, what is wanted, and the slice, if it is about one:
    its index, and its architecture. The texts are printable, whatever the names in the file are."""

    key: str
    found: str
    wanted: str
    index: Optional[int] = None
    arch: str = ""

    def __str__(self) -> str:
        of = "" if self.index is None else f"slice {self.index} ({self.arch}): "
        return f"{self.key}: {of}{self.found}; wanted: {self.wanted}"


class Policy:
    """The keys that a policy has, each with its value, in the order of all keys; and the path of its file."""

    def __init__(self, path: str, wanted: Dict[str, Any]) -> None:
        self.path = path
        self._wanted = [(key, wanted[name]) for name, key in KEYS.items() if name in wanted]

    def __reduce__(self) -> Tuple[Any, ...]:
        """What makes it in another process, which has the same keys."""
        return Policy, (self.path, {key.name: value for key, value in self._wanted})

    @property
    def keys(self) -> List[Key]:
        return [key for key, _ in self._wanted]

    def judge(self, file: File) -> Tuple[Unmet, ...]:
        """The keys that an accepted file does not meet."""
        facts = list(map(Facts, file.images))
        return tuple(unmet for key, value in self._wanted for unmet in judge_key(key, value, file, facts))


def judge_key(key: Key, value: Any, file: File, facts: List[Facts]) -> Iterator[Unmet]:
    """What a file does not meet of a key with this value: at most one thing for each slice."""
    for part, subject in _subjects(key, file, facts):
        found = key.finds(value, subject)
        if found:
            of = () if part is None else (part.index, architecture(part.cputype, part.cpusubtype))
            yield Unmet(key.name, found, key.wants(value), *of)


def _subjects(key: Key, file: File, facts: List[Facts]) -> Iterator[Tuple[Optional[Slice], Any]]:
    """What a key looks at in a file, each with the slice that it is about."""
    if key.of == "file":
        yield None, file
    elif key.of == "slice":
        yield from ((part, part) for part in file.unread_slices)
    else:
        yield from ((each.image, each) for each in facts)


# Reading


def read_policy(path: str) -> Policy:
    """The policy of a file. Raises Malformed, which says what is wrong with it."""
    try:
        return policy_of(path, _parse(_read(path)))
    except Malformed as error:
        raise Malformed(f"{path}: {error}") from None


def _read(path: str) -> str:
    try:
        with open(path, "rb") as file:
            data = file.read(MOST_BYTES + 1)
        if len(data) > MOST_BYTES:
            raise Malformed(f"more than {MOST_BYTES} bytes")
        return data.decode("utf-8-sig")
    except OSError as error:
        raise Malformed(error.strerror or str(error)) from None
    except UnicodeDecodeError:
        raise Malformed("not in UTF-8") from None


def _parse(text: str) -> Dict[str, Any]:
    """The tables of a text. No text in TOML begins as an object of JSON does."""
    try:
        return _parse_json(text) if text.lstrip().startswith("{") else _parse_toml(text)
    except RecursionError:
        raise Malformed("tables in tables without end") from None


def _parse_json(text: str) -> Dict[str, Any]:
    def once(pairs: List[Tuple[str, Any]]) -> Dict[str, Any]:
        found: Dict[str, Any] = {}
        for name, value in pairs:
            if name in found:
                raise Malformed(f"{name}: the key is there twice")
            found[name] = value
        return found

    try:
        whole: Dict[str, Any] = json.loads(text, object_pairs_hook=once)
        return whole
    except ValueError as error:
        raise Malformed(f"not JSON: {error}") from None


def _parse_toml(text: str) -> Dict[str, Any]:
    try:
        import tomllib  # pylint: disable=import-outside-toplevel # Python has it from 3.11 on
    except ImportError:
        here = ".".join(map(str, sys.version_info[:2]))
        raise Malformed(f"TOML needs Python 3.11 or later, and this is {here}: write the policy in JSON") from None
    try:
        whole: Dict[str, Any] = tomllib.loads(text)
        return whole
    except ValueError as error:
        raise Malformed(f"not TOML: {error}") from None


def policy_of(path: str, tables: Dict[str, Any]) -> Policy:
    """The policy that these tables are. Raises Malformed."""
    wanted = {}
    for name, value in _flat(tables):
        if name not in KEYS:
            raise Malformed(f"{name}: no such key: the nearest is {_nearest_key(name)}")
        try:
            read = KEYS[name].read(value)
        except Malformed as error:
            raise Malformed(f"{name}: {error}") from None
        if read is not False:
            wanted[name] = read
    if not wanted:
        raise Malformed("it asks nothing")
    if "exports.may" in wanted and "exports.must" in wanted:
        wanted["exports.may"] = Patterns(wanted["exports.may"].texts + wanted["exports.must"].texts)
    return Policy(path, wanted)


def _nearest_key(name: str) -> str:
    return NAMES[nearest(name, NAMES)]


def _flat(tables: Dict[str, Any]) -> Iterator[Tuple[str, Any]]:
    """The keys with their values, those in a table with its name."""
    for name, value in tables.items():
        if not TABLES.get(name):
            if name != IGNORED:
                yield name, value
        elif isinstance(value, dict):
            yield from ((f"{name}.{inner}", each) for inner, each in value.items())
        else:
            raise Malformed(f"{name}: {shortly(value)} is not a table")
