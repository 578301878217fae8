"""The values of the keys of a policy: patterns, versions, platforms, architectures and sizes."""

from __future__ import annotations

import posixpath
import re
from difflib import get_close_matches
from fnmatch import translate
from typing import Any, Dict, Iterable, List, Optional, Tuple

from ._policy_facts import quoted
from ._files import ARCHITECTURES, arch_named
from ._names import HASH_TYPES, PLATFORMS

# What is not the name of one thing.
SPECIAL = re.compile(r"[*?[]")
VERSION = re.compile(r"([0-9]{1,5})(?:\.([0-9]{1,3}))?(?:\.([0-9]{1,3}))?")
# X, Y and Z of a version have 16, 8 and 8 bits.
MOST_PARTS = (0xFFFF, 0xFF, 0xFF)
SIZE = re.compile(r"([0-9]{1,18}) ?(B|KiB|MiB|GiB|kB|MB|GB)")
UNITS = {"B": 1, "KiB": 1 << 10, "MiB": 1 << 20, "GiB": 1 << 30, "kB": 1000, "MB": 1000 ** 2, "GB": 1000 ** 3}
# The numbers of an architecture without a name, and those names that slices may have in which nothing is judged.
ARCHITECTURE = re.compile("0x([0-9a-f]{1,8})/0x([0-9a-f]{1,8})")
UNREAD_ARCHITECTURES = ("i386", "armv6", "armv7", "armv7s", "armv7k", "arm64_32", "ppc", "ppc64")
# So many patterns of a policy are told.
MOST_TOLD = 8


class Malformed(Exception):
    """A policy is not one, or cannot be read: why, with the key."""


def nearest(word: str, known: Iterable[str]) -> str:
    """Of the known words the nearest to another."""
    words = list(known)
    lower = {it.lower(): it for it in reversed(words)}
    return lower[get_close_matches(word.lower(), lower, n=1, cutoff=0)[0]]


def unknown(kind: str, word: str, known: Iterable[str]) -> Malformed:
    return Malformed(f"no {kind} {quoted(word)}: the nearest is {quoted(nearest(word, known))}")


def any_of(words: Iterable[str], joint: str = " or ") -> str:
    """What a policy allows, or asks for: the first words, and how many there are more."""
    every = list(words)
    told = every[:MOST_TOLD]
    if len(every) > MOST_TOLD:
        told.append(f"{len(every) - MOST_TOLD} more")
    return joint.join(told) or "none"


class Patterns:
    """Names, as the shell matches names of files: `*` is any letters, also a slash, `?` is one letter, and `[ab]` is an
    a or a b. Upper and lower case differ."""

    def __init__(self, texts: List[str]) -> None:
        self.texts = texts
        self._names = frozenset(text for text in texts if not SPECIAL.search(text))
        self._matchers = [re.compile(translate(text)).match for text in texts if SPECIAL.search(text)]

    def __contains__(self, name: str) -> bool:
        return name in self._names or any(match(name) for match in self._matchers)

    def told(self, joint: str = " or ") -> str:
        return any_of(map(quoted, self.texts), joint)

    def without(self, names: Iterable[str]) -> List[str]:
        """The patterns that match none of the names."""
        found = set(names)
        left = []
        for text in self.texts:
            match = re.compile(translate(text)).match
            if text not in found and not (SPECIAL.search(text) and any(match(name) for name in found)):
                left.append(text)
        return left


class PathPatterns(Patterns):
    """Paths. One from the root has to match also without its `..`, so /usr/lib/* does not stand for /usr/lib/../x."""

    def allows(self, path: str) -> bool:
        return path in self and (not path.startswith("/") or posixpath.normpath(path) in self)


class RelativePatterns(PathPatterns):
    """Paths. One from the root is matched only by a pattern that begins there itself, so * stands for no folder of the
    machine that builds."""

    def __init__(self, texts: List[str]) -> None:
        super().__init__(texts)
        self._rooted = PathPatterns([text for text in texts if text.startswith("/")])

    def allows(self, path: str) -> bool:
        return self._rooted.allows(path) if path.startswith("/") else path in self


# Readers of values, as JSON and TOML have them. Each raises Malformed.


def text(value: Any) -> str:
    if not isinstance(value, str):
        raise Malformed(f"{shortly(value)} is not a text")
    try:
        value.encode("utf-8", "surrogateescape")
    except UnicodeEncodeError:
        raise Malformed("a text has half a letter (a lone surrogate)") from None
    return value


def shortly(value: Any) -> str:
    """A value of a policy for a person."""
    words = {True: "true", False: "false", None: "null"}
    if isinstance(value, (dict, list)):
        return "a table" if isinstance(value, dict) else "a list"
    return words[value] if value is None or isinstance(value, bool) else quoted(value) if isinstance(value, str) \
        else f"{value!r:.40}"


def flag(value: Any) -> bool:
    """Whether a key asks something: false is as good as no key."""
    if not isinstance(value, bool):
        raise Malformed(f"{shortly(value)} is not true or false")
    return value


def texts(value: Any) -> List[str]:
    if not isinstance(value, list):
        raise Malformed(f"{shortly(value)} is not a list of texts")
    return [text(each) for each in value]


def text_or_texts(value: Any) -> List[str]:
    return [text(value)] if isinstance(value, str) else texts(value)


def one_or_more(words: List[str]) -> List[str]:
    if not words:
        raise Malformed("the list is empty")
    return words


def patterns(value: Any) -> Patterns:
    return Patterns(text_or_texts(value))


def paths(value: Any) -> PathPatterns:
    return PathPatterns(text_or_texts(value))


def relative_paths(value: Any) -> RelativePatterns:
    return RelativePatterns(text_or_texts(value))


def version(value: Any) -> int:
    """A version X.Y.Z as a load command has it: X << 16 | Y << 8 | Z."""
    if isinstance(value, (int, float)) and not isinstance(value, bool):
        raise Malformed(f"{value!r:.40} is a number: write a version in quotes, such as \"10.15\"")
    match = VERSION.fullmatch(text(value))
    parts = [int(part or 0) for part in match.groups()] if match else [MOST_PARTS[0] + 1]
    if any(part > most for part, most in zip(parts, MOST_PARTS)):
        raise Malformed(f"{shortly(value)} is not a version such as \"10.15\" or \"11.0.1\"")
    return parts[0] << 16 | parts[1] << 8 | parts[2]


def platform(name: str) -> int:
    """The number of a platform by its name, whatever its case."""
    numbers = {word.lower(): number for number, word in PLATFORMS.items()}
    if name.lower() not in numbers:
        raise unknown("platform", name, PLATFORMS.values())
    return numbers[name.lower()]


def platforms(value: Any) -> List[int]:
    return [platform(name) for name in one_or_more(text_or_texts(value))]


class Versions:
    """A version for all platforms, or for each that is named one of its own."""

    def __init__(self, of_all: Optional[int], of_each: Dict[int, int]) -> None:
        self.of_all = of_all
        self.of_each = of_each

    def of(self, number: int) -> Optional[int]:
        return self.of_each.get(number, self.of_all)


def versions(value: Any) -> Versions:
    if not isinstance(value, dict):
        return Versions(version(value), {})
    if not value:
        raise Malformed("the table is empty")
    return Versions(None, {platform(name): version(each) for name, each in value.items()})


class Architectures:
    """Architectures by their names and numbers: those that a file has to have, and whether it has no other."""

    def __init__(self, names: List[str], is_exact: bool) -> None:
        self.numbers = {_numbers(name): name for name in names}
        self.is_exact = is_exact

    def __str__(self) -> str:
        return f"{'exactly' if self.is_exact else 'at least'} {', '.join(self.numbers.values())}"


def _numbers(name: str) -> Tuple[int, int]:
    found, match = arch_named(name), ARCHITECTURE.fullmatch(name)
    if found is None and match is None:
        raise unknown("architecture", name, (*ARCHITECTURES.values(), *UNREAD_ARCHITECTURES))
    return found or (int(match[1], 16), int(match[2], 16))  # type: ignore[index]


ARCHITECTURE_KEYS = ("exactly", "at-least")


def architectures(value: Any) -> Architectures:
    """A list, which says exactly which; or a table with `exactly` or `at-least`."""
    if not isinstance(value, dict):
        return Architectures(one_or_more(text_or_texts(value)), True)
    for name in value:
        if name not in ARCHITECTURE_KEYS:
            raise unknown("key", name, ARCHITECTURE_KEYS)
    if len(value) != 1:
        raise Malformed('the table needs one of "exactly" and "at-least"')
    (name, names), = value.items()
    return Architectures(one_or_more(text_or_texts(names)), name == "exactly")


def hash_types(value: Any) -> List[str]:
    names = one_or_more(text_or_texts(value))
    for name in names:
        if name not in HASH_TYPES.values():
            raise unknown("type of hashes", name, HASH_TYPES.values())
    return names


def none(value: Any) -> bool:
    if value != "none":
        raise Malformed(f'{shortly(value)} is not "none"')
    return True


def size(value: Any) -> int:
    """A number of bytes, or one with a unit."""
    if isinstance(value, int) and not isinstance(value, bool) and value >= 0:
        return value
    match = SIZE.fullmatch(value) if isinstance(value, str) else None
    if not match:
        raise Malformed(f'{shortly(value)} is not a number of bytes, or a size such as "12 MiB"')
    return int(match[1]) * UNITS[match[2]]
