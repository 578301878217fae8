"""The profiles: by which rules a file is judged. Each judges the rules of those before it, and then its own."""

from __future__ import annotations

from typing import Dict, List, NamedTuple


class Profile(NamedTuple):
    """The number of a profile in the library, what the rules that it adds judge, and where it is said what it leaves
    open. The pages are installed in share/doc/kesvuot."""

    number: int
    adds: str
    leaves: str


PROFILES: Dict[str, Profile] = {
    # registry: profiles
    "layout": Profile(1, "where the parts that the headers describe lie", "rules/layout.md#not-judged"),
    "strict": Profile(2, "bytes that no header accounts for, or that two parts share", "rules/strict.md#not-judged"),
    "linked": Profile(3, "where linked data lies, and what it and the other commands say",
                      "rules/linked.md#not-judged"),
    "unambiguous": Profile(4, "whether readers that look in the ways that we know see one file, one map, one meaning of a name and one identity",
                           "rules/unambiguous.md#what-it-does-not-say"),
    "sealed": Profile(5, "whether each image has a code signature, whose hashes are those of the bytes",
                      "rules/sealed.md#what-it-does-not-say"),
    # registry: end
}
DEFAULT = "layout"


def later(profile: str) -> List[str]:
    """The profiles that judge more than this one."""
    names = list(PROFILES)
    return names[names.index(profile) + 1:]
