"""The rules of all profiles, as crates/macho_fields/specs/RuleList.antt lists them."""

from __future__ import annotations

import re
from typing import NamedTuple

from .calling import TOP

LIST = TOP / "crates/macho_fields/specs/RuleList.antt"


class Rule(NamedTuple):
    """A rule, with its rank: its position in the order of judgment."""

    variant: str
    rank: int
    number: int
    name: str
    profile: str


def read_rules() -> list[Rule]:
    """The rules, in the order of judgment."""
    text = LIST.read_text(encoding="utf-8")

    def values_of(function: str, value: str) -> dict[str, str]:
        """The values of a function of the list, by the variants of `Rule`."""
        return dict(re.findall(rf"^{function} rule\.(\w+) = {value}$", text, re.MULTILINE))

    ranks, numbers = values_of("rank", r"(\d+)"), values_of("rule_number", r"(\d+)")
    names, profiles = values_of("name_of", 'codes "([a-z-]+)"'), values_of("profile_of", r"(\w+)")
    rules = [Rule(variant, int(rank), int(numbers.get(variant, 0)), names.get(variant, ""),
                  profiles.get(variant, "Layout")) for variant, rank in ranks.items()]
    return sorted(rules, key=lambda rule: rule.rank)
