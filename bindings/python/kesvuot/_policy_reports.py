"""What reports say of the keys of a policy that a file does not meet. A key is another thing than a rule: the profile
accepts the file."""

from __future__ import annotations

from typing import TYPE_CHECKING, Any, Dict, Iterator, List, Optional

from ._check import ACCEPTED, NOT_BY_POLICY, Outcome
from ._pages import PAGES, see

if TYPE_CHECKING:
    from ._policy import Policy

# What a line begins with.
WORDS = f"{ACCEPTED}, but {NOT_BY_POLICY}"


def lines(outcome: Outcome) -> List[str]:
    """A line for each key and slice."""
    return [f"{WORDS}: {unmet}" for unmet in outcome.unmet]


def page() -> str:
    """Where the keys are explained, if a reader can be led there."""
    return PAGES.shared("guide/policies.md#keys")


def rule_of(key: str) -> str:
    """What stands in place of the name of a rule."""
    return f"policy/{key}"


def objects(outcome: Outcome) -> List[Dict[str, Any]]:
    """The same for JSON (docs/check.schema.json)."""
    return [{"key": it.key, "slice": None if it.index is None else {"index": it.index, "arch": it.arch},
             "found": it.found, "wanted": it.wanted} for it in outcome.unmet]


def sarif_rules(policy: Optional[Policy]) -> Iterator[Dict[str, Any]]:
    """The keys of a policy, after all rules."""
    for key in policy.keys if policy else ():
        yield {"id": rule_of(key.name), "name": "Policy" + key.name.title().replace("-", "").replace(".", ""),
               "shortDescription": {"text": rule_of(key.name)}, "fullDescription": {"text": key.asks},
               "help": {"text": f"The policy asks: {key.asks}{see(page())}"},
               "defaultConfiguration": {"level": "error"}}


def sarif_results(outcome: Outcome, policy: Optional[Policy], first: int, location: Any) -> Iterator[Dict[str, Any]]:
    """A result for each key and slice. The index of the first key among the rules is `first`."""
    numbers = {key.name: number for number, key in enumerate(policy.keys if policy else (), first)}
    for it, line, whole in zip(outcome.unmet, lines(outcome), objects(outcome)):
        yield {"ruleId": rule_of(it.key), "ruleIndex": numbers[it.key], "level": "error", "message": {"text": line},
               "locations": [location], "properties": whole}
