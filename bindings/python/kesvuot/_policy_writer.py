"""Writes a policy that a file meets, to start from."""

from __future__ import annotations

import json
from typing import Any, Dict, Iterator, List, Tuple

from ._check import ACCEPTED, NO_VERDICT, Choice, Target, judge
from ._files import File
from ._output import Output, say
from ._paths import printable, shown
from ._policy import judge_key, policy_of
from ._policy_facts import Facts
from ._policy_keys import KEYS
from ._profiles import later
from ._reports import reason_text

# The tables of what the linked profile judges first.
LINKED_TABLES = "signature", "exports"
# A list of TOML with longer lines has a line for each item.
WIDTH = 100


def write_policy(path: str, profile: str, as_json: bool) -> int:
    """Writes the policy to standard output, or to standard error why there is none, and returns the status."""
    output = Output()
    outcome = judge(Target(path), Choice(profile, walks=False, extra=proposals))
    if outcome.word != ACCEPTED:
        say(f"{shown(path)}: {outcome.reason if outcome.word == NO_VERDICT else reason_text(outcome)}")
    elif as_json:
        whole = nested(outcome.extra[0])
        output.write(json.dumps(whole, indent=2) + "\n")
        tables = [table for table in LINKED_TABLES if table in whole]
        if tables and note_of(profile):
            say(f"{' and '.join(tables)}: {note_of(profile)}")
    else:
        for line in toml_lines(path, *outcome.extra, note_of(profile)):
            output.write(line + "\n")
    output.flush()
    return outcome.status


def note_of(profile: str) -> str:
    """What is said of the tables whose data a profile does not judge."""
    return "only --profile linked or a later one judges what this is read from" if "linked" in later(profile) else ""


def proposals(file: File) -> Tuple[Dict[str, Any], Dict[str, str]]:
    """The keys that a file meets, with their values; and those that it does not meet with any, with what it has."""
    facts = list(map(Facts, file.images))
    values = {name: key.meets(file, facts) for name, key in KEYS.items()}
    met = {name: value for name, value in values.items() if value is not None}
    for it in policy_of("", nested(met)).judge(file):
        met.pop(it.key, None)
    unmet = {name: next(it.found for it in judge_key(key, True, file, facts))
             for name, key in KEYS.items() if key.is_flag and name not in met}
    return met, unmet


def nested(keys: Dict[str, Any]) -> Dict[str, Any]:
    """The keys with dots in tables."""
    whole: Dict[str, Any] = {}
    for name, value in keys.items():
        table, dot, inner = name.partition(".")
        if dot:
            whole.setdefault(table, {})[inner] = value
        else:
            whole[name] = value
    return whole


def toml_lines(path: str, met: Dict[str, Any], unmet: Dict[str, str], note: str = "") -> Iterator[str]:
    """The text in TOML, with a note at some tables. What is not met stands in comments. In TOML the keys outside of
    tables come first."""
    yield "# A policy for `kesvuot check --policy`. It is met by this file:"
    yield f"# {_quoted(path)}"
    plain = [name for name in KEYS if "." not in name]
    yield from _toml_keys(plain, met, unmet)
    for table in dict.fromkeys(name.partition(".")[0] for name in KEYS if "." in name):
        lines = list(_toml_keys([name for name in KEYS if name.startswith(f"{table}.")], met, unmet))
        if lines:
            is_asked = any(name.startswith(f"{table}.") for name in met)
            notes = [f"# {note[0].upper()}{note[1:]}."] if note and table in LINKED_TABLES else []
            yield from ("", f"[{table}]" if is_asked else f"# [{table}]", *notes, *lines)


def _toml_keys(names: List[str], met: Dict[str, Any], unmet: Dict[str, str]) -> Iterator[str]:
    for name in names:
        inner = name.rpartition(".")[2]
        if name in met:
            yield f"{inner} = {_toml(met[name])}"
        elif name in unmet:
            yield f"# {inner} = true   # this file has: {printable(unmet[name])}"


def _toml(value: Any) -> str:
    """A value in TOML. All that is not ASCII is escaped."""
    if isinstance(value, bool):
        return "true" if value else "false"
    if isinstance(value, dict):
        return "{" + ", ".join(f"{_quoted(name)} = {_toml(each)}" for name, each in value.items()) + "}"
    if not isinstance(value, list):
        return _quoted(value)
    line = "[" + ", ".join(map(_toml, value)) + "]"
    return line if len(line) <= WIDTH else "[\n" + "".join(f"  {_toml(each)},\n" for each in value) + "]"


def _quoted(text: str) -> str:
    def escaped(letter: str) -> str:
        number = ord(letter)
        if letter in '"\\':
            return f"\\{letter}"
        if 0x20 <= number <= 0x7E:
            return letter
        return f"\\u{number:04X}" if number <= 0xFFFF else f"\\U{number:08X}"

    return f'"{"".join(map(escaped, text))}"'
