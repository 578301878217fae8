"""Checks of a value against a JSON Schema: those keywords that the schemas of this repository have. A schema with
another keyword is an error, so none is passed over."""

from __future__ import annotations

import re
from typing import Any, Iterator

TYPES: dict[str, Any] = {"object": dict, "array": list, "string": str, "integer": int, "boolean": bool,
                         "null": type(None)}
NOTES = {"$schema", "$id", "$defs", "title", "description"}


def is_type(value: Any, name: str) -> bool:
    return isinstance(value, TYPES[name]) and not (name == "integer" and isinstance(value, bool))


class Schema:
    def __init__(self, whole: dict) -> None:
        self.whole = whole

    def faults(self, value: Any) -> list[str]:
        """What is wrong with a value, and where."""
        return list(self._faults(value, self.whole, "$"))

    def _faults(self, value: Any, schema: dict, where: str) -> Iterator[str]:
        for keyword, wanted in schema.items():
            if keyword not in NOTES:
                check = getattr(self, f"_{keyword.lstrip('$')}", None)
                if check is None:
                    raise ValueError(f"the keyword {keyword} is not known")
                yield from check(value, wanted, where, schema)

    def _ref(self, value: Any, wanted: str, where: str, _schema: dict) -> Iterator[str]:
        yield from self._faults(value, self.whole["$defs"][wanted.rpartition("/")[2]], where)

    def _type(self, value: Any, wanted: Any, where: str, _schema: dict) -> Iterator[str]:
        names = wanted if isinstance(wanted, list) else [wanted]
        if not any(is_type(value, name) for name in names):
            yield f"{where}: {value!r:.80} is no {' or '.join(names)}"

    def _const(self, value: Any, wanted: Any, where: str, _schema: dict) -> Iterator[str]:
        if value != wanted:
            yield f"{where}: {value!r:.80} is not {wanted!r}"

    def _enum(self, value: Any, wanted: list, where: str, _schema: dict) -> Iterator[str]:
        if value not in wanted:
            yield f"{where}: {value!r:.80} is none of {wanted}"

    def _pattern(self, value: Any, wanted: str, where: str, _schema: dict) -> Iterator[str]:
        if isinstance(value, str) and not re.search(wanted, value):
            yield f"{where}: {value!r:.80} does not match {wanted}"

    def _minimum(self, value: Any, wanted: int, where: str, _schema: dict) -> Iterator[str]:
        if is_type(value, "integer") and value < wanted:
            yield f"{where}: {value} is below {wanted}"

    def _required(self, value: Any, wanted: list, where: str, _schema: dict) -> Iterator[str]:
        if isinstance(value, dict):
            yield from (f"{where}: there is no {name}" for name in wanted if name not in value)

    def _properties(self, value: Any, wanted: dict, where: str, _schema: dict) -> Iterator[str]:
        if isinstance(value, dict):
            for name in value.keys() & wanted.keys():
                yield from self._faults(value[name], wanted[name], f"{where}.{name}")

    def _additionalProperties(self, value: Any, wanted: bool, where: str, schema: dict) -> Iterator[str]:
        if isinstance(value, dict) and not wanted:
            yield from (f"{where}: {name} is not known" for name in value.keys() - schema["properties"].keys())

    def _items(self, value: Any, wanted: dict, where: str, _schema: dict) -> Iterator[str]:
        if isinstance(value, list):
            for index, item in enumerate(value):
                yield from self._faults(item, wanted, f"{where}[{index}]")

    def _minItems(self, value: Any, wanted: int, where: str, _schema: dict) -> Iterator[str]:
        if isinstance(value, list) and len(value) < wanted:
            yield f"{where}: there are only {len(value)}"

    def _oneOf(self, value: Any, wanted: list, where: str, _schema: dict) -> Iterator[str]:
        faults = [list(self._faults(value, each, where)) for each in wanted]
        if sum(not some for some in faults) != 1:
            yield f"{where}: it has not one of the forms: {faults}"
