"""The calls that kesvuot.h declares, as the other languages and pages write them."""

from __future__ import annotations

import re
from typing import Dict, List, NamedTuple, Tuple

COMMENT = re.compile(r"/\*.*?\*/", re.DOTALL)
DECLARED = re.compile(r"^(static inline )?([a-z][\w ]*[ *])(kesvuot_\w+)\(([^)]*)\)(?:;| \{)$", re.MULTILINE)
PYTHON = {"int": "i32", "size_t": "size", "uint32_t": "u32", "uint64_t": "u64"}
RUST = {"int": "i32", "size_t": "usize", "uint32_t": "u32", "uint64_t": "u64", "void": "c_void", "char": "u8"}
# What a call takes that reads rows of a table of an image, whatever its row is.
READS_ROWS = ("file", "size", "image", "cursor", "rows", "max")
RUST_WIDTH = 100


class Call(NamedTuple):
    """A call: its result, and its arguments by type and name. One that is inline is in no library."""

    name: str
    result: str
    arguments: List[Tuple[str, str]]
    is_inline: bool

    def reads_rows(self) -> bool:
        return tuple(name for _, name in self.arguments) == READS_ROWS


def calls_of(header: str) -> List[Call]:
    """All calls, in the order of the header."""
    return [Call(name, result.strip(), _arguments(" ".join(arguments.split())), bool(inline))
            for inline, result, name, arguments in DECLARED.findall(COMMENT.sub("", header))]


def _arguments(text: str) -> List[Tuple[str, str]]:
    matches = [] if text == "void" else [re.fullmatch(r"(.*[ *])(\w+)", it.strip()) for it in text.split(",")]
    return [(match[1].strip(), match[2]) for match in matches]


def exported(calls: List[Call]) -> List[Call]:
    return [call for call in calls if not call.is_inline]


def python_lines(calls: List[Call]) -> List[str]:
    """The result and the arguments of each call, for ctypes."""
    return [f'        "{call.name}": ({_python_type(call.result)}, '
            f'[{", ".join(_python_type(kind) for kind, _ in call.arguments)}]),' for call in exported(calls)]


def _python_type(kind: str) -> str:
    return "pointer" if "*" in kind else PYTHON[kind]


def rust_lines(calls: List[Call], structures: Dict[str, str]) -> List[str]:
    """The declarations of the calls, but for those that read rows. The structures have their names in Rust."""
    return [line for call in exported(calls) if not call.reads_rows() for line in _rust_declaration(call, structures)]


def rust_rows(calls: List[Call], structures: Dict[str, str]) -> List[str]:
    """The calls that read rows, each with its row and its cursor."""
    def to(call: Call, argument: int) -> str:
        return _rust_type(call.arguments[argument][0], structures)[len("*mut "):]

    return [f"    {to(call, 4)}: {call.name} by {to(call, 3)}," for call in calls if call.reads_rows()]


def _rust_declaration(call: Call, structures: Dict[str, str]) -> List[str]:
    """A declaration as rustfmt breaks it."""
    arguments = [f"{name}: {_rust_type(kind, structures)}" for kind, name in call.arguments]
    result = f" -> {_rust_type(call.result, structures)};"
    line = f"    fn {call.name}({', '.join(arguments)})"
    if len(line + result) < RUST_WIDTH:
        return [line + result]
    if len(line) < RUST_WIDTH - len(result.strip()):
        return [line, f"       {result}"]
    return [f"    fn {call.name}(", *(f"        {it}," for it in arguments), f"    ){result}"]


def _rust_type(kind: str, structures: Dict[str, str]) -> str:
    constant, name, pointer = re.fullmatch(r"(const )?(?:struct )?(\w+)( \*)?", kind).groups()
    word = RUST.get(name) or structures[name]
    return word if not pointer else f"*const {word}" if constant else f"*mut {word}"


def manual_lines(calls: List[Call]) -> List[str]:
    """The synopsis of the manual page."""
    return [line for call in calls for line in (f".Ft {_word(call.result)}", f".Fn {call.name} {_manual_words(call)}")]


def _manual_words(call: Call) -> str:
    return " ".join(f'"{kind}{"" if kind.endswith("*") else " "}{name}"' for kind, name in call.arguments) or "void"


def _word(text: str) -> str:
    return f'"{text}"' if " " in text else text


def symbol_lines(calls: List[Call], known: Dict[str, str], version: str) -> List[str]:
    """What the library exports, by name, each since the version that is known of it, or since this one."""
    return [f" {name}@KESVUOT_2 {known.get(name, version)}" for name in sorted(call.name for call in exported(calls))]
