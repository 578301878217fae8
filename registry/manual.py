"""DESCRIPTION of kesvuot(3), from the comments of kesvuot.h that begin a line: the comment at the head of the file, the
headings, and what is said of each call. What is said of structures and enumerations stays in the header."""

from __future__ import annotations

import re
import textwrap
from typing import Iterator, List, NamedTuple

COMMENT = re.compile(r"^/\*((?:[^*]|\*(?!/))*)\*/\n(\n?)", re.MULTILINE)
CALL = re.compile(r"^(?:static inline )?[a-z][\w ]*[ *](kesvuot_\w+)\(", re.MULTILINE)
WIDTH = 120
CODE = "    "
# What tells the cases of a call apart, each with a colon: `OK: all fields are written.`
CASES = "OK REFUSED NO_MEMORY NONE UNREAD ZERO UNKNOWN_PROFILE LAYOUT STRICT LINKED UNAMBIGUOUS SEALED".split()
CASE = re.compile(rf"(?:^|(?<=\. ))((?:{'|'.join(CASES)})(?: and (?:{'|'.join(CASES)}))*): ")
CONSTANT = re.compile(r"[A-Z][A-Z0-9]*(?:_[A-Z0-9]+)+")


class Remark(NamedTuple):
    """A comment: its paragraphs, and the calls that follow it. A heading is followed by an empty line."""

    paragraphs: List[str]
    calls: List[str]
    is_apart: bool


def description(header: str) -> List[str]:
    """The lines of the section."""
    first, *others = remarks(header)
    # The first line is a title, and the code is an example.
    lines = text_lines([paragraph for paragraph in first.paragraphs[1:] if not paragraph.startswith(CODE)])
    is_listed = False
    for remark in others:
        if remark.calls:
            lines += [] if is_listed else [".Bl -tag -width Ds"]
            lines += [f".It Fn {' , Fn '.join(remark.calls)}", *entry_lines(remark.paragraphs)]
        elif remark.is_apart:
            title, *rest = remark.paragraphs
            if title.endswith("."):
                title, rest = "", remark.paragraphs
            lines += [".El"] if is_listed else []
            lines += [f".Ss {title_text(title)}"] if title else [".Pp"]
            lines += text_lines(rest)
        is_listed = bool(remark.calls) or (is_listed and not remark.is_apart)
    return lines + ([".El"] if is_listed else [])


def text_lines(paragraphs: List[str]) -> List[str]:
    """Paragraphs, code and items of lists."""
    lines: List[str] = []
    for paragraph in paragraphs:
        if paragraph.startswith(CODE):
            lines += [".Bd -literal", *(line[len(CODE):].replace("\\", "\\e") for line in paragraph.split("\n")), ".Ed"]
        elif paragraph.startswith("- "):
            lines += [".Bl -bullet", ".It", *paragraph_lines(paragraph[2:]), ".El"]
        else:
            lines += [".Pp", *paragraph_lines(paragraph)]
    return without_seams(lines[1:] if lines[:1] == [".Pp"] else lines)


def title_text(title: str) -> str:
    """A title, whose first word is no macro."""
    return rf"\&{title}" if re.match(r"[A-Z][a-z]\b", title) else title


def remarks(header: str) -> Iterator[Remark]:
    """The comments that begin a line, but for those of structures, enumerations and constants."""
    header = header.partition("/* Constants of the headers")[0]
    found = list(COMMENT.finditer(header))
    for number, match in enumerate(found):
        end = found[number + 1].start() if number + 1 < len(found) else len(header)
        # A declaration without a comment belongs to the comment before it.
        code = header[match.end():end]
        calls = CALL.findall(code) if CALL.match(code) else []
        is_apart = bool(match[2])
        if number == 0 or calls or is_apart:
            yield Remark(paragraphs_of(match[1]), calls, is_apart)


def paragraphs_of(comment: str) -> List[str]:
    """The paragraphs of a comment. One ends at an empty line, and with a sentence whose line has room for the next
    word. Lines of code are a paragraph."""
    lines = [re.sub(r"^ \* ?", "", line) for line in comment.rstrip().split("\n")]
    lines[0] = lines[0].strip()
    paragraphs: List[str] = []
    before = ""
    for line in lines:
        is_code, was_code = line.startswith(CODE), before.startswith(CODE)
        word = line.split(" ")[0]
        if is_code and was_code:
            paragraphs[-1] += f"\n{line}"
        elif line and before and not was_code and not line.startswith("- ") and (
                before[-1] not in ".:" or len(f" * {before} {word}") > WIDTH):
            paragraphs[-1] += f" {line.strip()}"
        elif line:
            paragraphs.append(line)
        before = line
    return paragraphs


def entry_lines(paragraphs: List[str]) -> List[str]:
    """What is said of a call: its paragraphs, and its cases in lists."""
    lines: List[str] = []
    for paragraph in paragraphs:
        lead, *cases = CASE.split(paragraph)
        if lead.strip():
            lines += [".Pp"] if lines else []
            lines += paragraph_lines(lead.strip())
        if cases:
            lines.append(".Bl -tag -width Ds")
            for names, text in zip(cases[::2], cases[1::2]):
                lines += [f".It {' No and '.join(f'Dv KESVUOT_{name}' for name in names.split(' and '))}",
                          *paragraph_lines(text.strip())]
            lines.append(".El")
    return without_seams(lines)


def without_seams(lines: List[str]) -> List[str]:
    """Two lists of a kind, one at once after the other, are one."""
    return re.sub(r"^\.El\n\.Bl .*\n", "", "\n".join(lines), flags=re.MULTILINE).split("\n") if lines else []


def paragraph_lines(text: str) -> List[str]:
    """A paragraph, each sentence from a line of its own."""
    lines: List[str] = []
    words: List[str] = []

    def flush() -> None:
        lines.extend(textwrap.wrap(" ".join(words), 79, break_long_words=False, break_on_hyphens=False))
        words.clear()

    for token in re.findall(r'`[^`]+`\S*|\("[^"]+"\S*|"[^"]+"\S*|\S+', text):
        marked = macro(token)
        if marked:
            flush()
            lines.append(marked)
        else:
            words.append(escaped(token))
        if re.search(r"[.!?]\)?$", token) and not token.endswith(".."):
            flush()
    flush()
    return [rf"\&{line}" if line.startswith("'") else line for line in lines]


def escaped(word: str) -> str:
    return word.replace("\\", "\\e").replace("^", "\\(ha").replace("~", "\\(ti")


def macro(token: str) -> str:
    """The line for a name, with the punctuation around it, or nothing for a word."""
    match = re.fullmatch(r"""(\(?)(`[^`]+`|"[^"]+"|kesvuot_\w+|[A-Z][A-Z0-9_]*)([).,:;]*)""", token)
    if not match:
        return ""
    before, name, after = match.groups()
    if name[0] == "`":
        name = name[1:-1]
        kind = "Vt" if name.startswith("struct ") else "Fn" if name.startswith("kesvuot_") else \
            "Ql" if re.search(r"\W", name) else "Va"
    elif name[0] == '"':
        kind, name = "Ql", name[1:-1]
    elif name.startswith("kesvuot_"):
        kind = "Fn"
    elif name in CASES:
        kind, name = "Dv", f"KESVUOT_{name}"
    elif CONSTANT.fullmatch(name):
        kind = "Dv"
    else:
        return ""
    quoted = f'"{escaped(name)}"' if " " in name else escaped(name)
    return " ".join([f".{kind}", *before, quoted, *after])
