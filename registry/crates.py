"""What registry/generate writes into the crates: the constants of the headers, the rules and the profiles, the load
commands and filetypes that are judged, and the names of commands and platforms. It is laid out as `rt fmt` lays it out.
The definitions of specs/ have all of it a second time, by hand, and the prover compares.
"""

from __future__ import annotations

import textwrap
from itertools import groupby
from types import SimpleNamespace
from typing import Callable, Dict, Iterable, List

Rows = List[SimpleNamespace]
Table = Callable[[str], Rows]
WIDTH = 100
COMMENT_WIDTH = 120
# How many rules stand in one arm: the prover goes through an arm pattern by pattern.
ARM = 13


def camel(name: str) -> str:
    """`fat-arch` and `fat_arch` as `FatArch`."""
    return "".join(word.title() for word in name.replace("_", "-").split("-"))


def documented(text: str, indent: str = "") -> List[str]:
    return textwrap.wrap(text, COMMENT_WIDTH, initial_indent=f"{indent}/// ", subsequent_indent=f"{indent}/// ",
                         break_long_words=False, break_on_hyphens=False)


def arm(patterns: List[str], body: str, indent: str = "        ") -> List[str]:
    """An arm of a match: on one line, or with the body or each pattern on a line of its own."""
    line = f"{indent}{' | '.join(patterns)} => "
    if len(f"{line}{body},") <= WIDTH:
        return [f"{line}{body},"]
    if len(f"{line}{{") <= WIDTH:
        return [f"{line}{{", f"{indent}    {body}", f"{indent}}}"]
    first, *others = patterns
    return [f"{indent}{first}", *(f"{indent}| {it}" for it in others[:-1]), f"{indent}| {others[-1]} => {body},"]


# The constants of the headers

def rust_number(number: str) -> str:
    """A long hexadecimal number has its last digits apart."""
    return f"{number[:-4]}_{number[-4:]}" if len(number) > 6 else number


def command_number(number: str) -> str:
    """The number of a load command, as `loader.h` writes it."""
    bits = int(number, 16)
    return number if bits < 1 << 31 else f"{bits - (1 << 31):#x} | LC_REQ_DYLD"


def constant_lines(bits: str, name: str, number: str, line: str, indent: str = "") -> List[str]:
    return [*documented(line, indent), f"{indent}pub const {name}: u{bits} = {number};"]


def header(module: str, table: Table) -> List[str]:
    """The constants of a header that crates use, and then a module of the offsets of each structure."""
    parts = [constant_lines(it.bits, it.name, rust_number(it.number), it.line)
             for it in table("constants") if it.module == module and it.crates == "yes"]
    if module == "loader":
        parts += [constant_lines("32", it.name, it.number, it.line) for it in table("filetypes") if it.judged == "yes"]
        parts += [constant_lines("32", it.name, command_number(it.number), it.line) for it in table("commands")]
        parts += [constant_lines("32", it.name, it.number, f"The platform {it.word}.") for it in table("platforms")]
    fields = [it for it in table("fields") if it.module == module]
    parts += [field_module(name, list(group)) for name, group in groupby(fields, lambda it: it.structure)]
    return "\n\n".join("\n".join(part) for part in parts).split("\n")


def field_module(structure: str, fields: Rows) -> List[str]:
    lines = documented(f"The offsets of fields of `{structure}`, each of 32 bits if nothing else is said.")
    lines.append(f"pub mod {structure} {{")
    for field in fields:
        size = "" if field.bits == "32" else f" It has {field.bits} bits."
        lines += constant_lines("64", field.name, field.offset, f"{field.line}{size}", "    ")
    return [*lines, "}"]


# rule.rt

def rules(table: Table) -> List[str]:
    return [line for rule in table("rules") for line in (
        *documented(rule.line, "    "), f"    {camel(rule.name)} = {rule.number},")]


def rule_names(table: Table) -> List[str]:
    return [f'            Rule::{camel(rule.name)} => "{rule.name}\\0",' for rule in table("rules")]


def rule_list(table: Table) -> List[str]:
    return [f"        Rule::{camel(rule.name)}," for rule in table("rules")]


def rule_profiles(table: Table) -> List[str]:
    lines: List[str] = []
    for profile, group in groupby(table("rules"), lambda rule: rule.profile):
        patterns = [f"Rule::{camel(rule.name)}" for rule in group]
        for start in range(0, len(patterns), ARM):
            lines += arm(patterns[start:start + ARM], f"Profile::{camel(profile)}", "            ")
    return lines


def profiles(table: Table) -> List[str]:
    return [line for it in table("profiles") for line in (
        *documented(it.line, "    "), f"    {camel(it.name)} = {it.number},")]


def profile_names(table: Table) -> List[str]:
    return [f'            Profile::{camel(it.name)} => "{it.name}\\0",' for it in table("profiles")]


def profile_list(table: Table) -> List[str]:
    return [f"        Profile::{camel(it.name)}," for it in table("profiles")]


# file_type.rt

def judged(table: Table) -> Iterable[SimpleNamespace]:
    return (it for it in table("filetypes") if it.judged == "yes")


def kinds(table: Table) -> List[str]:
    return [line for it in judged(table) for line in (
        *documented(f"`{it.name}`: {it.line[0].lower()}{it.line[1:]}", "    "), f"    {camel(it.report)},")]


def file_types(table: Table) -> List[str]:
    return [f'    file_type!({it.name}, {camel(it.report)}, "{it.report}", {str(it.names_itself == "yes").lower()}),'
            for it in judged(table)]


# load_command.rt

def listed(table: Table) -> Rows:
    """The commands whose structure the layout judges."""
    return [it for it in table("commands") if it.profile == "layout"]


def structures_of(commands: Rows, table: Table) -> Rows:
    names = {it.structure for it in commands}
    return [it for it in table("structures") if it.name in names]


def unlisted(table: Table) -> Rows:
    """The other commands that have tables."""
    with_tables = {it.name for it in table("structures") if it.tables}
    return [it for it in table("commands") if it.profile != "layout" and it.structure in with_tables]


def structures(table: Table) -> List[str]:
    return [line for it in structures_of(listed(table), table) for line in (
        f"    /// `{it.name}`", f"    {camel(it.name)},")]


def tables_name(structure: str) -> str:
    return f"{structure.upper()}_TABLES"


def structure_tables(table: Table) -> List[str]:
    lines: List[str] = []
    for it in structures_of(listed(table) + unlisted(table), table):
        if it.tables:
            lines += [*([""] if lines else []), *tables_of(it, table)]
    return lines


def tables_of(structure: SimpleNamespace, table: Table) -> List[str]:
    """The list of the tables of a structure."""
    bits = {it.name: it.bits for it in table("fields") if it.structure == structure.name}
    lines = [f"const {tables_name(structure.name)}: &[TableFields] = &tables! {{ {structure.name}:"]
    for cell in structure.tables.split("; "):
        place, count, size = cell.split()
        lines.append(f"    {place}, {count}, Uint{bits[place]}, {size};")
    return [*lines, "};"]


def layouts(table: Table) -> List[str]:
    lines: List[str] = []
    for it in structures_of(listed(table), table):
        body = f"layout!({it.size}"
        if it.named == "yes":
            body += ", name"
        if it.records:
            count, size = it.records.split()
            body += f", records {it.name}::{count}, {size}"
        if it.tables:
            body += f", tables {tables_name(it.name)}"
        lines += arm([f"Structure::{camel(it.name)}"], f"{body})", "            ")
    return lines


def command_structures(table: Table) -> List[str]:
    lines = [line for it in structures_of(listed(table), table) for line in arm(
        [command.name for command in listed(table) if command.structure == it.name],
        f"Some(Structure::{camel(it.name)})")]
    return lines


def last_command(table: Table) -> List[str]:
    """The judged command with the greatest number below `LC_REQ_DYLD`."""
    name = max((it for it in listed(table) if int(it.number, 16) < 1 << 31), key=lambda it: int(it.number, 16)).name
    return [f"const LAST_WITHOUT_BIT: u32 = {name};"]


def unlisted_tables(table: Table) -> List[str]:
    return [line for it in structures_of(unlisted(table), table) for line in arm(
        [command.name for command in unlisted(table) if command.structure == it.name], tables_name(it.name))]


def unique_commands(table: Table) -> List[str]:
    return [f"        {it.name} => Some({index})," for index, it in enumerate(
        it for it in table("commands") if it.once == "yes")]


def unique_count(table: Table) -> List[str]:
    return [f"pub const UNIQUE_COUNT: usize = {sum(it.once == 'yes' for it in table('commands'))};"]


# names.rt of macho_c

def named(name: str) -> Callable[[Table], List[str]]:
    """The rows of a table, each name with the zero byte that C wants."""
    return lambda table: [line for it in table(name) for line in (
        "    Named {", f"        number: {rust_number(it.number)},", f'        name: "{it.name}\\0",', "    },")]


FIELDS = "crates/macho_fields/src"


def marked(table: Table) -> Dict[str, Dict[str, Callable[[str], List[str]]]]:
    """What each file of the crates has between its marks."""
    files = {
        f"{FIELDS}/rule.rt": {
            "profiles": profiles, "names of profiles": profile_names, "list of profiles": profile_list, "rules": rules,
            "names of rules": rule_names, "list of rules": rule_list, "profiles of rules": rule_profiles},
        f"{FIELDS}/file_type.rt": {"kinds": kinds, "filetypes": file_types},
        f"{FIELDS}/load_command.rt": {
            "structures": structures, "tables": structure_tables, "layouts": layouts, "unique count": unique_count,
            "last command": last_command, "structures of commands": command_structures,
            "tables of other commands": unlisted_tables, "unique commands": unique_commands},
        "crates/macho_c/src/names.rt": {"commands": named("commands"), "platforms": named("platforms")}}
    made = {path: {name: lambda _, maker=maker: maker(table) for name, maker in makers.items()}
            for path, makers in files.items()}
    for it in table("headers"):
        made[f"{FIELDS}/header/{it.module}.rt"] = {
            "constants": lambda _, module=it.module: header(module, table)}
    return made
