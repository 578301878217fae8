"""The words of the command, and what it does for them. What one command needs, and others do not, is loaded by it."""

# pylint: disable=import-outside-toplevel

from __future__ import annotations

import argparse
import os
import signal
import sys
from typing import TYPE_CHECKING, Any, Callable, Dict, Iterator, List, NamedTuple, Optional

from . import _check, _policy_reports, library_version
from ._archives import MOST_UNPACKED
from ._check import (
    ACCEPTED, NO_VERDICT, NOT_BY_POLICY, REFUSED, Choice, Outcome, Stopped, Summary, without_match)
from ._interrupts import Interrupts, end_at_interrupts
from ._output import (
    GREEN, RED, STANDARD_OUTPUT, YELLOW, Cells, Output, coloured, columns, end_by, open_errors, say, write_failed)
from ._profiles import DEFAULT, PROFILES
from ._progress import Progress, is_terminal
from ._pages import PAGES
from ._paths import printable, shown
from ._reports import FORMS, RULES_AND_CHOICES, VERSION, Report, Write, reason_text, report_of, said_of
from ._stores import add_words, check_words, for_store, manifest_of, outcomes_of

if TYPE_CHECKING:
    from ._policy import Policy

# In which sizes are given.
UNITS = {"K": 1 << 10, "M": 1 << 20, "G": 1 << 30, "T": 1 << 40}

STATUSES = """\
statuses:
  0    all files are accepted, or their refusals are known; of diff, the layouts are the same
  1    a file is refused or not by the policy, and none is without a verdict; of diff, the layouts differ
  2    a file has no verdict, for example because it cannot be read, or is named and no Mach-O file; no file was judged,
       or fewer than --expect; of diff, a file is not accepted; the words are wrong; nothing could be written; or not
       all files were judged
  130  Control-C; 143 is SIGTERM, and 129 SIGHUP
  141  nobody reads the output any more, as after head
"""
# Of each command.
EXAMPLES = {
    "check": """\
  kesvuot check program                          one file
  kesvuot check --profile strict dist            all Mach-O files of a folder, by the strict profile
  kesvuot check dist dist/program                the same, and fail if dist/program is none
  kesvuot check --profile sealed dist            whether code signatures still match the bytes
  kesvuot check --exclude '*.class' -q build     only those that are not accepted
  kesvuot check App.ipa dist.tar.xz              the members of archives
  kesvuot check --format sarif dist >kesvuot.sarif
  kesvuot check --policy release.toml dist       what a release asks of accepted files besides
  curl -s URL | kesvuot check -                  standard input
""",
    "explain": """\
  kesvuot explain dist/cut                       why a file is refused
  kesvuot explain --profile sealed dist/program  the same, by all rules
  kesvuot explain 'App.ipa!Payload/App.app/App'  a member of an archive, as check names it
  kesvuot explain --json dist/cut                an object with the parts and the numbers
""",
    "show": """\
  kesvuot show program                           the layout of an accepted file
  kesvuot show --all library                     its exports, imports and fixups too
  kesvuot show --json program                    an object with all fields
""",
    "diff": """\
  kesvuot diff program program.stripped          what strip has changed
  kesvuot diff --json old new                    an object with all changes
""",
    "map": """\
  kesvuot map program -o map.html                a page that shows where everything is
  kesvuot map --profile strict dist/cut -o map.html  the same of a refused file, with what is wrong
""",
    "policy": """\
  kesvuot policy program >release.toml           a policy that a file meets, to start from
  kesvuot policy --json program                  the same in JSON
"""}


class Text(Report):
    """A line for each file, or for each key of the policy that it does not meet, and the summary: the counts, a table
    of what was found and is of another kind, and tables of the rules and of the keys if there are several. A refused
    file can have one more line, with what is wrong with it. What has no verdict is told on standard error."""

    is_whole = False

    def __init__(self, write: Write, profile: str, is_quiet: bool = False, explains: bool = False) -> None:
        super().__init__(write, profile)
        self.is_quiet = is_quiet
        self.of_refused = said_of if explains else None

    def add(self, outcome: Outcome) -> None:
        if outcome.word == REFUSED and not (outcome.is_known and self.is_quiet):
            reason = reason_text(outcome).partition(":")
            self.write(f"{shown(outcome.path)}: {coloured(reason[0], RED, sys.stdout)}:{reason[2]}\n")
            if outcome.extra and outcome.extra.says:
                self.write(f"  {outcome.extra.says}\n")
        elif outcome.word == NOT_BY_POLICY:
            for line in _policy_reports.lines(outcome):
                words, colon, rest = line.partition(":")
                self.write(f"{shown(outcome.path)}: {coloured(words, RED, sys.stdout)}{colon}{rest}\n")
        elif outcome.word == ACCEPTED and not self.is_quiet:
            self.write(f"{shown(outcome.path)}: {coloured(ACCEPTED, GREEN, sys.stdout)}\n")

    def end(self, summary: Summary) -> None:
        if self.is_quiet:
            return
        self.write(f"{summary}\n")
        found: List[Cells] = [(shown(it.path), str(it.kind)) for it in summary.found]
        more: List[Cells] = [(f"and {summary.more_found} more",)] if summary.more_found else []
        self._write_table(("not judged", "kind"), found + more)
        for head, counts in ((("rule", "refused files"), summary.rules), (("key", "files"), summary.keys)):
            if len(counts) > 1:
                self._write_table(head, [(each, str(count)) for each, count in counts.most_common()])

    def _write_table(self, head: Cells, rows: List[Cells]) -> None:
        if rows:
            self.write("\n" + "".join(f"{line}\n" for line in columns(lambda: iter([head, *rows]))))


# check


def check(words: argparse.Namespace) -> int:
    """Judges files and folders."""
    check_words(words)
    policy = _read_policy(words)
    form = report_of(words.format) if words.format in FORMS else None
    output = Output(form.encoding, form.errors) if form else Output()
    report = form(output.write, words.profile) if form else Text(output.write, words.profile, words.quiet, words.explain)
    if words.no_unsupported_slices:
        report.rules = RULES_AND_CHOICES
    report.policy = policy
    choice = for_store(Choice(
        words.profile, include=tuple(words.include), exclude=tuple(words.exclude),
        skips_other_kinds=words.skip_other_kinds, fails_other_kinds=words.fail_other_kinds,
        refuses_unsupported=words.no_unsupported_slices, allows_none=words.allow_none, maps=words.mmap,
        opens_found=words.archives,
        most_unpacked=words.max_unpacked, of_refused=report.of_refused, policy=policy), words)
    report.has_baseline = choice.known is not None
    outcomes = outcomes_of(words, choice)
    progress = Progress(_count(words, choice), not words.no_progress)
    if is_terminal(sys.stdout):
        output.clear = progress.clear
    interrupts = Interrupts()
    # What is written beside an old manifest does not stay there.
    if report.is_whole or words.manifest:
        interrupts.watch()
    try:
        with manifest_of(words, choice) as keep:
            return _report_all(interrupts, outcomes, choice, words.expect, Listeners(report, output, progress, keep))
    except Failed as failed:
        say(failed.summary.fault)
        if failed.summary.signal:
            end_by(failed.summary.signal)
        return failed.summary.status
    finally:
        report.close()


def _read_policy(words: argparse.Namespace) -> Optional[Policy]:
    """The policy, if there is one. A malformed one is an error as a wrong option is."""
    if words.policy is None:
        return None
    from ._policy import read_policy
    from ._policy_values import Malformed
    parser: argparse.ArgumentParser = words.parser
    try:
        return read_policy(words.policy)
    except Malformed as error:
        parser.error(printable(str(error)))


class Failed(Exception):
    """The run has failed, and the report that says so is finished."""

    def __init__(self, summary: Summary) -> None:
        super().__init__(summary)
        self.summary = summary


class Listeners(NamedTuple):
    """To whom an outcome goes: the report, with its output, the bar, and the manifest."""

    report: Report
    output: Output
    progress: Progress
    keep: Callable[[Outcome], None]

    def add(self, outcome: Outcome) -> None:
        """Tells of a file. Another name of one that was met before is of interest to the manifest alone."""
        if outcome.is_counted or (outcome.again and outcome.again.is_new):
            self.keep(outcome)
        if not outcome.is_counted:
            return
        if outcome.word == NO_VERDICT and isinstance(self.report, Text):
            self.progress.clear()
            say(f"{shown(outcome.path)}: {coloured(outcome.reason, YELLOW, sys.stderr)}")
        self.report.add(outcome)

    def end(self, summary: Summary) -> None:
        """Tells of the run."""
        self.progress.clear()
        self.report.end(summary)
        self.output.flush()


def _report_all(interrupts: Interrupts, outcomes: Iterator[Outcome], choice: Choice, expected: Optional[int],
                told: Listeners) -> int:
    summary, unmatched = Summary(told.report.policy is not None), list(choice.include)
    told.report.begin()
    try:
        for outcome in interrupts.until(outcomes):
            if outcome.is_counted:
                summary.add(outcome)
            # A link can match a pattern too, and is not judged.
            if outcome.is_judged or outcome.word == NO_VERDICT:
                unmatched = without_match(unmatched, outcome.path)
            told.add(outcome)
            told.progress.show(summary.files, summary.size)
    except Stopped as stopped:
        summary.end_early(str(stopped))
    number = interrupts.number
    if number:
        name = signal.Signals(number).name
        summary.end_early("interrupted" if number == signal.SIGINT else f"ended by {name}", number)
    elif unmatched and not summary.fault:
        summary.fail(f"--include {printable(', '.join(unmatched))}: no file to judge has such a name")
    elif expected and not summary.fault:
        summary.expect(expected)
    elif not (choice.allows_none or summary.words[NO_VERDICT] or summary.fault):
        summary.expect(1)
    told.end(summary)
    if summary.fault:
        raise Failed(summary)
    return summary.status


def _count(words: argparse.Namespace, choice: Choice) -> int:
    """How many files there are, if anybody wants to know: a walk of its own."""
    if words.no_progress or words.files_from or not is_terminal(sys.stderr):
        return 0
    return _check.count_files(words.paths, choice)


def _positive(word: str) -> int:
    if not (word.isascii() and word.isdecimal() and int(word) > 0):
        raise argparse.ArgumentTypeError(f"{word!r} is no whole number from 1 on")
    return int(word)


def _size(word: str) -> int:
    digits, unit = (word[:-1], word[-1:].upper()) if word[-1:].upper() in UNITS else (word, "")
    if not (digits.isascii() and digits.isdecimal()):
        raise argparse.ArgumentTypeError(f"{word!r} is no number of bytes, such as 500M or 16G")
    return int(digits) * UNITS.get(unit, 1)


def _epilog(*examples: str) -> str:
    return f"examples:\n{''.join(examples)}\n{STATUSES}"


def _add_command(commands: Any, name: str, run: Any, summary: str, description: str) -> argparse.ArgumentParser:
    """Adds a command."""
    parser: argparse.ArgumentParser = commands.add_parser(
        name, help=summary, epilog=_epilog(EXAMPLES[name]), description=description,
        formatter_class=argparse.RawDescriptionHelpFormatter)
    parser.add_argument("--profile", choices=tuple(PROFILES), default=DEFAULT,
                        help=f"judge by the rules of this profile and of those before it (default: {DEFAULT})")
    parser.set_defaults(run=run, parser=parser)
    return parser


def _add_rules_url(parser: argparse.ArgumentParser) -> None:
    parser.add_argument("--rules-url", default="", metavar="URL", help="the folder of the pages of the rules, to which "
                        "reports have links; without it only explain has one, to the installed pages")


def _add_max_unpacked(parser: argparse.ArgumentParser) -> None:
    parser.add_argument("--max-unpacked", type=_size, default=MOST_UNPACKED, metavar="SIZE",
                        help="the most bytes to unpack of an archive (default: 16G)")


def _add_file(parser: argparse.ArgumentParser) -> None:
    """The file of a command that takes one, also out of an archive."""
    _add_max_unpacked(parser)
    parser.add_argument("file", metavar="FILE",
                        help="a file, a member of an archive as check names it, or - for standard input")


def _add_check(commands: Any) -> None:
    parser = _add_command(commands, "check", check, "judge files and folders", """\
Judges the layout of Mach-O files, and prints a line for each, and how many there are of each kind. In a folder it
judges those files that begin with a magic number of Mach-O, and follows no links. Of an archive (zip, tar, or tar with
gzip, bzip2 or xz) it judges the members, in memory: nothing is written.""")
    _add_rules_url(parser)
    parser.add_argument("paths", nargs="*", metavar="PATH",
                        help="a file, a folder, an archive, or - for standard input")
    parser.add_argument("--format", choices=("text", *FORMS), default="text", help="how to print what is found: text "
                        "(the default), json, jsonl, sarif, junit or github")
    parser.add_argument("--explain", action="store_true", help="print what is wrong with each refused file, below its "
                        "line; the other forms always have it")
    parser.add_argument("--include", action="append", default=[], metavar="PATTERN",
                        help="in folders and archives, judge only files with such a name")
    parser.add_argument("--exclude", action="append", default=[], metavar="PATTERN",
                        help="in folders and archives, leave out files and folders with such a name; a pattern with a "
                        "slash must match the whole path")
    parser.add_argument("--archives", action="store_true", help="in folders, judge the members of archives too")
    counts = parser.add_mutually_exclusive_group()
    counts.add_argument("--expect", type=_positive, metavar="N", help="fail if fewer than N files are judged")
    counts.add_argument("--allow-none", action="store_true",
                        help="do not fail if no file is judged, or none in an archive")
    _add_max_unpacked(parser)
    kinds = parser.add_mutually_exclusive_group()
    kinds.add_argument("--fail-other-kinds", action="store_true",
                       help="refuse files in folders and archives that say they are of another kind, such as object "
                       "files. Otherwise they are counted and named")
    kinds.add_argument("--skip-other-kinds", action="store_true",
                       help="skip such files, also those that are named")
    parser.add_argument("--no-unsupported-slices", action="store_true",
                        help="refuse universal files with a 32-bit or big-endian slice, in which nothing is judged")
    parser.add_argument("--policy", metavar="FILE",
                        help="what accepted files have to meet besides, in TOML or JSON: see kesvuot(1)")
    parser.add_argument("--jobs", type=_positive, default=len(os.sched_getaffinity(0)), metavar="N",
                        help="how many processes judge (one for each processor)")
    parser.add_argument("--mmap", action="store_true", help="map files instead of reading them. ONLY FOR FILES THAT "
                        "NOBODY ELSE CAN WRITE TO: if one changes, its verdict means nothing, or the command is killed")
    add_words(parser)
    parser.add_argument("-q", "--quiet", action="store_true", help="print only files that are not accepted")
    parser.add_argument("--no-progress", action="store_true", help="show no bar on a terminal")


# explain, show, diff, map and policy


def _explain(words: argparse.Namespace) -> int:
    from ._explain import explain_file
    return explain_file(words.file, words.profile, words.json, words.max_unpacked)


def _show(words: argparse.Namespace) -> int:
    from ._show import show
    return show(words.file, words.profile, words.json, words.all, words.max_unpacked)


def _diff(words: argparse.Namespace) -> int:
    from ._diff import diff
    return diff(words.one, words.other, words.profile, words.json)


def _map(words: argparse.Namespace) -> int:
    from ._map import map_file
    return map_file(words.file, words.profile, words.output, words.max_unpacked)


def _policy(words: argparse.Namespace) -> int:
    from ._policy_writer import write_policy
    return write_policy(words.file, words.profile, words.json)


def _add_explain(commands: Any) -> None:
    parser = _add_command(commands, "explain", _explain, "say why a file is refused", """\
Says which parts of a refused file are in conflict, and shows the numbers and the bytes, what usually breaks the
rule, and what to do. For an accepted file it says what was not judged.""")
    _add_rules_url(parser)
    parser.add_argument("--json", action="store_true", help="print an object with all of that")
    _add_file(parser)


def _add_show(commands: Any) -> None:
    parser = _add_command(commands, "show", _show, "show the layout of a file", """\
Shows the layout of an accepted file: its slices, and for each 64-bit image its platform, segments, sections and
libraries, what its code signature says of itself, the cdhash of each code directory, and the entitlements. For a
refused file it prints the rule.""")
    _add_rules_url(parser)
    parser.add_argument("--all", action="store_true", help="print the exports, imports and fixups too")
    parser.add_argument("--json", action="store_true", help="print an object with all fields and load commands")
    _add_file(parser)


def _add_diff(commands: Any) -> None:
    parser = _add_command(commands, "diff", _diff, "compare the layouts of two files", """\
Prints how two accepted files differ, slice by slice: their headers and load commands, the contents of sections, the
exports, the symbols and the code signature. Lines with - are of the first file, and lines with + of the second one.""")
    parser.add_argument("--json", action="store_true", help="print an object with all changes")
    parser.add_argument("one", metavar="FILE", help="a file, or - for standard input")
    parser.add_argument("other", metavar="FILE")


def _add_map(commands: Any) -> None:
    parser = _add_command(commands, "map", _map, "draw a file and its address space", """\
Writes a page of HTML that shows the parts of a file to scale, beside the address space. It needs no network. For a
refused file it shows where the rule is broken, and the parts as far as the headers can be followed.""")
    _add_rules_url(parser)
    parser.add_argument("-o", "--output", default=STANDARD_OUTPUT, metavar="PAGE",
                        help="the file to write, such as map.html; otherwise standard output")
    _add_file(parser)


def _add_policy(commands: Any) -> None:
    parser = _add_command(commands, "policy", _policy, "write a policy that a file meets", """\
Writes a policy for check --policy that an accepted file meets, to start from: loosen it, and leave out what does not
matter.""")
    parser.add_argument("--json", action="store_true",
                        help="write JSON instead of TOML, which Python 3.11 or later reads")
    parser.add_argument("file", metavar="FILE", help="a file, or - for standard input")


# All commands

COMMANDS: Dict[str, Callable[[Any], None]] = {
    "check": _add_check, "explain": _add_explain, "show": _add_show, "diff": _add_diff, "map": _add_map,
    "policy": _add_policy}


class _Version(argparse.Action):
    def __init__(self, option_strings: Any, dest: str, **given: Any) -> None:
        super().__init__(option_strings, dest, nargs=0, **given)

    def __call__(self, parser: argparse.ArgumentParser, *given: Any) -> None:
        try:
            library = ".".join(map(str, library_version()))
        except ImportError as missing:
            parser.exit(2, f"kesvuot: version {VERSION}, without the library: {missing}\n")
        print(f"kesvuot {VERSION}, library {library}")
        parser.exit()


def make_parser() -> argparse.ArgumentParser:
    """The words of the command."""
    parser = argparse.ArgumentParser(
        prog="kesvuot", epilog=_epilog(*EXAMPLES.values()), formatter_class=argparse.RawDescriptionHelpFormatter,
        description="""\
Judges the layout of Mach-O files by a proved library. `kesvuot COMMAND --help` has the words of a command. Without a
command, `kesvuot [--strict] [--json | --layout] FILE..` judges files as in version 1.0.0.""")
    parser.add_argument("--version", action=_Version, help="print the versions of the command and of the library")
    commands = parser.add_subparsers(metavar="COMMAND", required=True)
    for add in COMMANDS.values():
        add(commands)
    return parser


def _command_like(word: str) -> Optional[str]:
    """The command that a word may be meant to be, if it is the name of no file."""
    if os.path.lexists(word):
        return None
    from difflib import get_close_matches
    return next(iter(get_close_matches(word, COMMANDS, n=1, cutoff=0.75)), None)


def read_words(words: List[str]) -> argparse.Namespace:
    """What to run. Words without a command are those of 1.0.0."""
    try:
        if words and words[0] not in (*COMMANDS, "-h", "--help", "--version"):
            meant = _command_like(words[0])
            if meant:
                make_parser().error(f"no command or file {words[0]!r}: did you mean {meant!r}?")
            from ._lines import files_words
            return files_words(words)
        chosen, others = make_parser().parse_known_args(words)
        if others:
            chosen.parser.error(f"unrecognized arguments: {' '.join(others)}")
        return chosen
    except OSError as error:
        # The help into a full disk.
        raise write_failed(error) from error


def run(words: List[str]) -> int:
    """Does what the words ask for, and returns the status."""
    end_at_interrupts()
    open_errors()
    chosen = read_words(words)
    library_version()
    PAGES.url = getattr(chosen, "rules_url", "")
    status: int = chosen.run(chosen)
    return status
