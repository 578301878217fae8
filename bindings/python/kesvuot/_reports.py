"""The forms in which `kesvuot check` says what it has found. Each file is written when its verdict is there, and none
is kept, however many there are."""

from __future__ import annotations

import json
from typing import TYPE_CHECKING, Any, Callable, Dict, NamedTuple, Optional, Type

from . import _policy_reports
from ._check import (
    ACCEPTED, NO_VERDICT, NOT_BY_POLICY, OTHER_KIND, REFUSED, SKIPPED, UNSUPPORTED_SLICE, ExtraOfRefused, Outcome,
    Summary)
from ._files import Refused
from ._output import AS_BYTES
from ._pages import PAGES, see
from ._paths import file_object, located, shown
from ._reading import Contents
from ._rules import RULES, Rule

if TYPE_CHECKING:
    from ._policy import Policy

Write = Callable[[str], Any]

# The version of the package (VERSION).
VERSION = "2.0.0-dev"

# The form of the objects of JSON. A field may be added without a new version.
CHECK_VERSION = 1


# With what stands in place of a rule for a file that --no-unsupported-slices refuses.
RULES_AND_CHOICES: Dict[str, Rule] = {**RULES, UNSUPPORTED_SLICE: Rule(
    "rules/README.md",
    "a slice is 32-bit or big-endian, so that no rule judges what is in it. No profile refuses such a file: kesvuot "
    "check --no-unsupported-slices does.",
    "what was not judged can hold anything.",
    "code for a processor such as i386 or PowerPC beside that for the others.",
    "take the slice out, by lipo -remove, or do without the option.",
    "ask for a file without the slice, or do without the option.",
    "its first bytes:", ("od -A x -t x1 -j PLACE -N 4 FILE",))}


def rule_text(rule: str) -> str:
    """When a rule is violated."""
    return f"Violated when {RULES_AND_CHOICES[rule].broken}"


def section(rule: str) -> str:
    """The section of a rule on its page."""
    return f"{RULES_AND_CHOICES[rule].page}#{rule}"


class Said(NamedTuple):
    """What a report says of a refused file besides its rule: the sentence of `kesvuot explain`, and how many bytes of
    the file the structure at the place has from there on."""

    says: str = ""
    size: int = 0


def said_of(data: Contents, refused: Refused) -> Said:
    """What is said of the bytes of a file. The verdict stands, whatever goes wrong with what is said of it."""
    from ._stories import told_of  # pylint: disable=import-outside-toplevel # it loads much, and few files are refused
    try:
        told = told_of(data, refused, is_for_report=True)
    except Exception:  # pylint: disable=broad-except # no sentence is worth a verdict
        told = None
    end = min(told.case.explanation.at.end, len(data)) if told else 0
    return Said(told.story.says if told else "", max(end - refused.place, 0))


def kind_text(outcome: Outcome) -> str:
    """Says of a file or of a slice of another kind which it is."""
    if outcome.unsupported:
        return f"slice {outcome.unsupported.index}: {outcome.unsupported.arch}, not judged"
    return f"kind: {outcome.kind}, not judged" if outcome.kind else ""


def reason_text(outcome: Outcome) -> str:
    """Why a file is not accepted."""
    if outcome.word == NO_VERDICT:
        return f"no verdict: {outcome.reason}"
    notes = "; ".join(filter(None, (kind_text(outcome), "known" if outcome.is_known else "")))
    return f"refused: {outcome.refusal}{f' ({notes})' if notes else ''}"


def found_text(outcome: Outcome) -> str:
    """What is said of a file that was found and is of another kind."""
    return f"{outcome.kind}, not judged"


def texts(outcome: Outcome) -> str:
    """What is wrong with a refused file, if that is known, and when its rule is violated."""
    return " ".join(filter(None, (outcome.extra.says if outcome.extra else "", rule_text(outcome.rule))))


def check_object(outcome: Outcome) -> Dict[str, Any]:
    """What is said of a file, for JSON (docs/check.schema.json)."""
    whole: Dict[str, Any] = {**file_object(outcome.path), "verdict": outcome.word, "status": outcome.status}
    if outcome.word == ACCEPTED:
        whole.update(size=outcome.size, slice_count=outcome.slices)
    elif outcome.word == NOT_BY_POLICY:
        whole.update(size=outcome.size, slice_count=outcome.slices, policy=_policy_reports.objects(outcome))
    elif outcome.word in (REFUSED, OTHER_KIND):
        link = PAGES.shared(section(outcome.rule))
        whole.update(rule=outcome.rule, place=outcome.place, text=rule_text(outcome.rule), kind=outcome.kind,
                     **({"link": link} if link else {}))
        if outcome.unsupported:
            whole.update(slice=outcome.unsupported._asdict())
    else:
        whole.update(verdict=None, error=outcome.reason, **({"kind": outcome.kind} if outcome.kind else {}))
    if outcome.is_known:
        whole.update(known=True)
    return whole


class Report:
    """A form. `begin` and `end` come once, and `add` for each file that is judged, or skipped."""

    # How a letter is written that the encoding of the output does not have.
    errors = AS_BYTES
    # The encoding, if it is not that of the locale.
    encoding = ""
    # What a file can be refused for.
    rules = RULES
    # The policy that accepted files have to meet too.
    policy: Optional[Policy] = None
    # Whether some refusals may be known.
    has_baseline = False
    # What is asked of a refused file. The answer is `extra` of its outcome.
    of_refused: ExtraOfRefused = staticmethod(said_of)
    # Whether it is finished after a signal too, so that a reader of it gets what it can read.
    is_whole = True

    def __init__(self, write: Write, profile: str) -> None:
        self.write = write
        self.profile = profile

    def begin(self) -> None:
        """What comes before all files."""

    def add(self, outcome: Outcome) -> None:
        """A file."""

    def end(self, summary: Summary) -> None:
        """What comes after all files."""

    def close(self) -> None:
        """Ends the report, also one that could not be written."""


def _file_object(outcome: Outcome) -> Dict[str, Any]:
    """What is said of a file, with the sentence if it is refused."""
    whole = check_object(outcome)
    if outcome.word == REFUSED and outcome.extra and outcome.extra.says:
        whole.update(says=outcome.extra.says)
    return whole


class JsonLines(Report):
    """An object in each line. A run that has failed has one more, with its counts."""

    def add(self, outcome: Outcome) -> None:
        if outcome.word != SKIPPED:
            self.write(json.dumps(_file_object(outcome)) + "\n")

    def end(self, summary: Summary) -> None:
        if summary.fault:
            self.write(json.dumps({"summary": summary.object()}) + "\n")


class Json(Report):
    """One object."""

    separator = "\n    "

    def begin(self) -> None:
        policy = f'  "policy": {json.dumps(self.policy.path)},\n' if self.policy else ""
        self.write(f'{{\n  "schema": "kesvuot-check",\n  "version": {CHECK_VERSION},\n'
                   f'  "profile": {json.dumps(self.profile)},\n{policy}  "files": [')

    def add(self, outcome: Outcome) -> None:
        if outcome.word != SKIPPED:
            self.write(self.separator + json.dumps(_file_object(outcome)))
            self.separator = ",\n    "

    def end(self, summary: Summary) -> None:
        self.write(f'\n  ],\n  "summary": {json.dumps(summary.object())}\n}}\n')


class GitHub(Report):
    """A command of GitHub's workflows for each file that is not accepted, for each key of a policy that a file does not
    meet, and for a run that has failed; a warning for the first files that were found and are of another kind; and the
    summary."""

    def add(self, outcome: Outcome) -> None:
        if outcome.word == REFUSED and not outcome.is_known:
            self._annotate(outcome, outcome.rule, f"{reason_text(outcome)}. {texts(outcome)}"
                                                  f"{see(PAGES.shared(section(outcome.rule)))}")
        elif outcome.word == NOT_BY_POLICY:
            for unmet, line in zip(outcome.unmet, _policy_reports.lines(outcome)):
                self._annotate(outcome, _policy_reports.rule_of(unmet.key), f"{line}.{see(_policy_reports.page())}")
        elif outcome.word == NO_VERDICT:
            self._annotate(outcome, outcome.word, reason_text(outcome))

    def _annotate(self, outcome: Outcome, title: str, text: str, level: str = "error") -> None:
        def value(word: str) -> str:
            return escaped(word).replace(":", "%3A").replace(",", "%2C")

        message = escaped(f"{shown(outcome.path)}: {text}")
        self.write(f"::{level} file={value(located(outcome.path))},title={value(f'kesvuot: {title}')}::{message}\n")

    def end(self, summary: Summary) -> None:
        for outcome in summary.found:
            self._annotate(outcome, "not judged", found_text(outcome), "warning")
        if summary.fault:
            self.write(f"::error title=kesvuot::{escaped(summary.fault)}\n")
        self.write(f"{summary}\n")


def escaped(text: str) -> str:
    """A text in a command of GitHub's workflows."""
    return text.replace("%", "%25").replace("\r", "%0D").replace("\n", "%0A")


# The forms besides that for people.
FORMS = ("json", "jsonl", "sarif", "junit", "github")


def report_of(form: str) -> Type[Report]:
    """The report in one of the forms. Two of them load much that no other needs."""
    # pylint: disable=import-outside-toplevel
    if form == "sarif":
        from ._sarif import Sarif
        return Sarif
    if form == "junit":
        from ._junit import Junit
        return Junit
    return {"json": Json, "jsonl": JsonLines, "github": GitHub}[form]
