"""The words and the forms of 1.0.0, which has no commands."""

from __future__ import annotations

import argparse
import json
from typing import Any, Dict, List

from ._check import ACCEPTED, NO_VERDICT, REFUSED, Choice, Extra, Outcome, Summary, judge_all
from ._files import File
from ._layout import slice_objects
from ._output import Output, say
from ._paths import file_object, shown
from ._profiles import DEFAULT
from ._reports import Report, Write


class Lines(Report):
    """A line for each verdict."""

    extra: Extra = None

    def __init__(self, write: Write, profile: str, has_heads: bool) -> None:
        super().__init__(write, profile)
        self.has_heads = has_heads

    def add(self, outcome: Outcome) -> None:
        if outcome.word == ACCEPTED:
            self.write(f"{shown(outcome.path)}: accepted\n")
        elif outcome.word == REFUSED:
            self.write(f"{shown(outcome.path)}: refused: {outcome.refusal}\n")


class Layouts(Lines):
    """What macho-check prints of each file."""

    extra = staticmethod(File.layout)

    def add(self, outcome: Outcome) -> None:
        if self.has_heads:
            self.write(f"{shown(outcome.path)}:\n")
        if outcome.word != NO_VERDICT:
            self.write(outcome.extra if outcome.word == ACCEPTED else f"refused: {outcome.refusal}\n")


class Objects(Lines):
    """An object for each file."""

    extra = staticmethod(slice_objects)

    def add(self, outcome: Outcome) -> None:
        answer: Dict[str, Any] = {**file_object(outcome.path), "verdict": outcome.word}
        if outcome.word == ACCEPTED:
            answer.update(slices=outcome.extra)
        elif outcome.word == REFUSED:
            answer.update(rule=outcome.rule, place=outcome.place)
        else:
            answer.update(verdict=None, error=outcome.reason)
        self.write(json.dumps(answer) + "\n")


def judge_files(words: argparse.Namespace) -> int:
    """Judges files as 1.0.0 does: none is a folder, and there is no summary."""
    output = Output()
    report = words.form(output.write, "", len(words.files) > 1)
    choice = Choice(words.profile, walks=False, extra=words.form.extra)
    summary = Summary()
    for outcome in judge_all(words.files, choice, jobs=1):
        summary.add(outcome)
        if outcome.word == NO_VERDICT:
            say(f"{shown(outcome.path)}: {outcome.reason}")
        report.add(outcome)
    output.flush()
    return summary.status


def files_words(words: List[str]) -> argparse.Namespace:
    parser = argparse.ArgumentParser(prog="kesvuot", usage="kesvuot [--strict] [--json | --layout] FILE..")
    parser.add_argument("--strict", dest="profile", action="store_const", const="strict")
    form = parser.add_mutually_exclusive_group()
    form.add_argument("--json", dest="form", action="store_const", const=Objects)
    form.add_argument("--layout", dest="form", action="store_const", const=Layouts)
    parser.add_argument("files", nargs="+", metavar="FILE")
    parser.set_defaults(profile=DEFAULT, form=Lines, run=judge_files)
    return parser.parse_args(words)
