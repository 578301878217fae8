"""The report of `kesvuot check` for JUnit. It has a module of its own: Python's writer of XML loads an HTTP client, which
no other form needs."""

from __future__ import annotations

from typing import TYPE_CHECKING, Optional
from xml.sax.saxutils import escape, quoteattr

from ._check import ACCEPTED, NO_VERDICT, NOT_BY_POLICY, OTHER_KIND, REFUSED, SKIPPED, Outcome, Summary
from ._paths import located, shown
from ._policy_reports import lines, rule_of
from ._reports import Report, Write, found_text, reason_text, texts
from ._waiting import Waiting

if TYPE_CHECKING:
    from ._policy import Unmet


class JunitSuite:
    """The suite of a policy: a case for each accepted file that meets it, and otherwise a failure for each key and
    slice."""

    def __init__(self) -> None:
        self.cases = Waiting()
        self.tests = self.failures = 0

    def add(self, outcome: Outcome, name: str, path: str) -> None:
        """A file, by its name on one line and by the path with which a tool opens it."""
        if outcome.word == ACCEPTED:
            self._add(name, path, "")
        for unmet, line in zip(outcome.unmet, lines(outcome)):
            self._add(name, path, line, unmet)

    def _add(self, name: str, path: str, line: str, unmet: Optional[Unmet] = None) -> None:
        end = "/>"
        if unmet:
            name += f": {unmet.key}" + ("" if unmet.index is None else f", slice {unmet.index}")
            end = (f">\n      <failure type={quoteattr(rule_of(unmet.key))} message={quoteattr(line)}/>\n"
                   "    </testcase>")
            self.failures += 1
        self.tests += 1
        start = f'    <testcase classname="kesvuot.policy" name={quoteattr(name)} file={quoteattr(path)}'
        self.cases.add(f"{start}{end}\n")

    def head(self, path: str) -> str:
        counts = f'tests="{self.tests}" failures="{self.failures}" errors="0" skipped="0"'
        return f"  <testsuite name={quoteattr(f'kesvuot check, policy {path}')} {counts}>\n"

    def close(self) -> None:
        self.cases.close()


class Junit(Report):
    """A test case for each file: a refusal is a failure, and no verdict an error. A policy has a suite of its own."""

    errors = "xmlcharrefreplace"
    encoding = "ascii"

    def __init__(self, write: Write, profile: str) -> None:
        super().__init__(write, profile)
        self.cases = Waiting()
        self.suite = JunitSuite()

    def add(self, outcome: Outcome) -> None:
        if outcome.word == SKIPPED:
            return
        name, path = quoteattr(shown(outcome.path)), quoteattr(located(outcome.path))
        start = f'    <testcase classname="kesvuot.{self.profile}" name={name} file={path}'
        if self.policy:
            self.suite.add(outcome, shown(outcome.path), located(outcome.path))
        if outcome.word in (ACCEPTED, NOT_BY_POLICY):
            self.cases.add(f"{start}/>\n")
            return
        if outcome.word == OTHER_KIND or outcome.is_known:
            reason = found_text(outcome) if outcome.word == OTHER_KIND else reason_text(outcome)
            self.cases.add(f"{start}>\n      <skipped message={quoteattr(reason)}/>\n    </testcase>\n")
            return
        is_refused = outcome.word == REFUSED
        tag, kind = ("failure", outcome.rule) if is_refused else ("error", outcome.word)
        text = escape(texts(outcome)) if is_refused else ""
        self.cases.add(f"{start}>\n      <{tag} type={quoteattr(kind)} message={quoteattr(reason_text(outcome))}>"
                       f"{text}</{tag}>\n    </testcase>\n")

    def end(self, summary: Summary) -> None:
        tests = sum(count for word, count in summary.words.items() if word != SKIPPED)
        errors, failures = summary.words[NO_VERDICT], summary.words[REFUSED] - summary.known
        if summary.fault:
            tests, errors = tests + 1, errors + 1
            kind = "interrupted" if summary.signal else "failed"
            self.cases.add(f'    <testcase classname="kesvuot.{self.profile}" name="all files">\n'
                           f'      <error type="{kind}" message={quoteattr(summary.fault)}/>\n    </testcase>\n')
        counts = f'tests="{tests}" failures="{failures}" errors="{errors}"'
        whole = (f'tests="{tests + self.suite.tests}" failures="{failures + self.suite.failures}" '
                 f'errors="{errors}"')
        self.write(f'<?xml version="1.0" encoding="UTF-8"?>\n<testsuites name="kesvuot" {whole}>\n'
                   f'  <testsuite name="kesvuot check, profile {self.profile}" {counts} '
                   f'skipped="{summary.words[OTHER_KIND] + summary.known}">\n')
        self.cases.write_to(self.write)
        self.write("  </testsuite>\n")
        if self.policy:
            self.write(self.suite.head(shown(self.policy.path)))
            self.suite.cases.write_to(self.write)
            self.write("  </testsuite>\n")
        self.write("</testsuites>\n")

    def close(self) -> None:
        self.cases.close()
        self.suite.close()
