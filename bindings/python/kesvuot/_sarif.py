"""The report of `kesvuot check` in SARIF."""

from __future__ import annotations

import json
import signal
from typing import Any, Dict

from . import _policy_reports
from ._check import NO_VERDICT, NOT_BY_POLICY, OTHER_KIND, REFUSED, Outcome, Summary
from ._pages import PAGES, see
from ._paths import uri
from ._reports import (
    RULES_AND_CHOICES, VERSION, Report, Said, Write, found_text, reason_text, rule_text, section, texts)
from ._rules import Rule
from ._waiting import Waiting


class Sarif(Report):
    """SARIF 2.1.0: a result for each refused file and for each key of a policy that a file does not meet, and a
    notification for each without a verdict, or of another kind. The region is one of bytes, because the files are no
    texts. It has a line all the same, without which some consumers take no result."""

    SCHEMA = "https://json.schemastore.org/sarif-2.1.0.json"

    def __init__(self, write: Write, profile: str) -> None:
        super().__init__(write, profile)
        self.separator = "\n        "
        self.faults = Waiting()
        self.numbers = {rule: number for number, rule in enumerate(RULES_AND_CHOICES)}

    def begin(self) -> None:
        rules = ",\n            ".join(map(json.dumps, [
            *(self._rule(name, rule) for name, rule in self.rules.items()),
            *_policy_reports.sarif_rules(self.policy)]))
        properties = {"profile": self.profile, **({"policy": self.policy.path} if self.policy else {})}
        self.write(f'{{\n  "$schema": "{self.SCHEMA}",\n  "version": "2.1.0",\n  "runs": [\n    {{\n'
                   f'      "tool": {{\n        "driver": {{\n          "name": "kesvuot",\n'
                   f'          "version": {json.dumps(VERSION)},\n          "rules": [\n'
                   f'            {rules}\n          ]\n        }}\n      }},\n'
                   f'      "properties": {json.dumps(properties)},\n      "results": [')

    @staticmethod
    def _rule(name: str, rule: Rule) -> Dict[str, Any]:
        page = PAGES.shared(section(name))
        # A helpUri is absolute.
        uris = {"helpUri": page} if ":" in page else {}
        return {"id": name, "name": name.title().replace("-", ""), **uris,
                "shortDescription": {"text": name}, "fullDescription": {"text": rule_text(name)},
                "help": {"text": f"Why: {rule.why}\nUsual cause: {rule.cause}\nWhat to do: {rule.remedy}\n"
                                 f"If you received the file: {rule.received}{see(page)}"},
                "defaultConfiguration": {"level": "error"}}

    def add(self, outcome: Outcome) -> None:
        physical: Dict[str, Any] = {"artifactLocation": {"uri": uri(outcome.path)}}
        location = {"physicalLocation": physical}
        if outcome.word == REFUSED:
            # Of a file that is only compressed, or whose refusal is known, no structure was looked for.
            size = outcome.unsupported.size if outcome.unsupported else (outcome.extra or Said()).size
            physical["region"] = {"byteOffset": outcome.place, "byteLength": size, "startLine": 1}
            result = {"ruleId": outcome.rule, "ruleIndex": self.numbers[outcome.rule], "level": "error",
                      "message": {"text": f"{reason_text(outcome)}. {texts(outcome)}"},
                      "locations": [location], "properties": {"kind": outcome.kind}}
            if self.has_baseline:
                result["baselineState"] = "unchanged" if outcome.is_known else "new"
            self.write(self.separator + json.dumps(result))
            self.separator = ",\n        "
        elif outcome.word == NOT_BY_POLICY:
            physical["region"] = {"startLine": 1}
            for result in _policy_reports.sarif_results(outcome, self.policy, len(self.rules), location):
                self.write(self.separator + json.dumps(result))
                self.separator = ",\n        "
        elif outcome.word == NO_VERDICT:
            self._notify({"level": "error", "message": {"text": reason_text(outcome)}, "locations": [location]})
        elif outcome.word == OTHER_KIND:
            self._notify({"level": "warning", "message": {"text": found_text(outcome)}, "locations": [location]})

    def _notify(self, fault: Dict[str, Any]) -> None:
        before = ",\n            " if self.faults else "\n            "
        self.faults.add(before + json.dumps(fault))

    def end(self, summary: Summary) -> None:
        name = signal.Signals(summary.signal).name if summary.signal else ""
        signals = f'          "exitSignalName": "{name}",\n' if name else ""
        is_done = summary.words[NO_VERDICT] == 0 and not summary.fault
        if summary.fault:
            self._notify({"level": "error", "message": {"text": summary.fault}})
        self.write(f'\n      ],\n      "invocations": [\n        {{\n          "executionSuccessful": '
                   f'{json.dumps(is_done)},\n          "exitCode": {summary.status},\n{signals}'
                   '          "toolExecutionNotifications": [')
        self.faults.write_to(self.write)
        self.write("\n          ]\n        }\n      ]\n    }\n  ]\n}\n")

    def close(self) -> None:
        self.faults.close()
