"""Cases, and the end of a script: a line for each case says that it has passed, has failed or was skipped, and the last
line counts them, as tests/counting does for the scripts in sh.

A test of unittest may have several cases, each with a name, which `Case.case` begins and `Case.same` is. A test without
one is a case of its own.
"""

from __future__ import annotations

import tempfile
import traceback
import unittest
from contextlib import contextmanager
from pathlib import Path
from typing import Iterator, NoReturn, Sequence

from .calling import Answer, has_tool
from .processes import end_with_children
from .programs import is_built, why_no_library


class Case(unittest.TestCase):
    """A test with a folder `room` of its own."""
    maxDiff = None
    room: Path

    def setUp(self) -> None:
        self.room = Path(tempfile.mkdtemp(prefix="test."))
        self.addTypeEqualityFunc(Answer, self.assert_answer)

    @contextmanager
    def case(self, name: str) -> Iterator[None]:
        """A case of this name. The test goes on where it fails."""
        with self.subTest(case=name):
            yield

    def assert_answer(self, found: Answer, wanted: Answer, msg: str | None = None) -> None:
        if found != wanted:
            self.fail(msg or f"found {found}, wanted {wanted}")

    def same(self, case: str, found: object, wanted: object) -> None:
        with self.case(case):
            self.assertEqual(found, wanted)

    def has(self, case: str, found: str, part: str) -> None:
        with self.case(case):
            self.assertIn(part, found)

    def skip(self, case: str, why: str) -> None:
        """Says of a case that it has neither passed nor failed."""
        with self.case(case):
            self.skipTest(why)

    def needs(self, case: str, *tools: str) -> bool:
        """Whether these tools are there. Where one is not, the case is skipped."""
        for tool in tools:
            if not has_tool(tool):
                self.skip(case, f"there is no {tool}")
                return False
        return True

    def needs_library(self, case: str) -> bool:
        """Whether there is a library to test. Where there is none, the case is skipped."""
        why = why_no_library()
        if why:
            self.skip(case, why)
        return not why

    def answers(self, case: str, answer: Answer, status: int, out: str = "", err: str = "") -> None:
        """The program ended with this status, and wrote exactly this."""
        self.same(case, answer, Answer(status, out.encode(), err.encode()))

    def succeeds(self, answer: Answer) -> Answer:
        """The answer of a call that only prepares a case, and has to end with 0."""
        self.assertEqual(answer.status, 0, answer.error or answer.text)
        return answer


class LibraryCase(Case):
    """A test of what the library answers, which is skipped where there is no library to test."""

    @classmethod
    def setUpClass(cls) -> None:
        why = why_no_library()
        if why:
            raise unittest.SkipTest(f"{cls.__name__}: {why}")


class Lines(unittest.TestResult):
    """Prints the lines, and counts."""

    def __init__(self) -> None:
        super().__init__()
        self.passed = self.failed = self.skips = 0
        self.has_cases = False

    def pass_case(self, name: str) -> None:
        self.passed += 1
        print(f"ok      {name}", flush=True)

    def fail_case(self, name: str, why: str) -> None:
        self.failed += 1
        print(f"FAILED  {name}: {why}", flush=True)

    def startTest(self, test: unittest.TestCase) -> None:
        super().startTest(test)
        self.has_cases = False

    def addSubTest(self, test, subtest, err) -> None:
        self.has_cases = True
        if err is None:
            self.pass_case(subtest.params["case"])
        else:
            self.fail_case(subtest.params["case"], why_of(err))

    def addSuccess(self, test: unittest.TestCase) -> None:
        if not self.has_cases:
            self.pass_case(name_of(test))

    def addFailure(self, test, err) -> None:
        self.fail_case(name_of(test), why_of(err))

    addError = addFailure

    def addSkip(self, test, reason: str) -> None:
        self.has_cases = True
        self.skips += 1
        print(f"skipped {test.params['case'] if hasattr(test, 'params') else name_of(test)}: {reason}", flush=True)

    def close(self) -> int:
        """Prints the closing line, and returns 0 where no case has failed, and some have passed or were skipped."""
        print(f"{self.passed} passed, {self.failed} failed", flush=True)
        return 0 if not self.failed and self.passed + self.skips else 1


def name_of(test: unittest.TestCase) -> str:
    return test.shortDescription() or str(test)


def why_of(err) -> str:
    """Why a case has failed: what was found where it should be another, or otherwise where the test has stopped."""
    if issubclass(err[0], AssertionError):
        return str(err[1])
    return "".join(traceback.format_exception(*err)).rstrip()


class Runner:
    """Runs the tests that unittest.main has chosen."""

    def __init__(self, programs: Sequence[str]) -> None:
        self.programs = programs
        self.status = 1

    def run(self, tests: unittest.TestSuite) -> Lines:
        lines = Lines()
        missing = [name for name in self.programs if not is_built(name)]
        if missing:
            lines.fail_case("the program", f"{', '.join(missing)}: not built")
        else:
            tests.run(lines)
        self.status = lines.close()
        return lines


def main(*programs: str) -> NoReturn:
    """Runs the tests of the script, or those that its words name, as unittest.main has them: `Words.test_files`, or
    `-k` and a part of a name. These programs are built first where they are not current."""
    def run() -> int:
        runner = Runner(programs)
        before = tempfile.tempdir
        with tempfile.TemporaryDirectory(prefix="macho-check-tests.") as room:
            tempfile.tempdir = room
            try:
                unittest.main(testRunner=runner, exit=False)
            finally:
                tempfile.tempdir = before
        return runner.status

    end_with_children(run)
