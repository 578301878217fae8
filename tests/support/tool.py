"""Runs the command `kesvuot` (bindings/python) in a folder of files."""

from __future__ import annotations

import sys

from fixtures.files import make_folder

from .calling import TOP, Answer, Word, call, with_variables
from .cases import Case, LibraryCase
from .programs import library_folder

MODULE = TOP / "bindings/python"
# The interpreter itself, with the standard library alone. A warning is an error.
PYTHON = [sys.executable, "-S", "-W", "error"]
# What Python compiles of its modules and of ours, for all scripts: it takes longer than most calls of the command.
COMPILED = TOP / "build/python"


def tool_environment(**variables: object) -> dict[str, str]:
    """The environment in which Python finds the package `kesvuot` and the library, with these variables besides. Output
    is buffered, as it is by default."""
    return with_variables(**{
        "PYTHONDONTWRITEBYTECODE": None, "PYTHONPYCACHEPREFIX": COMPILED, "PYTHONPATH": MODULE,
        "PYTHONIOENCODING": "utf-8", "PYTHONUNBUFFERED": None, "KESVUOT_LIB_DIR": library_folder(), "NO_COLOR": None,
        "TERM": "xterm", **variables})


class ToolCase(Case):
    """A folder with the real files, one that was cut, one with bytes after its end, and some that are no Mach-O."""

    def setUp(self) -> None:
        super().setUp()
        self.files = make_folder(self.room / "files")
        self.environment = tool_environment(TMPDIR=self.room)

    def run_here(self, *words: Word, **given) -> Answer:
        """Runs Python in the folder of files."""
        return call(*PYTHON, *words, folder=self.files, environment=self.environment, **given)

    def tool(self, *words: Word, **given) -> Answer:
        return self.run_here("-m", "kesvuot", *words, **given)

    def check(self, *words: Word, **given) -> Answer:
        return self.tool("check", *words, **given)

    def says(self, case: str, answer: Answer, status: int, out: str, error: str = "") -> None:
        """The run ended with this status, and wrote exactly this, with a newline after each."""
        self.same(case, (answer.status, answer.text, answer.error), (status, out, error))

    def is_usage(self, case: str, answer: Answer, command: str) -> None:
        with self.case(case):
            self.assertEqual((answer.status, answer.text), (2, ""))
            self.assertTrue(answer.error.startswith(f"usage: kesvuot{command}"), answer.error)


class ToolLibraryCase(ToolCase, LibraryCase):
    """A test of what the library answers by it."""
