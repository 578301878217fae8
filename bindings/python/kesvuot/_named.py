"""A file by the name that `kesvuot check` prints of it. A member of an archive has one too."""

from __future__ import annotations

import errno
import os
from typing import Iterator

from ._check import ACCEPTED, NO_VERDICT, REFUSED, SKIPPED, Choice, Outcome, Target, judge, open_archives
from ._paths import SEPARATOR, path_of, shown

# Stands between the name of an archive and the name of a member, as they are printed.
MARK = "!"
# Of members with one name the outcome that comes first here is told.
RANKS = (REFUSED, NO_VERDICT, ACCEPTED)


def file_of(name: str) -> str:
    """The path of the file with this name, or of the archive that it is in."""
    if name == "-" or os.path.lexists(name):
        return name
    path = path_of(name.partition(MARK)[0])
    return path if MARK in name or os.path.lexists(path) else name


def judge_named(name: str, choice: Choice) -> Outcome:
    """Judges a file, or a member of an archive in memory, within the limits of `kesvuot check`."""
    path = file_of(name)
    if path == name or MARK not in name:
        return judge(Target(path), choice)
    # It is named, and then a file of another kind is refused.
    outcomes = list(_outcomes(name, path, choice._replace(fails_other_kinds=True)))
    if outcomes:
        return min(outcomes, key=lambda it: (shown(it.path) != name, RANKS.index(it.word)))
    why = f"there is no such Mach-O file in {shown(path)}" if os.path.lexists(path) else os.strerror(errno.ENOENT)
    return Outcome(SEPARATOR.join(map(path_of, name.split(MARK))), NO_VERDICT, reason=why)


def _outcomes(name: str, archive: str, choice: Choice) -> Iterator[Outcome]:
    """Those of the Mach-O files in an archive that have this name, and of archives around them that cannot be read."""
    for target in open_archives(iter([Target(archive)]), choice):
        word, path = target.outcome.word if target.outcome else "", shown(target.path)
        if (path == name and word != SKIPPED) or (word == NO_VERDICT and name.startswith(path + MARK)):
            yield judge(target, choice)
