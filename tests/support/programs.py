"""The programs and the library of this repository, and whether they are built."""

from __future__ import annotations

import os
import re
import shutil
import tempfile
from pathlib import Path

from .calling import TOP, call, shell

# Each has the rules of those before it.
PROFILES = tuple(row.split("\t")[1] for row in (TOP / "registry/profiles.tsv").read_text("ascii").splitlines()[1:])
MACHO_CHECK = TOP / "build/programs/macho-check"
MACHO_VERIFY = TOP / "build/programs/macho-verify"
# What make builds and installs.
PROGRAMS = {"macho-check": MACHO_CHECK, "macho-verify": MACHO_VERIFY}
HEADER = TOP / "bindings/c/kesvuot.h"
MACHO_TRIALS = TOP / "crates/macho_trials/out/macho_trials"
REAL = TOP / "tests/real"
# The file of the stored run of macho-check, and its layout.
EXECUTABLE, LAYOUT = TOP / "crates/macho_check/stdin", TOP / "crates/macho_check/stdout"


def is_built(command: str) -> bool:
    """Builds the program of a command, such as ./macho-check, where it is not current."""
    return call(TOP / "packaging/program", command, stderr=2).status == 0


def why_outdated(name: str) -> str:
    """Why a program or `libkesvuot` is not current, or nothing where it is."""
    return shell('top=$1 && . "$top/packaging/record.sh" && take_program "$2" && '
                 '{ is_current || echo "${reason:-it cannot be read}"; }', TOP, name).text


def is_kept(crate: str) -> bool:
    """Whether packaging/prove has kept what was proved of this crate, and of those below it."""
    return call(TOP / "packaging/prove", "--kept", "rt", crate).status == 0


def library_folder() -> Path:
    """The folder of the library that is tested."""
    return Path(os.environ.get("KESVUOT_LIB_DIR") or TOP / "build/lib").resolve()


def why_no_library() -> str:
    """Why there is no library to test, or nothing where there is one: that of KESVUOT_LIB_DIR, or else that of
    build/lib, which has to be current."""
    folder = library_folder()
    if folder != TOP / "build/lib":
        return "" if os.access(folder / "libkesvuot.a", os.R_OK) else f"there is no libkesvuot.a in {folder}"
    why = why_outdated("libkesvuot")
    return f"libkesvuot: {why}: make lib builds it" if why else ""


def calls_of_header() -> list[str]:
    """The calls of the library that the header declares, without the functions that it defines itself."""
    return sorted(re.findall(r"^[a-z0-9_]* (kesvuot_[a-z_]*)\(", HEADER.read_text(encoding="utf-8"), re.MULTILINE))


def is_older(program: Path) -> bool:
    """Whether a program is not there, or older than a source."""
    if not os.access(program, os.X_OK):
        return True
    built = program.stat().st_mtime_ns
    for folder, folders, files in os.walk(TOP / "crates"):
        folders[:] = [name for name in folders if name != "out"]
        if any(Path(folder, name).lstat().st_mtime_ns > built for name in files):
            return True
    return False


def build_trials() -> str:
    """Builds the program macho_trials where it is not there, or older than a source. Returns why it is not there."""
    if not is_older(MACHO_TRIALS):
        return ""
    with tempfile.TemporaryDirectory(prefix="macho-check-tests.") as room:
        copy = Path(room) / "copy"
        ran = call(TOP / "packaging/prove", f"{room}/messages", "rt", copy, "macho_trials")
        if ran.status:
            return f"{MACHO_TRIALS} was not built: {ran.error[-2000:]}"
        MACHO_TRIALS.parent.mkdir(exist_ok=True)
        shutil.copy(copy / MACHO_TRIALS.relative_to(TOP), MACHO_TRIALS)
    return ""
