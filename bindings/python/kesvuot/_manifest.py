"""Manifests: a line for each judged file, with the SHA-256 of the bytes that were judged and the verdict. What a
manifest knows need not be judged again."""

from __future__ import annotations

import hashlib
import json
import mmap
import os
import re
import secrets
from contextlib import suppress
from functools import lru_cache
from typing import Any, Dict, Iterator, Optional, Set, Tuple

from . import library_version
from ._check import (
    ACCEPTED, NO_VERDICT, NOT_BY_POLICY, OTHER_KIND, REFUSED, Choice, Identity, Outcome, Stopped, Unsupported,
    is_asked_for, is_left_out)
from ._paths import SEPARATOR, file_object, matched, shown
from ._reading import Stamp, stamp_of
from ._reports import RULES_AND_CHOICES
from ._table import Table

# The form of a manifest. A field may be added to its lines without a new version.
SCHEMA, MANIFEST_VERSION = "kesvuot-manifest", 1
SHA256 = re.compile("[0-9a-f]{64}")
# The path of standard input. No file of a folder has it.
STANDARD_INPUT = "-"
# The verdict of the profile on a file with one of these words. Others depend on what else was asked.
VERDICTS = {ACCEPTED: ACCEPTED, NOT_BY_POLICY: ACCEPTED, REFUSED: REFUSED, OTHER_KIND: REFUSED}


class ManifestError(Stopped):
    """A manifest cannot be written, or not be read, or says nothing about these verdicts."""


def conditions(choice: Choice) -> Dict[str, Any]:
    """What verdicts depend on besides the bytes. The first line of a manifest has it."""
    return {"library": ".".join(map(str, library_version())), "profile": choice.profile,
            "no_unsupported_slices": choice.refuses_unsupported}


# Lines


def path_of(line: Dict[str, Any]) -> str:
    """The path that a line is about."""
    path = os.fsdecode(bytes.fromhex(line["name_bytes"])) if "name_bytes" in line else line["file"]
    if not isinstance(path, str):
        raise TypeError
    return path


def line_of(outcome: Outcome) -> Dict[str, Any]:
    """What is written of a file (docs/manifest.schema.json)."""
    line: Dict[str, Any] = {**file_object(outcome.path), "verdict": VERDICTS.get(outcome.word)}
    if outcome.identity is None or line["verdict"] is None:
        return {**line, "verdict": None, "error": outcome.reason}
    line.update(sha256=outcome.identity.sha256, size=outcome.size)
    if line["verdict"] == ACCEPTED:
        line.update(slice_count=outcome.slices)
    else:
        line.update(rule=outcome.rule, place=outcome.place, kind=outcome.kind)
        if outcome.unsupported:
            line.update(slice=outcome.unsupported._asdict())
    if outcome.identity.stamp:
        line.update(stamp=outcome.identity.stamp._asdict())
    return line


def outcome_of(line: Dict[str, Any], path: str) -> Outcome:
    """What a line says, of a file at this path. Raises KeyError, TypeError or ValueError if it is not a line of a verdict.
    """
    identity = Identity(line["sha256"], Stamp(**line["stamp"]) if "stamp" in line else None)
    if not SHA256.fullmatch(identity.sha256):
        raise ValueError
    size = whole_number(line["size"])
    if line["verdict"] == ACCEPTED:
        return Outcome(path, ACCEPTED, size, whole_number(line["slice_count"]), identity=identity, is_known=True)
    rule, kind = line["rule"], line["kind"]
    if line["verdict"] != REFUSED or rule not in RULES_AND_CHOICES or not isinstance(kind, (str, type(None))):
        raise ValueError
    part = Unsupported(**line["slice"]) if "slice" in line else None
    return Outcome(path, REFUSED, size, rule=rule, place=whole_number(line["place"]), kind=kind, unsupported=part,
                   identity=identity, is_known=True)


def whole_number(value: Any) -> int:
    if type(value) is not int or value < 0:  # pylint: disable=unidiomatic-typecheck # True is an int
        raise ValueError
    return value


# Writing


class Manifest:
    """A manifest that is written: to a file beside it, which takes its place when all is there. Whatever happens before
    that, the old one stays as it was."""

    def __init__(self, path: str, choice: Choice) -> None:
        self.name = shown(path)
        self.path = os.path.realpath(path)
        if os.path.lexists(self.path) and not os.path.isfile(self.path):
            raise ManifestError(f"{self.name}: not a regular file")
        self.part = f"{self.path}.{secrets.token_hex(4)}.part"
        try:
            self.stream = open(self.part, "x", encoding="ascii")  # pylint: disable=consider-using-with
        except OSError as error:
            raise self._failed(error) from error
        self._write({"schema": SCHEMA, "version": MANIFEST_VERSION, **conditions(choice)})

    def add(self, outcome: Outcome) -> None:
        """Adds what was judged, or has no verdict: not what was skipped, or is only compressed."""
        if outcome.word == NO_VERDICT or (outcome.word in VERDICTS and outcome.identity):
            self._write(line_of(outcome))

    def end(self) -> None:
        """Puts the manifest in its place."""
        try:
            self.stream.flush()
            os.fsync(self.stream.fileno())
            self.stream.close()
            os.replace(self.part, self.path)
        except OSError as error:
            raise self._failed(error) from error

    def close(self) -> None:
        """Leaves nothing behind if the manifest is not in its place."""
        with suppress(OSError):
            self.stream.close()
        with suppress(OSError):
            os.unlink(self.part)

    def _write(self, line: Dict[str, Any]) -> None:
        try:
            self.stream.write(json.dumps(line) + "\n")
        except OSError as error:
            raise self._failed(error) from error

    def _failed(self, error: OSError) -> ManifestError:
        return ManifestError(f"{self.name}: {error.strerror}")


# Reading


class Baseline:
    """What a manifest knows: by the SHA-256 of a file's bytes, and if `trusts_stamps` also by its path and stamp. And
    which files it names, by their paths from a folder, however these are written."""

    def __init__(self, path: str, wanted: Dict[str, Any], trusts_stamps: bool, folder: str) -> None:
        self.path, self.wanted, self.trusts_stamps = os.path.abspath(path), wanted, trusts_stamps
        self.folder = folder
        self.by_bytes, self.by_file = Table(), Table()
        # The folders and archives whose files this run meets.
        self.entered: Set[str] = set()
        self.sha256 = ""
        try:
            with open(path, "rb") as stream:
                self.text = mmap.mmap(stream.fileno(), 0, access=mmap.ACCESS_READ)
        except ValueError as error:
            raise ManifestError(f"{shown(path)}: an empty file is not a manifest") from error
        except OSError as error:
            raise ManifestError(f"{shown(path)}: {error.strerror}") from error
        self._check_head(shown(path))
        self._read_lines(shown(path))

    def __reduce__(self) -> Tuple[Any, ...]:
        """Another process reads the manifest itself, once."""
        self.sha256 = self.sha256 or hashlib.sha256(self.text).hexdigest()
        return read_once, (self.path, tuple(self.wanted.items()), self.trusts_stamps, self.folder, self.sha256)

    def _check_head(self, name: str) -> None:
        try:
            head = json.loads(self.text.readline())
            is_manifest = (head.pop("schema"), head.pop("version")) == (SCHEMA, MANIFEST_VERSION)
        except (ValueError, KeyError, AttributeError, TypeError):
            is_manifest = False
        if not is_manifest:
            raise ManifestError(f"{name}: not a manifest of version {MANIFEST_VERSION}")
        for key in {**self.wanted, **head}:
            there, here = head.get(key), self.wanted.get(key)
            if there != here:
                raise ManifestError(f"{name}: made with {key.replace('_', ' ')} {text_of(there)}, not {text_of(here)}")

    def _read_lines(self, name: str) -> None:
        number, offset = 2, self.text.tell()
        while True:
            text = self.text.readline()
            if not text:
                return
            try:
                line = json.loads(text)
                path = path_of(line)
                if line["verdict"] is not None:
                    self._add(outcome_of(line, path), offset)
                if self._line_of_file(path) is None:
                    self.by_file.add(key_of_path(self._whole(path)), offset)
            except (ValueError, KeyError, TypeError, AttributeError) as error:
                raise ManifestError(f"{name}: line {number} is not a line of a manifest") from error
            number, offset = number + 1, self.text.tell()

    def _add(self, outcome: Outcome, offset: int) -> None:
        """Adds the bytes that a line is about. Of several lines about the same bytes, or the same file, the first counts.
        """
        assert outcome.identity
        if self.of_bytes(outcome.path, outcome.identity.sha256) is None:
            self.by_bytes.add(key_of_bytes(outcome.identity.sha256), offset)

    def _line(self, offset: int) -> Dict[str, Any]:
        end = self.text.find(b"\n", offset)
        line: Dict[str, Any] = json.loads(self.text[offset:end if end >= 0 else len(self.text)])
        return line

    def of_file(self, path: str) -> Optional[Outcome]:
        """The outcome of a file that has not changed since."""
        line = self._line_of_file(path) if self.trusts_stamps else None
        is_same = line and "stamp" in line and path_of(line) == path and Stamp(**line["stamp"]) == stamp_of(os.stat(path))
        return outcome_of(line, path) if line and is_same else None

    def _whole(self, path: str) -> str:
        return os.path.normpath(os.path.join(self.folder, matched(path)))

    def _line_of_file(self, path: str) -> Optional[Dict[str, Any]]:
        whole = self._whole(path)
        lines = map(self._line, self.by_file.find(key_of_path(whole)))
        return next((line for line in lines if self._whole(path_of(line)) == whole), None)

    def names(self, path: str) -> bool:
        """Whether a line is about a file at the path, and says no kind: what is of another kind was not judged."""
        line = self._line_of_file(path)
        return line is not None and line.get("kind") is None

    # What is missing

    def enter(self, folder: str) -> None:
        """This run meets all files of a folder."""
        self.entered.add(self._whole(folder))

    def with_missing(self, outcomes: Iterator[Outcome], choice: Choice) -> Iterator[Outcome]:
        """The outcomes, and after them those of files that have a verdict in the manifest, and should have been met."""
        for outcome in outcomes:
            self._meet(outcome.path)
            yield outcome
        for offset in sorted(self.by_file.unmarked()):
            line = self._line(offset)
            path = path_of(line) if "name_bytes" in line else path_of(line).replace("!", SEPARATOR)
            if line["verdict"] is not None and line.get("kind") is None and self._should_be_met(path, choice):
                why = "not judged" if os.path.lexists(path) else "not there"
                yield Outcome(path, NO_VERDICT, reason=f"in the manifest, and {why}")

    def _meet(self, path: str) -> None:
        whole = self._whole(path)
        key = key_of_path(whole)
        offsets = list(self.by_file.find(key))
        for offset in offsets:
            if len(offsets) == 1 or self._whole(path_of(self._line(offset))) == whole:
                self.by_file.mark(key, offset)
        if SEPARATOR in path:
            self.enter(path.partition(SEPARATOR)[0])

    def _should_be_met(self, path: str, choice: Choice) -> bool:
        """Whether the path is in a folder or an archive that was entered, and is not left out there."""
        folders = [path[:at] for at, letter in enumerate(path) if letter in ("/", SEPARATOR)]
        inner = [it for it in (*folders, path) if self._is_entered(it)]
        return (path != STANDARD_INPUT and path in inner and is_asked_for(choice, path)
                and not any(is_left_out(choice, it) for it in inner))

    def _is_entered(self, path: str) -> bool:
        """Whether something that the path is in was entered."""
        whole = self._whole(path)
        return any((whole[:at] or "/") in self.entered for at, letter in enumerate(whole) if letter in "/!")

    def of_bytes(self, path: str, sha256: str) -> Optional[Outcome]:
        """The outcome of a file whose bytes have this hash."""
        lines = map(self._line, self.by_bytes.find(key_of_bytes(sha256)))
        return next((outcome_of(line, path) for line in lines if line["sha256"] == sha256), None)


def key_of_bytes(sha256: str) -> int:
    return int(sha256[:16], 16)


def key_of_path(path: str) -> int:
    return int.from_bytes(hashlib.blake2b(os.fsencode(path), digest_size=8).digest(), "little")


def text_of(value: Any) -> str:
    """A condition, as a message has it."""
    return "none" if value is None else value if isinstance(value, str) else json.dumps(value)


@lru_cache(maxsize=1)
def read_once(path: str, wanted: Tuple[Tuple[str, Any], ...], trusts_stamps: bool, folder: str,
              sha256: str) -> Baseline:
    """The same baseline, in another process."""
    found = Baseline(path, dict(wanted), trusts_stamps, folder)
    if hashlib.sha256(found.text).hexdigest() != sha256:
        raise ManifestError(f"{shown(path)}: another manifest here")
    return found
