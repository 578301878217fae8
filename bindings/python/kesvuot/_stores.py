"""What `kesvuot check` has for stores: lists of names, manifests, what is known already, and more than one machine."""

# A run that wants none of this loads none of it.
# pylint: disable=import-outside-toplevel

from __future__ import annotations

import argparse
import os
from contextlib import contextmanager
from typing import Any, Callable, Iterator

from ._check import Choice, Outcome, judge_all, targets_of
from ._lists import STANDARD_INPUT, names_in


def add_words(parser: Any) -> None:
    """The options."""
    parser.add_argument("--files-from", nargs="?", const=STANDARD_INPUT, metavar="LIST",
                        help="judge the files and folders that a list names, a line each; without LIST, or for -, "
                        "standard input is the list")
    parser.add_argument("-0", "--null", action="store_true",
                        help="names in the list end in a zero byte, as find -print0 writes them")
    parser.add_argument("--manifest", metavar="FILE", help="write a manifest: for each file the SHA-256 of the bytes "
                        "that were judged, and the verdict")
    known = parser.add_mutually_exclusive_group()
    known.add_argument("--baseline", metavar="MANIFEST", help="do not judge files again whose bytes are in a manifest, "
                       "and fail only for refusals that are not in it")
    known.add_argument("--since", metavar="MANIFEST", help="the same, and do not even read unchanged files, by their "
                       "path, inode, size and times")
    parser.add_argument("--cluster", metavar="ADDRESS", help="judge on the workers of a Dask scheduler, such as "
                        "tcp://HOST:8786, which see the same paths; needs the package distributed")


def check_words(words: argparse.Namespace) -> None:
    """Ends the command if the words contradict each other."""
    if not words.paths and words.files_from is None:
        words.parser.error("a PATH is required, or --files-from")
    if words.null and words.files_from is None:
        words.parser.error("--null is of the list of --files-from")
    if words.files_from == STANDARD_INPUT and STANDARD_INPUT in words.paths:
        words.parser.error("standard input is either the list or a file")
    if words.mmap and _identifies(words):
        words.parser.error("--mmap: a mapped file may change before its hash is taken")


def _identifies(words: argparse.Namespace) -> bool:
    return bool(words.manifest or words.baseline or words.since)


def for_store(choice: Choice, words: argparse.Namespace) -> Choice:
    """The choice, with what is known already."""
    if not _identifies(words):
        return choice
    from ._manifest import Baseline, conditions
    path = words.baseline or words.since
    known = Baseline(path, conditions(choice), bool(words.since), os.getcwd()) if path else None
    return choice._replace(identifies=True, known=known)


def outcomes_of(words: argparse.Namespace, choice: Choice) -> Iterator[Outcome]:
    """The outcomes of all files that the words name."""
    listed = names_in(words.files_from, b"\0" if words.null else b"\n") if words.files_from else None
    if words.cluster:
        from ._cluster import judge_on_cluster
        outcomes = judge_on_cluster(targets_of(words.paths, choice, listed), choice, words.cluster,
                                    is_ordered=words.format != "jsonl")
    else:
        outcomes = judge_all(words.paths, choice, words.jobs, listed)
    return choice.known.with_missing(outcomes, choice) if choice.known else outcomes


@contextmanager
def manifest_of(words: argparse.Namespace, choice: Choice) -> Iterator[Callable[[Outcome], None]]:
    """What adds an outcome to the manifest, if one is wanted. It is in its place when all was done."""
    if not words.manifest:
        yield lambda _: None
        return
    from ._manifest import Manifest
    manifest = Manifest(words.manifest, choice)
    try:
        yield manifest.add
        manifest.end()
    finally:
        manifest.close()
