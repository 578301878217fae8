#!/usr/bin/env python3
"""Loads images by the plain dyld of tests/readers/plain_dyld.py, and reads their code signatures by plain_reader.py
there, both under watch. tests/dyld calls it, and says how.

It judges the vectors of linked.txt by hand and by oracle.py --linked, and then files and mutants of their
tables by the oracle alone. Each image that the oracle accepts is loaded, and the promise of linked.md has to hold.
With --sealed the vectors are those of sealed.txt, the mutants those of seal_mutants.py, and the promise is that of
sealed.md: each signature is read, and each hash is compared. Nothing else is refused there: on each file that
breaks a rule of sealed.md alone, the reader has to find what is wrong. Mutant N of a seed is always the same. For
each case it prints a line of three texts with tabs between them: the case, what was found, and what is wanted.
"""

import argparse
import multiprocessing
import os
import random
import re
import sys
import tempfile
import time
from collections import Counter, namedtuple
from pathlib import Path

from fixtures import seal_mutants, table_mutants
from fixtures.files import LINKED, SEALED, signed_image
from fixtures.notation import read_count, read_vectors
from readers import plain_dyld, plain_reader
from support.programs import REAL

from . import HIDDEN, ORACLE
from . import load as load_module

BATCH = 200
SHOWN = 20
# A file is mutated up to this length: of a longer one most of the time is the layout's.
MOST_BYTES = 200_000

# A profile: its name, its vectors, what is done with an image, and the name of its rules in the oracle. Without the
# rules of `unneeded`, still no vector breaks the promise. `change` changes a mutant, `parts` has what of a file can be
# changed, and `wrong` is the case of files that are wrongly judged. If `is_exact`, all files that keep the promise are
# accepted.
Profile = namedtuple("Profile", "name vectors load rules unneeded change parts wrong is_exact")

# The oracle, which is loaded first.
oracle = None
# The profile, which is known then.
profile = None

# For a file: its verdict, how many writes there were to each stream, and the breach, or None.
Loaded = namedtuple("Loaded", "verdict writes breach")

def verdict_on(data):
    status, out, _ = oracle.check(data, profile.name)
    return "accepted" if status == 0 else out.rstrip("\n")

def load(data):
    """The verdict on a file, and what happens where it is loaded. That nothing does is the breach of a file that should
    be accepted."""
    verdict = verdict_on(data)
    if verdict == "accepted":
        return load_judged(data, verdict)
    is_needless = (profile.is_exact and rule_of(verdict) in names_of_rules()
                   and load_judged(data, verdict).breach is None)
    return Loaded(verdict, Counter(), "nothing is wrong" if is_needless else None)

def load_linked(image):
    """Loads an image, and reads what else it has. The streams of the writes are the result."""
    streams = [write.stream for write in plain_dyld.load(image)]
    plain_reader.read(image)
    return streams

def read_sealed(image):
    """Compares the hashes of an image, which writes nothing."""
    plain_reader.read_seal(image)
    return []

def load_judged(data, verdict):
    """Loads all images of a file that breaks no rule of the profile before, or compares their hashes."""
    writes = Counter()
    try:
        for image in oracle.File(data).slices:
            if image.is_64_bit:
                writes.update(profile.load(image))
    except plain_dyld.Breach as breach:
        return Loaded(verdict, writes, str(breach))
    return Loaded(verdict, writes, None)

def rule_of(verdict):
    return re.sub("refused: | at .*", "", verdict)

class Report:
    """Prints the cases, and keeps the files that break the promise."""

    def __init__(self, keep):
        self.keep = keep
        self.shown = 0

    @staticmethod
    def case(name, found, wanted):
        print("%s\t%s\t%s" % (name, found, wanted), flush=True)

    def breach(self, name, data, loaded):
        self.shown += 1
        if self.shown <= SHOWN:
            os.makedirs(self.keep, exist_ok=True)
            path = os.path.join(self.keep, re.sub("[^A-Za-z0-9.]+", "-", name))
            Path(path).write_bytes(data)
            print("%s: %s, but %s" % (path, loaded.verdict, loaded.breach), file=sys.stderr)

PROFILES = {
    "linked": Profile("linked", LINKED, load_linked, "LINKED_RULES_OF_AN_IMAGE",
                      ["function-variants"], table_mutants.change, table_mutants.tables,
                      "accepted %s that break the promise", False),
    "sealed": Profile("sealed", SEALED, read_sealed, "SEALED_RULES_OF_AN_IMAGE",
                      [], seal_mutants.change, seal_mutants.signatures,
                      "%s on which the reader says something else", True),
}

def names_of_rules():
    names = [rule.__name__.replace("_", "-") for rule in getattr(oracle, profile.rules)]
    return [name for name in names if name not in HIDDEN]

def judge_vectors(report):
    """Each has its verdict by hand. Where it is accepted, the promise holds. Each rule is the first broken one of
    some; and of each rule but those that say what a number means, there is one on which the loader goes astray."""
    vectors = read_vectors(profile.vectors)
    report.case("how many vectors there are", len(vectors), read_count(profile.vectors)[0])
    names, rules, astray = names_of_rules(), Counter(), Counter()
    right = breaches = 0
    for vector in vectors:
        verdict = verdict_on(vector.data)
        if verdict == vector.wanted:
            right += 1
        else:
            print("%s: %s, not %s" % (vector.name, verdict, vector.wanted), file=sys.stderr)
        rules[rule_of(verdict)] += 1
        if verdict != "accepted" and rule_of(verdict) not in names:
            continue
        loaded = load_judged(vector.data, verdict)
        astray[rule_of(verdict)] += loaded.breach is not None
        if load(vector.data).breach is not None:
            breaches += 1
            report.breach(vector.name, vector.data, loaded)
    report.case("vectors with the verdict by hand", right, len(vectors))
    report.case(profile.wrong % "vectors", breaches, 0)
    report.case("rules that no vector breaks first", [rule for rule in names if not rules[rule]], [])
    report.case("rules without which no vector breaks the promise", [rule for rule in names if not astray[rule]],
                profile.unneeded)

def read_files(folders):
    paths = [REAL / "program", REAL / "library"]
    for folder in folders:
        paths += sorted(path for path in Path(folder).iterdir() if path.is_file())
    files = [(path.name, path.read_bytes()) for path in paths]
    return files + [("the signed slice", signed_image())] * (profile.name == "sealed")

def judge_files(report, files):
    """Each file that breaks no rule of the strict profile is loaded, or its fault is said."""
    kinds, writes, faults = Counter(), Counter(), []
    breaches = 0
    for name, data in files:
        if oracle.check(data, "strict")[0] != 0:
            continue
        loaded = load(data)
        kinds[rule_of(loaded.verdict)] += 1
        writes += loaded.writes
        if loaded.verdict != "accepted":
            faults.append("%s: %s" % (name, loaded.verdict))
        if loaded.breach is not None:
            breaches += 1
            report.breach(name, data, loaded)
    for fault in faults:
        print(fault, file=sys.stderr)
    print("of %d files: %s. Writes: %s" % (sum(kinds.values()), listed(kinds), listed(writes)), file=sys.stderr)
    report.case(profile.wrong % "files", breaches, 0)

def listed(counts):
    return ", ".join("%d %s" % (number, kind) for kind, number in counts.most_common()) or "none"

def mutant(seed, number, corpus):
    """Mutant NUMBER of a seed: a file of the corpus with up to five changes, and whether it has changed."""
    rng = random.Random("%d %d" % (seed, number))
    before = data = rng.choice(corpus)
    for _ in range(rng.choice((1, 1, 1, 1, 2, 2, 3, 5))):
        data = profile.change(rng, data)
    return data, data != before

# What is set before the processes begin, and is the same in all of them.
work = None

def batch(bounds):
    kinds, writes, breaches = Counter(), Counter(), []
    for number in range(*bounds):
        data, is_changed = mutant(work.seed, number, work.corpus)
        loaded = load(data)
        kinds[rule_of(loaded.verdict) if is_changed else "the same"] += 1
        writes += loaded.writes
        if loaded.breach is not None:
            breaches.append((number, data, loaded))
    return kinds, writes, breaches

def judge_mutants(report, count, jobs):
    kinds, writes = Counter(), Counter()
    breaches = 0
    bounds = [(first, min(first + BATCH, count)) for first in range(0, count, BATCH)]
    with multiprocessing.get_context("fork").Pool(jobs) as pool:
        for some, written, astray in pool.imap_unordered(batch, bounds):
            kinds += some
            writes += written
            for number, data, loaded in astray:
                breaches += 1
                report.breach("mutant %d of seed %d" % (number, work.seed), data, loaded)
    print("%d mutants of %d files: %s. Writes: %s" % (count, len(work.corpus), listed(kinds), listed(writes)),
          file=sys.stderr)
    report.case(profile.wrong % "mutants", breaches, 0)
    report.case("some mutants are accepted, and are not the same", kinds["accepted"] > count // 50, True)

def find_breach(words, vectors):
    """Loads the accepted vectors and then the mutants, up to the first one that breaks the promise."""
    for vector in vectors:
        if load(vector.data).breach is not None:
            return "the vector '%s'" % vector.name
    set_work(words, read_files(words.folders))
    for number in range(words.count):
        if load(mutant(work.seed, number, work.corpus)[0]).breach is not None:
            return "mutant %d of seed %d" % (number, work.seed)
    return None

def changed_rule(path):
    """What the rule would be called whose function is changed in a copy of the oracle."""
    sources = (Path(file).read_text(encoding="utf-8").splitlines() for file in (path, ORACLE))
    function = None
    for line, before in zip(*sources):
        function = re.match(r"def (\w+)", line) or function
        if line != before:
            break
    return function[1].replace("_", "-") if function else None

def find_breaches(words):
    """Says the first breach by each of the oracles. Most show in vectors that the changed rule should refuse, or else in
    others that should be refused, so these come first."""
    global oracle  # pylint: disable=global-statement
    vectors = read_vectors(profile.vectors)
    for path in words.oracles:
        oracle = load_module(path)
        rule = changed_rule(path)
        vectors.sort(key=lambda it, rule=rule: (it.wanted == "accepted", rule_of(it.wanted) != rule))
        print("the first breach: %s" % find_breach(words, vectors), file=sys.stderr)

def set_work(words, files):
    """Sets what mutants are made of: the files and vectors with tables of which the oracle accepts the others."""
    global work  # pylint: disable=global-statement
    corpus = [data for _, data in files if len(data) <= MOST_BYTES] + [v.data for v in read_vectors(profile.vectors)]
    work = argparse.Namespace(
        seed=words.seed, corpus=[data for data in corpus if profile.parts(data)
                                 and rule_of(verdict_on(data)) in ("accepted", "rebase-total", "bind-total")])

def main():
    global oracle, profile  # pylint: disable=global-statement
    parser = argparse.ArgumentParser(prog="tests/dyld")
    parser.add_argument("--sealed", dest="profile", action="store_const", const="sealed", default="linked",
                        help="the sealed profile")
    parser.add_argument("--seed", type=int, default=1, help="of the mutants; 1 otherwise")
    parser.add_argument("--count", type=int, default=3000, help="of the mutants; 3000 otherwise")
    parser.add_argument("--jobs", type=int, default=2, help="how many processes; 2 otherwise")
    parser.add_argument("--keep", default=os.path.join(tempfile.gettempdir(), "macho-dyld-breaches"),
                        help="the folder for files that break the promise")
    parser.add_argument("--first", dest="oracles", metavar="ORACLE", nargs="+",
                        help="only the first breach is looked for, by each of these oracles")
    parser.add_argument("folders", nargs="*", help="folders of other files, which are judged and mutated as well")
    words = parser.parse_args()
    began = time.monotonic()
    profile = PROFILES[words.profile]
    if words.oracles:
        find_breaches(words)
        return
    oracle = load_module()
    report = Report(words.keep)
    files = read_files(words.folders)
    set_work(words, files)
    judge_vectors(report)
    judge_files(report, files)
    judge_mutants(report, words.count, words.jobs)
    print("%d s" % (time.monotonic() - began), file=sys.stderr)

if __name__ == "__main__":
    main()
