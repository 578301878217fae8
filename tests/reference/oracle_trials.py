#!/usr/bin/env python3
"""Compares the answers of oracle.py with those of the built program. tests/oracle calls it, and says how.

It judges the vectors and reports of tests/fixtures/vectors, the files of tests/real, those of folders that are named,
and mutants of the vectors and of all files. Mutant N of a seed is always the same. For each
case it prints a line of three texts with tabs between them: the case, what was found, and what is wanted. For each
disagreement it prints both answers on standard error, and keeps the file.

The program is macho-check. With --strict, --linked, --unambiguous or --sealed it is macho-verify, which judges by that
profile. Three profiles add files, which tests/oracle lists. macho-verify has no `where`, so it is not asked about
addresses.
"""

import argparse
import multiprocessing
import os
import re
import subprocess
import sys
import tempfile
from collections import Counter, namedtuple
from itertools import chain

from fixtures.file_mutants import WAYS_OF, mutant, says_more, some_address, weight, written
from fixtures.files import REPORTS, SEALED, profile_of, signed_image, vector_files
from fixtures.notation import read_count, read_vectors
from fixtures.table_mutants import starts_of_images
from support.programs import MACHO_CHECK, MACHO_VERIFY, PROFILES, REAL

from . import HIDDEN, load

BATCH = 50
SHOWN = 20

# A question on a file: the name in the reports, the bytes, and the words before and after the path. The word before is
# `check` or a profile, for a verdict, or `where`.
Question = namedtuple("Question", "name data before after")
Difference = namedtuple("Difference", "question oracle program")
# The differences, how often the oracle gave each kind of answer, and the answers of both to the questions.
Compared = namedtuple("Compared", "differences kinds oracle program")

# The two answers

def for_verdict(name, data, profile):
    """The question for the verdict by a profile. By that of the layout macho-check answers."""
    return Question(name, data, "check" if profile == "layout" else profile, ())

def oracle_answer(oracle, question):
    """The status and the text of the oracle. That it fails is an answer too, which is never that of the program."""
    try:
        if question.before != "where":
            profile = "layout" if question.before == "check" else question.before
            status, out, err = oracle.check(question.data, profile)
        else:
            numbers = [oracle.number(word) for word in question.after]
            if None in numbers:
                return 2, b"macho-check: bad number\n"
            status, out, err = oracle.where(question.data, *numbers)
        return status, (out + err).encode("ascii")
    except Exception as failure:  # pylint: disable=broad-except
        return None, ("the oracle failed: %r" % failure).encode()

def program_answers(program, questions):
    """The status and the text of the program, of each question, by one script that makes all calls."""
    with tempfile.TemporaryDirectory() as room:
        lines = []
        files = {}
        for index, question in enumerate(questions):
            if question.data not in files:
                files[question.data] = "file-%d" % index
                with open(os.path.join(room, files[question.data]), "wb") as file:
                    file.write(question.data)
            words = " ".join("'%s'" % word for word in (question.before, files[question.data]) + question.after)
            lines.append('"$program" %s >said-%d 2>&1; echo $?\n' % (words, index))
        with open(os.path.join(room, "script"), "w", encoding="utf-8") as file:
            file.writelines(lines)
        statuses = subprocess.run(
            ["sh", "script"], stdin=subprocess.DEVNULL, stdout=subprocess.PIPE, cwd=room, check=True, timeout=3600,
            env=dict(os.environ, program=os.path.abspath(program))).stdout.split()
        answers = []
        for index in range(len(questions)):
            with open(os.path.join(room, "said-%d" % index), "rb") as file:
                answers.append((int(statuses[index]), file.read()))
        return answers

def compare(oracle, program, questions):
    return compare_with(oracle, questions, program_answers(program, questions))

def compare_with(oracle, questions, program_says):
    oracle_says = [oracle_answer(oracle, question) for question in questions]
    differences = [Difference(*row) for row in zip(questions, oracle_says, program_says) if row[1] != row[2]]
    return Compared(differences, Counter(map(kind_of, oracle_says)), oracle_says, program_says)

def kind_of(says):
    """A rule, `accepted`, or what `where` prints, without its numbers."""
    found = re.match(rb"refused: ([a-z-]+) at|(accepted|file|zero|unmapped|macho-check: [a-z ]*)", says[1])
    return found.group(1 if found.group(1) else 2).decode() if found else "other"

def ask(bounds):
    """Makes the mutants from a number up to another. Returns the questions about them and what the program answers: of
    each the verdict, and then what is at addresses of most of those that it accepts and of a few others."""
    mutants = [mutant(work.seed, number, work.corpus, work.weights, work.ways) for number in range(*bounds)]
    verdicts = [for_verdict("mutant %d of seed %d" % (number, work.seed), data, work.profile)
                for number, (data, _) in zip(range(*bounds), mutants)]
    answers = program_answers(work.program, verdicts)
    addresses = []
    for question, (data, rng), answer in zip(verdicts, mutants, answers) if work.profile == "layout" else ():
        last = max(len(starts_of_images(data)) - 1, 0)
        for _ in range(2 if rng.random() < (0.7 if answer[0] == 0 else 0.05) else 0):
            words = (written(rng, rng.choice((0, rng.randint(0, last), last, last + 1))),
                     written(rng, some_address(rng, data)))
            addresses.append(Question(question.name, data, "where", words))
    return verdicts + addresses, answers + program_answers(work.program, addresses)

def batch(bounds):
    """Makes and compares the mutants from a number up to another."""
    return compare_with(work.oracle, *ask(bounds))

def batches_of(count):
    return [(first, min(first + BATCH, count)) for first in range(0, count, BATCH)]

# What is set before the processes begin, and is the same in all of them.
work = None

class Report:
    """Prints the cases, and the differences with their files."""

    def __init__(self, keep):
        self.keep = keep
        self.shown = 0

    def case(self, name, found, wanted):
        print("%s\t%s\t%s" % (name, found, wanted), flush=True)

    def agreeing(self, name, differences, count, of_what):
        for difference in differences:
            self.show(difference)
        self.case(name, "%d of %d %s agree" % (count - len(differences), count, of_what),
                  "%d of %d %s agree" % (count, count, of_what))

    def show(self, difference, other="program"):
        """The two answers, for the first few: one mistake makes many differences."""
        self.shown += 1
        if self.shown > SHOWN:
            return
        question = difference.question
        os.makedirs(self.keep, exist_ok=True)
        path = os.path.join(self.keep, re.sub("[^A-Za-z0-9.]+", "-", question.name))
        with open(path, "wb") as file:
            file.write(question.data)
        print("%s: %s\n  oracle: %s\n  %s: %s" % (
            question.name, " ".join((question.before, path) + question.after),
            self.text(difference.oracle, difference.program),
            other, self.text(difference.program, difference.oracle)), file=sys.stderr)

    @staticmethod
    def text(says, other):
        """The status and the lines that the other answer does not have in this place."""
        lines, others = says[1].decode("ascii", "replace").split("\n"), other[1].decode("ascii", "replace").split("\n")
        own = [line for line, theirs in zip(lines, others + [None] * len(lines)) if line != theirs]
        return "status %s, %s" % (says[0], " | ".join(own[:5]) or "the same text or a part of it")

def says_verdict(answer, verdict):
    status, text = answer
    if verdict == "accepted":
        return status == 0 and text.startswith(b"accepted, slices ")
    return status == 1 and text.decode() == verdict + "\n"

def up_to(profile):
    """The profile, and those before it."""
    return PROFILES[:PROFILES.index(profile) + 1]

def read_all_vectors(profile):
    """The files of vectors, by their paths. A further profile is judged on the files of
    those before it too: of these it has the refusals, and which of their acceptances it has is not known by hand."""
    files = [(path, read_vectors(path)) for path in vector_files(profile)]
    return [(path, vectors if is_whole(path, profile) else list(map(without_acceptance, vectors)))
            for path, vectors in files]

def is_whole(path, profile):
    """Whether all verdicts of the file by the profile are known by hand."""
    return profile_of(path) == profile

def without_acceptance(vector):
    return vector._replace(wanted="") if vector.wanted == "accepted" else vector

def read_all_reports():
    return read_vectors(REPORTS)

def judge_vectors(report, oracle, program, profile):
    """Three are compared: what stands in the data, the oracle, and the program."""
    seen = Counter()
    for path, vectors in read_all_vectors(profile):
        questions = [for_verdict("%s: %s" % (path.name, vector.name), vector.data, profile) for vector in vectors]
        judged = compare(oracle, program, questions)
        seen += judged.kinds
        report.agreeing("the vectors of " + path.name, judged.differences, len(questions), "answers")
        right = sum(agrees_by_hand(report, question, says, vector.wanted)
                    for question, says, vector in zip(questions, judged.oracle, vectors))
        known = read_count(path)[0]
        if not is_whole(path, profile):
            known = sum(vector.wanted != "" for vector in vectors)
        report.case("the verdicts of %s, by hand" % path.name, "%d verdicts" % right, "%d verdicts" % known)
    names = {rule.__name__.replace("_", "-") for each in up_to(profile) for rule in oracle.RULES[each]} - HIDDEN
    unbroken = " ".join(names - set(seen))
    report.case("rules that no vector breaks first", unbroken or "none", "none")

def agrees_by_hand(report, question, says, verdict):
    """Whether the oracle, which says this, has the verdict, where one is known."""
    if verdict and not says_verdict(says, verdict):
        wanted = (0 if verdict == "accepted" else 1, verdict.encode() + b"\n")
        report.show(Difference(question, says, wanted), "by hand")
    return verdict != "" and says_verdict(says, verdict)

def judge_reports(report, oracle, program):
    """The whole texts on accepted files, each written by hand from the bytes: three are compared."""
    reports = read_all_reports()
    questions = [for_verdict("the report %s" % name, data, "layout") for name, data, *_ in reports]
    right = 0
    for question, vector in zip(questions, reports):
        says = oracle_answer(oracle, question)
        if says == (0, vector.layout.encode()):
            right += 1
        else:
            report.show(Difference(question, says, (0, vector.layout.encode())), "by hand")
    report.case("the reports, by hand", "%d texts" % right, "%d texts" % len(reports))
    report.agreeing("the reports", compare(oracle, program, questions).differences, len(questions), "answers")

def judge_reports_further(report, oracle, program, profile):
    """Two are compared: a further profile refuses some of the reports."""
    questions = [for_verdict("the report %s" % name, data, profile) for name, data, *_ in read_all_reports()]
    report.agreeing("the reports", compare(oracle, program, questions).differences, len(questions), "answers")

def read_file(folder, name):
    with open(os.path.join(folder, name), "rb") as file:
        return file.read()

def read_real():
    """The two real files, each with its layout, which was written by hand from what other tools show."""
    return [(name, read_file(REAL, name), read_file(REAL, name + ".layout")) for name in ("program", "library")]

# What is at addresses of the real files, from the segments in their layouts, by hand.
ADDRESSES = [
    ("program", "0", "0x0", "zero"),
    ("program", "0", "0xffffffff", "zero"),
    ("program", "0", "0x100000000", "file 0x0"),
    ("program", "0", "0x100000440", "file 0x440"),
    ("program", "0", "0x100000fff", "file 0xfff"),
    ("program", "0", "0x1000030ef", "file 0x30ef"),
    ("program", "0", "0x1000030f0", "unmapped"),
    ("program", "0", "0xffffffffffffffff", "unmapped"),
    ("program", "1", "0x0", "macho-check: no such image"),
    ("library", "0", "0x1057", "file 0x1057"),
    ("library", "0", "0x1058", "unmapped"),
    ("library", "1", "0x1058", "file 0x1058"),
    ("library", "1", "0x417f", "file 0x417f"),
    ("library", "1", "0x4180", "unmapped"),
    ("library", "2", "0x0", "macho-check: no such image"),
]

# What the profiles say of the real files that refuse one. The slices of the library begin at no page.
REFUSED = {
    "unambiguous": {"library": b"refused: fat-page at 0x8\n"},
    "sealed": {"program": b"refused: signature-missing at 0x0\n", "library": b"refused: fat-page at 0x8\n"},
}

def judge_real(report, oracle, program, profile):
    questions = []
    for name, data, layout in read_real():
        questions.append(for_verdict("the real " + name, data, profile))
        refused = REFUSED.get(profile, {}).get(name)
        wanted = (1, refused) if refused else (0, layout)
        is_same = oracle_answer(oracle, questions[-1]) == wanted
        report.case("the answer to the real %s, by hand" % name, "the same" if is_same else "another", "the same")
    report.agreeing("the real files", compare(oracle, program, questions).differences, len(questions), "answers")

# Signed vectors by name, and how many bytes their pages have. All bytes of their headers are changed, some of their
# code, and none from the limit on.
SMALL_FILES = (("48 pages of 256 bytes", 0x100), ("the file as it was", 0x1000),
               ("two directories, with pages of two sizes", 0x1000))
SMALL_HEADERS, SMALL_CODE, SMALL_LIMIT = range(0x110), range(0x1000, 0x1070), 0x3000
# The real slice that is signed: how many bytes its pages have, some of its code, and its limit.
REAL_PAGE, REAL_CODE, REAL_LIMIT = 0x1000, range(0x2a0, 0x2a8), 0x4060
# In all of them each STEP-th byte is changed too, and those beside where pages begin and end.
STEP = 41

def places_of_one_byte(limit, page, *ranges):
    near = {start + offset for start in range(0, limit, page) for offset in (-1, 0, 1)}
    return sorted({*range(0, limit, STEP), *near, limit - 1, *chain(*ranges)} & set(range(limit)))

def files_of_one_byte():
    """Signed files of which one byte before the signature has changed: of each the place of this byte, the file, where
    the page of the byte begins, and whether the byte is one of the code."""
    vectors = {vector.name: vector.data for vector in reversed(read_vectors(SEALED))}
    for name, page in SMALL_FILES:
        for place in places_of_one_byte(SMALL_LIMIT, page, SMALL_HEADERS, SMALL_CODE):
            yield "byte 0x%x of '%s'" % (place, name), vectors[name], place, page, place in SMALL_CODE
    real = signed_image()
    for place in places_of_one_byte(REAL_LIMIT, REAL_PAGE, REAL_CODE):
        yield "byte 0x%x of the real slice" % place, real, place, REAL_PAGE, place in REAL_CODE

def judge_bytes(report, oracle, program):
    """Bytes before a signature are changed, each alone. Its page is reported if no rule of the profiles before is
    broken then, as is so of all bytes of code."""
    questions, wanted, code = [], [], 0
    for name, data, place, page, is_code in files_of_one_byte():
        changed = data[:place] + bytes((data[place] ^ 1,)) + data[place + 1:]
        broken = oracle.first_unambiguous_broken(oracle.File(changed)) or ("signature-hash", place - place % page)
        questions.append(for_verdict(name, changed, "sealed"))
        wanted.append((1, b"refused: %s at 0x%x\n" % (broken[0].encode(), broken[1])))
        code += is_code and broken[0] == "signature-hash"
    answers = program_answers(program, questions)
    differences = [Difference(*row) for row in zip(questions, wanted, answers) if row[1] != row[2]]
    report.agreeing("files with one other byte", differences, len(questions), "answers")
    report.case("bytes of code, whose page is reported", code, len(SMALL_FILES) * len(SMALL_CODE) + len(REAL_CODE))

def judge_addresses(report, oracle, program):
    files = {name: data for name, data, _ in read_real()}
    questions = [Question("the real " + name, files[name], "where", (index, address))
                 for name, index, address, _ in ADDRESSES]
    right = sum(oracle_answer(oracle, question)[1].decode() == told + "\n"
                for question, (_, _, _, told) in zip(questions, ADDRESSES))
    report.case("what is at %d addresses of them, by hand" % len(ADDRESSES), right, len(ADDRESSES))
    differences = compare(oracle, program, questions).differences
    report.agreeing("addresses of the real files", differences, len(questions), "answers")

def judge_numbers(report, oracle, program, data):
    """What is a number, and what is none, in the words of `where`."""
    words = ["0", "00000000000000000000", "000000000000000000000", "18446744073709551615", "18446744073709551616",
             "4294967296", "99999999999999999999", "0x", "0x0", "0xffffffffffffffff", "0x0ffffffffffffffff", "0X0",
             "0xABCDEF", "0x100000440", "0x100000FFF", "0xg", "", " 0", "0 ", "+0", "1_0", "0b1", "a", "1e3", "\u0660"]
    questions = [Question("the number '%s'" % word, data, "where", pair)
                 for word in words for pair in ((word, "0x100000440"), ("0", word))]
    differences = compare(oracle, program, questions).differences
    report.agreeing("words that are numbers, and others", differences, len(questions), "answers")

def read_folder(folder):
    names = sorted(name for name in os.listdir(folder) if os.path.isfile(os.path.join(folder, name)))
    return [(name, read_file(folder, name)) for name in names]

def judge_folders(report, oracle, program, profile, folders):
    for folder in folders:
        questions = [for_verdict(name, data, profile) for name, data in read_folder(folder)]
        report.agreeing(folder, compare(oracle, program, questions).differences, len(questions), "answers")

def judge_mutants(report, count, jobs):
    total = 0
    differences = []
    kinds = Counter()
    with multiprocessing.get_context("fork").Pool(jobs) as pool:
        for compared in pool.imap(batch, batches_of(count)):
            total += len(compared.program)
            differences += compared.differences
            kinds += compared.kinds
    report.agreeing("%d mutants of seed %d" % (count, work.seed), differences, total, "answers")
    print("the answers to mutants: %s" % ", ".join("%d %s" % (n, kind) for kind, n in kinds.most_common()),
          file=sys.stderr)

class OwnVectors:
    """The vectors of the profile alone, with their verdicts by hand."""

    def __init__(self, profile):
        self.questions = [(for_verdict("%s: %s" % (path.name, vector.name), vector.data, profile), vector.wanted)
                          for path in vector_files(profile) if is_whole(path, profile) for vector in read_vectors(path)]

    def first_difference(self, oracle):
        """The name of a vector to which the oracle gives another verdict, or None. Mistakes and vectors are both in the
        order of the rules, so the next mistake is most likely seen near the vector that shows this one."""
        for index, (question, wanted) in enumerate(self.questions):
            if not says_verdict(oracle_answer(oracle, question), wanted):
                self.questions = self.questions[index:] + self.questions[:index]
                return question.name
        return None

class Mutants:
    """Mutants with what the program says of them. Each is made when it is first asked for."""

    def __init__(self, count):
        self.known = []
        self.left = map(ask, batches_of(count))

    def answers(self):
        for questions, answers in chain(self.known, self.made()):
            yield from zip(questions, answers)

    def made(self):
        for some in self.left:
            self.known.append(some)
            yield some

    def first_difference(self, oracle):
        return next((question.name for question, says in self.answers() if oracle_answer(oracle, question) != says),
                    None)

def judge_mistakes(report, listed, count, profile):
    """Copies of the oracle with a mistake, each of which a vector of the profile or a mutant has to show."""
    ways = {"own": OwnVectors(profile), "mutants": Mutants(count)}
    with open(listed, encoding="utf-8") as lines:
        for line in lines:
            mistake, way, path = line.rstrip("\n").split("\t")
            first = ways[way].first_difference(load(path))
            report.case("%s is seen%s" % (mistake, first and ", by %s" % first or ""), first and "seen", "seen")

def main():
    global work  # pylint: disable=global-statement
    parser = argparse.ArgumentParser(prog="tests/oracle")
    for name in PROFILES[1:]:
        parser.add_argument("--" + name, dest="profile", action="store_const", const=name, default="layout",
                            help="the %s profile, and macho-verify" % name)
    parser.add_argument("--seed", type=int, default=1, help="of the mutants; 1 otherwise")
    parser.add_argument("--count", type=int, default=1000, help="of the mutants; 1000 otherwise")
    parser.add_argument("--jobs", type=int, default=2, help="how many processes; 2 otherwise")
    parser.add_argument("--keep", default=os.path.join(tempfile.gettempdir(), "macho-check-differences"),
                        help="the folder for files on which the two differ")
    parser.add_argument("--mistakes", help="a file that lists copies of the oracle with mistakes, to be seen")
    parser.add_argument("--program", help="another program")
    parser.add_argument("folders", nargs="*", help="folders of other files, which are judged and mutated as well")
    words = parser.parse_args()

    profile = words.profile
    program = words.program or (MACHO_CHECK if profile == "layout" else MACHO_VERIFY)
    oracle = load()
    report = Report(words.keep)
    vectors = [vector for _, vectors in read_all_vectors(profile) for vector in vectors]
    real = [data for _, data, _ in read_real()]
    accepted = [name not in REFUSED.get(profile, {}) for name, *_ in read_real()]
    if profile == "sealed":
        real.append(signed_image())
        accepted.append(True)
    others = [data for folder in words.folders for _, data in read_folder(folder)]
    corpus = real + others + [vector.data for vector in vectors]
    accepted += [oracle_answer(oracle, for_verdict("", data, profile))[0] == 0 for data in others]
    accepted += [says_more(vector, profile) for vector in vectors]
    weights = [weight(data, good, profile) for data, good in zip(corpus, accepted)]
    work = argparse.Namespace(
        seed=words.seed, oracle=oracle, program=program, corpus=corpus, weights=weights, profile=profile,
        ways=WAYS_OF[profile])
    if words.mistakes:
        judge_mistakes(report, words.mistakes, words.count, profile)
        return
    judge_vectors(report, oracle, program, profile)
    judge_real(report, oracle, program, profile)
    judge_folders(report, oracle, program, profile, words.folders)
    if profile == "sealed":
        judge_bytes(report, oracle, program)
    if profile != "layout":
        judge_reports_further(report, oracle, program, profile)
    else:
        judge_reports(report, oracle, program)
        judge_addresses(report, oracle, program)
        judge_numbers(report, oracle, program, real[0])
    judge_mutants(report, words.count, words.jobs)

if __name__ == "__main__":
    main()
