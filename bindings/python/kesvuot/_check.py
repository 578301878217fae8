"""Judges many files: finds them, judges them in processes, and gives their outcomes in order."""

from __future__ import annotations

import os
import time
from fnmatch import fnmatchcase
from functools import partial
from itertools import chain
from typing import (
    TYPE_CHECKING, Any, Callable, Counter, Dict, Iterable, Iterator, List, NamedTuple, Optional, Protocol, Sequence,
    Tuple)

from ._archives import MOST_UNPACKED, Archive, Begun, Member, Wanted, archive_at, contents_of
from ._archives import Contents as ArchivedContents
from ._files import File, Image, Refused, verify
from ._kinds import is_told, other_kind
from ._met import Again, Met
from ._paths import SEPARATOR, last_name, matched
from ._pool import Work, map_in_processes
from ._profiles import DEFAULT
from ._reading import Contents, NotMachO, Stamp, read_found, read_given
from ._streams import Allowance

if TYPE_CHECKING:
    from ._policy import Policy, Unmet

ACCEPTED, REFUSED, NO_VERDICT, SKIPPED = "accepted", "refused", "no verdict", "skipped"
# Of a file that the profile accepts, and that does not meet a key of the policy.
NOT_BY_POLICY = "not by the policy"
# What was found in a folder or an archive and says that it is of a kind that is not judged, such as an object file, or
# may be executed and is too short for it.
OTHER_KIND = "other kind"
STATUSES = {ACCEPTED: 0, SKIPPED: 0, OTHER_KIND: 0, REFUSED: 1, NOT_BY_POLICY: 1, NO_VERDICT: 2}
# The kinds of a link in a manifest, and of an archive that the user has named.
NO_FILE, NO_IMAGE = "link, device or pipe", "an archive without a file to judge"
# The words for a run that has ended early.
NOT_ALL = "not all files were judged"
# The parts of a path that name no file in a folder.
NO_NAMES = frozenset(("", ".", ".."))
# In place of a rule, for a file that is refused by choice: the library accepts it, and judges nothing in one of its
# slices.
UNSUPPORTED_SLICE = "unsupported-slice"
# A file that was written later than this before it was read may be written again at what its file system calls the same
# time.
SETTLED_NS = 2_000_000_000
# What is asked of an accepted file, besides the verdict: nothing, its text, or its slices as objects. And of the bytes
# of a refused one.
Extra = Optional[Callable[[File], Any]]
ExtraOfRefused = Optional[Callable[[Contents, Refused], Any]]


class Unsupported(NamedTuple):
    """A slice in which nothing is judged: its index in the file, its architecture, and its size."""

    index: int
    arch: str
    size: int


class Identity(NamedTuple):
    """The SHA-256 of all bytes that were judged, and the stamp of their file if it had settled."""

    sha256: str
    stamp: Optional[Stamp] = None


class Outcome(NamedTuple):
    """What is said of a file. A refused one has a rule, a place, and perhaps the kind or the slice that is not judged;
    an accepted one has slices, and keys of the policy if it does not meet them; and one without a verdict a reason, and
    a kind if that is the reason. `size` is how many bytes were read. `extra` is what was asked of the file besides. It
    is known if the verdict is that of a manifest. The identity is there if it was asked for. Of a file that was met
    before, `again` says how."""

    path: str
    word: str
    size: int = 0
    slices: int = 0
    rule: str = ""
    place: int = 0
    kind: Optional[str] = None
    reason: str = ""
    extra: Any = None
    unsupported: Optional[Unsupported] = None
    unmet: Tuple[Unmet, ...] = ()
    identity: Optional[Identity] = None
    is_known: bool = False
    again: Optional[Again] = None

    @property
    def is_judged(self) -> bool:
        """Whether there is a verdict on its bytes."""
        return self.word in (ACCEPTED, NOT_BY_POLICY, REFUSED)

    @property
    def is_counted(self) -> bool:
        """Whether it is the first outcome of its file; or the first that matters, if only now the file has to have a
        verdict, and has none."""
        return self.again is None or (self.again.is_named and self.word == NO_VERDICT)

    @property
    def status(self) -> int:
        """The exit status if this is the only file."""
        return 0 if self.is_known else STATUSES[self.word]

    @property
    def refusal(self) -> str:
        return f"{self.rule} at {self.place:#x}"


class Target(NamedTuple):
    """A file to judge: one that the user has named, or one that was found in a folder or an archive. Whatever is not
    judged has its outcome already. `contents` is what a member of an archive has, or where it is. A compressed archive
    can be a target itself: it is opened where its members are judged. `again` is as for an outcome."""

    path: str
    is_found: bool = False
    outcome: Optional[Outcome] = None
    contents: Optional[ArchivedContents] = None
    is_packed: bool = False
    again: Optional[Again] = None


class Stopped(Exception):
    """Judging cannot go on."""


class Known(Protocol):
    """Outcomes that are known before a file is judged."""

    def of_file(self, path: str) -> Optional[Outcome]:
        """The outcome of a file that need not even be read."""

    def of_bytes(self, path: str, sha256: str) -> Optional[Outcome]:
        """The outcome of a file with these bytes."""

    def names(self, path: str) -> bool:
        """Whether a file of this path was judged, or had to be."""

    def enter(self, folder: str) -> None:
        """This run meets all files of a folder."""

    def with_missing(self, outcomes: Iterator[Outcome], choice: Choice) -> Iterator[Outcome]:
        """The outcomes, and after them those of files that were judged, are in such a folder, and were not met."""


class Choice(NamedTuple):
    """How files are chosen and judged, and whether each outcome has its identity. `walks` is of `kesvuot check` alone:
    it enters folders, and there a file that is named and not judged has no verdict."""

    profile: str = DEFAULT
    walks: bool = True
    include: Tuple[str, ...] = ()
    exclude: Tuple[str, ...] = ()
    skips_other_kinds: bool = False
    fails_other_kinds: bool = False
    refuses_unsupported: bool = False
    allows_none: bool = False
    maps: bool = False
    opens_found: bool = False
    most_unpacked: int = MOST_UNPACKED
    extra: Extra = None
    of_refused: ExtraOfRefused = None
    policy: Optional[Policy] = None
    identifies: bool = False
    known: Optional[Known] = None


# Finding


def find(paths: Sequence[str], choice: Choice, listed: Optional[Iterable[str]] = None) -> Iterator[Target]:
    """The files that are named, also in a list after the paths, and those in the folders that are named: in the order
    of the names, and those of a folder before those of the folders in it. Each comes once, by its first name; unless it
    is named and was only found before, or has another name and a manifest is written."""
    if not choice.walks:
        yield from map(Target, paths)
        return
    met = Met(paths, listed is not None, choice.identifies)
    for path in chain(paths, listed or ()):
        if path != "-" and os.path.isdir(path):
            if choice.known:
                choice.known.enter(path)
            yield from _files_of(path, choice, met)
        else:
            yield from _unless_again(Target(path), met)


def _unless_again(target: Target, met: Met) -> Iterator[Target]:
    again = met.again(target.path, target.is_found)
    if again is None or any(again):
        yield target._replace(again=again)


def _files_of(folder: str, choice: Choice, met: Met) -> Iterator[Target]:
    left = [folder]
    while left:
        current = left.pop()
        try:
            names = _scan(current, choice)
        except OSError as error:
            outcome = Outcome(current, NO_VERDICT, reason=_reason(error))
            yield from _unless_again(Target(current, outcome=outcome), met)
            continue
        for name in names.files:
            path = os.path.join(current, name)
            yield from _unless_again(Target(path, not met.is_given(path)), met)
        for name in names.others:
            path = os.path.join(current, name)
            yield from _unless_again(Target(path, True, _skipped(path, choice)), met)
        left += [os.path.join(current, name) for name in reversed(names.folders)]


class Names(NamedTuple):
    """The names in a folder: regular files, folders, and others, such as links."""

    files: List[str]
    folders: List[str]
    others: List[str]


def _scan(folder: str, choice: Choice) -> Names:
    names = Names([], [], [])
    with os.scandir(folder) as entries:
        for entry in entries:
            if is_left_out(choice, entry.path):
                continue
            if entry.is_dir(follow_symlinks=False):
                names.folders.append(entry.name)
            elif is_asked_for(choice, entry.path) or (choice.opens_found and entry.is_file(
                    follow_symlinks=False)):
                (names.files if entry.is_file(follow_symlinks=False) else names.others).append(entry.name)
    for some in names:
        some.sort()
    return names


def is_left_out(choice: Choice, path: str) -> bool:
    """Whether a file or a folder that was found is left out, by its own name."""
    return any(_matches(path, pattern) for pattern in choice.exclude)


def _is_left_out_in_archive(choice: Choice, path: str) -> bool:
    """Whether a member is left out, or a folder in the archive that it is in."""
    if not choice.exclude:
        return False
    start = path.rindex(SEPARATOR) + 1
    folders = (path[:at] for at in range(start, len(path)) if path[at] == "/")
    # No walk over a folder finds a dot.
    return any(is_left_out(choice, it) for it in (*folders, path) if last_name(it) not in NO_NAMES)


def is_asked_for(choice: Choice, path: str) -> bool:
    """Whether a file that was found is asked for, by its name."""
    return not choice.include or any(_matches(path, pattern) for pattern in choice.include)


def _matches(path: str, pattern: str) -> bool:
    """A pattern with a slash must match the whole path, and any other the name."""
    return fnmatchcase(matched(path) if "/" in pattern else last_name(path), pattern)


def without_match(patterns: List[str], path: str) -> List[str]:
    """The patterns that do not match a file, of which there soon are none."""
    if not patterns:
        return patterns
    return [pattern for pattern in patterns if not _matches(path, pattern)]


# Archives


def open_archives(targets: Iterator[Target], choice: Choice, leaves_packed: bool = False) -> Iterator[Target]:
    """The targets, with the members of each archive in its place; unless it is compressed, and such are left."""
    wanted = Wanted(partial(_is_left_out_in_archive, choice), partial(is_asked_for, choice),
                    partial(_is_named_there, choice), choice.identifies)
    for target in targets:
        can_open = not target.outcome and (choice.opens_found or not target.is_found)
        allowance = Allowance(choice.most_unpacked)
        found = archive_at(target.path, target.is_found, allowance) if can_open else None
        if isinstance(found, Archive) and leaves_packed and found.is_packed:
            found.close()
            yield target._replace(is_packed=True)
        elif isinstance(found, Archive):
            if target.again and target.again.is_named and not choice.opens_found:
                # When it was found, it was not opened.
                target = target._replace(again=None)
            # No name here has a member, which can be large.
            yield from filter(None, map(partial(_target_of, choice, target), found.members(wanted, allowance)))
            if not (found.has_image or target.is_found or choice.allows_none):
                yield target._replace(outcome=Outcome(target.path, NO_VERDICT, reason=NO_IMAGE))
        elif isinstance(found, Begun):
            yield target._replace(contents=found)
        elif not target.is_found or is_asked_for(choice, target.path):
            yield target


def count_files(paths: Sequence[str], choice: Choice) -> int:
    """About how many files there are, by a walk of its own: of archives, only zip says how many it has."""
    total = 0
    for target in find(paths, choice):
        can_open = target.path != "-" and not target.outcome and (choice.opens_found or not target.is_found)
        found = archive_at(target.path, target.is_found, Allowance(choice.most_unpacked)) if can_open else None
        total += found.count() if isinstance(found, Archive) else 1
    return total


def _target_of(choice: Choice, archive: Target, member: Member) -> Optional[Target]:
    """A member is found, unless it is the file that the user has named, which is only compressed. None if it is only
    compressed, and not asked for."""
    path, is_found = member.path, archive.is_found or member.path != archive.path
    outcome = None
    if member.fault:
        outcome = Outcome(path, NO_VERDICT, reason=_reason(member.fault))
    elif member.kind and is_found and not is_asked_for(choice, path):
        return None
    elif member.kind:
        outcome = _chosen(Outcome(path, REFUSED, rule="magic", kind=member.kind), is_found, choice)
    elif member.contents is None:
        outcome = _skipped(path, choice)
    return Target(path, is_found, outcome, member.contents, again=archive.again)


# A longer path is not sent along with others. Archives have names of any length.
PATH_LENGTH = 1 << 10


def weight_of(target: Target) -> int:
    """How many bytes a target takes along."""
    contents = len(target.contents) if isinstance(target.contents, (bytes, bytearray)) else 0
    return contents + max(len(target.path) - PATH_LENGTH, 0)


# Judging


def judge(target: Target, choice: Choice) -> Outcome:
    """Judges a file. It is read into memory, so nobody can change it meanwhile; unless the choice is that it is mapped,
    and then whoever can write to it can change it, and end this process by cutting it."""
    outcome = _judge(target, choice)
    return outcome._replace(again=target.again) if target.again else outcome


def _judge(target: Target, choice: Choice) -> Outcome:
    path, size = target.path, 0
    try:
        before = outcome_before(target, choice)
        if before:
            return before
        began, stamps = time.time_ns(), [] if choice.identifies else None
        try:
            if target.contents is not None:
                data: Contents = contents_of(target.contents, stamps)
            else:
                data = (read_found if target.is_found else read_given)(path, choice.maps, stamps)
        except NotMachO as other:
            is_named = other.head is not None and _is_named(path, target.is_found, choice)
            return judge_bytes(path, other.head or b"", choice, True) if is_named else _skipped(path, choice)
        size = len(data)
        if stamps is None:
            return judge_bytes(path, data, choice, target.is_found)
        identity = Identity(_sha256(data), _settled(stamps, began))
        known = choice.known.of_bytes(path, identity.sha256) if choice.known else None
        outcome = _known_outcome(known, target.is_found, choice) or judge_bytes(path, data, choice, target.is_found)
        return outcome._replace(size=size, identity=identity)
    except Exception as error:  # pylint: disable=broad-except # one file without a verdict is not all of them
        return Outcome(path, NO_VERDICT, size, reason=_reason(error))


def _sha256(data: Contents) -> str:
    import hashlib  # pylint: disable=import-outside-toplevel # it loads OpenSSL, and only a manifest has hashes
    return hashlib.sha256(data).hexdigest()


def outcome_before(target: Target, choice: Choice) -> Optional[Outcome]:
    """The outcome of a file that need not be read."""
    if target.outcome or target.contents is not None or not choice.known:
        return target.outcome
    return _known_outcome(choice.known.of_file(target.path), target.is_found, choice)


def judge_bytes(path: str, data: Contents, choice: Choice, is_found: bool = False) -> Outcome:
    """Judges the bytes of a file, which was found or is named."""
    size = len(data)
    try:
        file = verify(data, choice.profile)
        if choice.refuses_unsupported:
            for part in file.slices:
                if not isinstance(part, Image):
                    return Outcome(path, REFUSED, size, rule=UNSUPPORTED_SLICE, place=part.place,
                                   unsupported=Unsupported(part.index, part.arch, len(part.bytes)))
        unmet = choice.policy.judge(file) if choice.policy else ()
        return Outcome(path, NOT_BY_POLICY if unmet else ACCEPTED, size, file.slice_count,
                       extra=choice.extra and choice.extra(file), unmet=unmet)
    except Refused as refused:
        return _chosen(Outcome(path, REFUSED, size, rule=refused.rule, place=refused.place,
                               kind=other_kind(refused.rule, refused.place, data),
                               extra=choice.of_refused and choice.of_refused(data, refused)), is_found, choice)


def _known_outcome(known: Optional[Outcome], is_found: bool, choice: Choice) -> Optional[Outcome]:
    """What is known, if it is enough: a policy is asked of each file that the profile accepts."""
    if known is None or (choice.policy and known.word == ACCEPTED):
        return None
    return _chosen(known, is_found, choice)


def _chosen(outcome: Outcome, is_found: bool, choice: Choice) -> Outcome:
    """The outcome of a file, with another word if it is refused because it is of another kind: nothing in it was
    judged."""
    if outcome.kind is None or outcome.word != REFUSED or not choice.walks:
        return outcome
    if choice.skips_other_kinds and is_told(outcome.kind):
        return outcome._replace(word=SKIPPED)
    if _is_named(outcome.path, is_found, choice):
        return _without_verdict(outcome.path, outcome.kind)
    return outcome if choice.fails_other_kinds else outcome._replace(word=OTHER_KIND)


def _is_named(path: str, is_found: bool, choice: Choice) -> bool:
    """Whether the user has named a file, so that it has to have a verdict: as a path, in a list, by --include, or in a
    manifest. What was found is here only if its name is asked for."""
    return not is_found or _is_named_there(choice, path)


def _is_named_there(choice: Choice, path: str) -> bool:
    """The same of a file that was found in a folder or an archive."""
    return choice.include != () or (choice.known is not None and choice.known.names(path))


def _skipped(path: str, choice: Choice) -> Outcome:
    """The outcome of what is no file, such as a link, or has nothing to judge. No pattern names what is no file."""
    if choice.known and choice.known.names(path):
        return _without_verdict(path, NO_FILE)
    return Outcome(path, SKIPPED)


def _without_verdict(path: str, kind: str) -> Outcome:
    return Outcome(path, NO_VERDICT, kind=kind, reason=f"{kind}, not judged")


def _settled(stamps: List[Stamp], began: int) -> Optional[Stamp]:
    """The stamp of a file, if nothing has changed it while it was read, or just before that."""
    is_settled = len(set(stamps)) == 1 and stamps[0].changed + SETTLED_NS < began
    return stamps[0] if is_settled else None


def _reason(error: BaseException) -> str:
    """Why there is no verdict."""
    if isinstance(error, MemoryError):
        return "out of memory"
    return getattr(error, "strerror", None) or str(error) or type(error).__name__


def _killed(target: Target) -> Outcome:
    return Outcome(target.path, NO_VERDICT, reason="the process that judged it has ended", again=target.again)


def targets_of(paths: Sequence[str], choice: Choice, listed: Optional[Iterable[str]] = None,
               leaves_packed: bool = False) -> Iterator[Target]:
    """The files to judge, with the members of archives."""
    targets = find(paths, choice, listed)
    return open_archives(targets, choice, leaves_packed) if choice.walks else targets


def judge_all(paths: Sequence[str], choice: Choice, jobs: int,
              listed: Optional[Iterable[str]] = None) -> Iterator[Outcome]:
    """The outcomes of all files, in the order in which they are found. No more than some hundred are held at once, and
    of each compressed archive some thousand. One process judges all members of such an archive: to unpack them in
    another one and to send them costs more than to judge them."""
    do, opened = partial(judge, choice=choice), partial(_opened, choice)
    work = Work(do, known_outcome, _killed, is_input, weight_of, _is_packed, opened)
    return map_in_processes(work, targets_of(paths, choice, listed, leaves_packed=jobs > 1), jobs)


def known_outcome(target: Target) -> Optional[Outcome]:
    """The outcome of what is not judged."""
    return target.outcome and target.outcome._replace(again=target.again)


def _is_packed(target: Target) -> bool:
    return target.is_packed


def _opened(choice: Choice, target: Target) -> Iterator[Target]:
    """The members of a compressed archive."""
    return open_archives(iter([target._replace(is_packed=False)]), choice)


def is_input(target: Target) -> bool:
    """Standard input is read by this process, whose position in it is the one that counts."""
    return target.path == "-"


# So many files of other kinds the summary names.
MOST_NAMED = 20


class Summary:
    """How many files there are of each kind, how many each rule refuses, and how many do not meet each key of the
    policy, if there is one; and the first ones that were found and are of another kind. And why the run itself has
    failed, if it has."""

    def __init__(self, has_policy: bool = False) -> None:
        self.words: Counter[str] = Counter()
        self.rules: Counter[str] = Counter()
        self.keys: Counter[str] = Counter()
        self.has_policy = has_policy
        # How many of each word are of another kind, and the first of OTHER_KIND.
        self.other_kinds: Counter[str] = Counter()
        self.found: List[Outcome] = []
        self.known = 0
        self.size = 0
        self.worst = 0
        # Why the run has failed, the signal that has ended it, and whether it has judged all files.
        self.fault = ""
        self.signal = 0
        self.is_partial = False

    def add(self, outcome: Outcome) -> None:
        self.words[outcome.word] += 1
        if outcome.word == REFUSED:
            self.rules[str(outcome.rule)] += 1
        self.keys.update(list(dict.fromkeys(unmet.key for unmet in outcome.unmet)))
        self.other_kinds[outcome.word] += outcome.kind is not None
        if outcome.word == OTHER_KIND and len(self.found) < MOST_NAMED:
            self.found.append(outcome)
        self.known += outcome.word == REFUSED and outcome.is_known
        self.size += outcome.size
        self.worst = max(self.worst, outcome.status)

    def end_early(self, why: str, number: int = 0) -> None:
        """The run has ended before all files were judged, perhaps by a signal."""
        self.fault, self.signal, self.is_partial = f"{why}: {NOT_ALL}", number, True

    def fail(self, why: str) -> None:
        """The run has failed, whatever the verdicts are."""
        self.fault = why

    def expect(self, count: int) -> None:
        """The run has failed if it has judged fewer files."""
        if self.judged < count:
            some = f"{self.judged} files were" if self.judged > 1 else "1 file was" if self.judged else "no file was"
            why = f", and {count} were expected" if count > 1 else "; --allow-none accepts that"
            self.fail(f"{some} judged{why}")

    @property
    def files(self) -> int:
        return sum(self.words.values())

    @property
    def judged(self) -> int:
        """How many files have a verdict on their bytes."""
        return self.words[ACCEPTED] + self.words[NOT_BY_POLICY] + self.words[REFUSED]

    @property
    def more_found(self) -> int:
        """How many files of OTHER_KIND there are besides the first ones."""
        return self.words[OTHER_KIND] - len(self.found)

    @property
    def status(self) -> int:
        """That of the command, in a shell."""
        if self.signal:
            return 128 + self.signal
        return STATUSES[NO_VERDICT] if self.fault else self.worst

    def __str__(self) -> str:
        kinds = {word: f"{count} of another kind" for word, count in self.other_kinds.items() if count}
        some = [*filter(None, [kinds.get(REFUSED)]), *([f"{self.known} known"] if self.known else [])]
        notes = f" ({', '.join(some)})" if some else ""
        unjudged = f" ({kinds[NO_VERDICT]})" if NO_VERDICT in kinds else ""
        policy = f"{self.words[NOT_BY_POLICY]} {NOT_BY_POLICY}, " if self.has_policy else ""
        others = f", {kinds[OTHER_KIND]}" if OTHER_KIND in kinds else ""
        return (f"{self.words[ACCEPTED]} accepted, {policy}{self.words[REFUSED]} refused{notes}, "
                f"{self.words[NO_VERDICT]} without verdict{unjudged}, {self.words[SKIPPED]} skipped{others}"
                f"{f'; {NOT_ALL}' if self.is_partial else ''}")

    def object(self) -> Dict[str, Any]:
        failed: Dict[str, Any] = {"interrupted": True} if self.signal else {"error": self.fault} if self.fault else {}
        policy = {"not_by_policy": self.words[NOT_BY_POLICY]} if self.has_policy else {}
        known = {"known": self.known} if self.known else {}
        return {**failed, "accepted": self.words[ACCEPTED], **policy, "refused": self.words[REFUSED],
                "other_kinds": sum(self.other_kinds[word] for word in (REFUSED, NO_VERDICT, OTHER_KIND)), **known,
                "no_verdict": self.words[NO_VERDICT], "skipped": self.words[SKIPPED], "status": self.status}
