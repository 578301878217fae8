"""Judges files on the workers of a Dask scheduler. Each worker has this package and the same library, and sees the same
paths.

A worker that dies costs no verdict. Dask gives its tasks to others. A task that finds that it was begun before does
nothing: its files are then judged one by one, while no others are. A file whose worker dies then too, the second one,
has no verdict.
"""

from __future__ import annotations

import logging
import os
import pickle
import re
import time
import uuid
from collections import deque
from itertools import takewhile
from queue import Empty, SimpleQueue
from typing import Any, Deque, Dict, Iterator, List, NamedTuple, Optional, Set, Tuple, Union

from . import library_version
from ._archives import Place
from ._check import (
    NO_VERDICT, Choice, Outcome, Stopped, Target, is_input, judge, known_outcome, outcome_before, weight_of)
from ._output import say
from ._pool import HEAVY, UpToFault
from ._reports import VERSION

# A task has so many files, or so many bytes.
BATCH_FILES, BATCH_SIZE = 256, 1 << 26
# Each thread of a worker has so many tasks: some that it does, and some that wait.
TASKS_EACH = 3
# So many tasks for each thread may be done or under way after the first one that is not done.
WINDOW_EACH = 12
# How often it is asked which workers there are, and how long there may be none.
SECONDS_BETWEEN, SECONDS_WITHOUT_WORKER = 2.0, 60.0
# How often a task may fail for a reason that is not in its files.
MOST_FAULTS = 3

# The answers of a task that has judged nothing: another worker had begun it; this worker must not judge.
BEGUN, UNFIT = "begun", "unfit"
KILLED = "two workers have ended while they judged it"


class ClusterError(Stopped):
    """The cluster cannot judge files, or not any more."""


def version() -> str:
    """What a worker must have in common with the command."""
    return f"kesvuot {VERSION}, library {'.'.join(map(str, library_version()))}"


# On a worker


class Order(NamedTuple):
    """What a task has to do: files, whose paths begin in the folder."""

    name: str
    targets: List[Target]
    folder: str
    choice: Choice
    version: str


def do(pickled: bytes) -> Union[str, bytes]:
    """Judges the files of an order, or says why not. Dask looks at bytes as a whole, and into each list."""
    from distributed import Event  # pylint: disable=import-outside-toplevel # an optional package
    order: Order = pickle.loads(pickled)
    if version() != order.version:
        return UNFIT
    begun = Event(order.name)
    if begun.is_set():
        begun.clear()
        return BEGUN
    begun.set()
    try:
        return pickle.dumps([_judge_there(target, order) for target in order.targets])
    finally:
        begun.clear()


def _judge_there(target: Target, order: Order) -> Outcome:
    # An empty name is not the folder.
    there = target._replace(path=target.path and os.path.join(order.folder, target.path))
    if isinstance(there.contents, Place):
        place = there.contents
        there = there._replace(contents=place._replace(path=os.path.join(order.folder, place.path)))
    return judge(there, order.choice)._replace(path=target.path)


# Here


class Batch:
    """Some files, with their outcomes once all are there."""

    def __init__(self, targets: List[Target]) -> None:
        known = [outcome for outcome in map(known_outcome, targets) if outcome]
        self.targets = targets
        self.outcomes: Optional[List[Outcome]] = known if len(known) == len(targets) else None
        self.faults = 0

    def is_of(self, answer: Any) -> bool:
        """Whether an answer has the outcomes of these files."""
        return isinstance(answer, list) and [it.path for it in answer] == [it.path for it in self.targets]


def judge_on_cluster(targets: Iterator[Target], choice: Choice, address: str, is_ordered: bool) -> Iterator[Outcome]:
    """The outcomes of all files: in the order of the files, or as they come. Raises ClusterError at once if there is no
    cluster that can judge."""
    try:
        from distributed import Client  # pylint: disable=import-outside-toplevel # an optional package
    except ImportError as error:
        raise ClusterError(f"--cluster needs the package distributed (Debian: python3-distributed): {error}") from error
    # Dask waits for a minute where an address has another form, and then leaves a traceback.
    if not re.fullmatch(r"(tcp|tls|ws|wss)://.+:\d+", address):
        raise ClusterError(f"no scheduler at {address}: an address is like tcp://HOST:8786")
    # They would write of each connection that is lost or late.
    for name in ("distributed", "distributed.client", "asyncio", "tornado"):
        logging.getLogger(name).setLevel(logging.CRITICAL)
    try:
        client = Client(address, set_as_default=False)
    except (OSError, ValueError) as error:
        raise ClusterError(f"no scheduler at {address}: {error}") from error
    cluster = _Cluster(client, choice, address)
    try:
        cluster.begin()
    except ClusterError:
        client.close()
        raise
    return cluster.judge_all(targets, is_ordered)


def _take_done(waiting: Deque[Batch], is_ordered: bool) -> List[Batch]:
    """Takes the batches that are done, or only as many of the first as are done."""
    done = list(takewhile(_is_done, waiting) if is_ordered else filter(_is_done, waiting))
    for batch in done:
        waiting.remove(batch)
    return done


def _is_done(batch: Batch) -> bool:
    return batch.outcomes is not None


def _batches(targets: Iterator[Target], choice: Choice) -> Iterator[Batch]:
    some: List[Target] = []
    size = 0
    for target in targets:
        if _is_here(target):
            if some:
                yield Batch(some)
            some, size = [], 0
            yield Batch([target._replace(outcome=judge(target, choice))])
            continue
        looked = _looked_at(target, choice)
        some.append(looked.target)
        size += looked.size
        if len(some) == BATCH_FILES or size >= BATCH_SIZE:
            yield Batch(some)
            some, size = [], 0
    if some:
        yield Batch(some)


def _is_here(target: Target) -> bool:
    """Whether only this process has the bytes of a file, or they are too many to send."""
    place = target.contents.path if isinstance(target.contents, Place) else ""
    return is_input(target) or place == "-" or weight_of(target) > HEAVY


class Looked(NamedTuple):
    """A target with its outcome, if it need not be read, and how many bytes there are to read."""

    target: Target
    size: int


def _looked_at(target: Target, choice: Choice) -> Looked:
    if target.contents is not None:
        return Looked(target, target.contents.packed.size if isinstance(target.contents, Place) else weight_of(target))
    try:
        outcome = outcome_before(target, choice)
        return Looked(target._replace(outcome=outcome), 0 if outcome else os.stat(target.path).st_size)
    except (OSError, ValueError):
        # The worker says why.
        return Looked(target, 0)


class _Cluster:
    def __init__(self, client: Any, choice: Choice, address: str) -> None:
        self.client, self.choice, self.address = client, choice, address
        self.run = f"kesvuot-{uuid.uuid4().hex}"
        self.version = version()
        # The threads of the workers that may judge; all workers that were asked for their version; and those that have
        # another one.
        self.threads: Dict[str, int] = {}
        self.asked: Set[str] = set()
        self.unfit: Set[str] = set()
        self.asked_at = 0.0
        # The batches of the tasks that are under way, and their futures, without which Dask would drop them.
        self.batches: Dict[str, Batch] = {}
        self.futures: Dict[str, Any] = {}
        self.tasks = 0
        # The names of the tasks that have ended, and their answers.
        self.ended: SimpleQueue[Tuple[str, Any]] = SimpleQueue()
        # Batches that were begun by a worker that has ended.
        self.begun: Deque[Batch] = deque()

    def begin(self) -> None:
        """Looks whether there is a worker."""
        self._ask()
        if not self.threads:
            raise self._error(f"there is no worker with {self.version}")

    def judge_all(self, targets: Iterator[Target], is_ordered: bool) -> Iterator[Outcome]:
        """Judges, and then leaves the cluster."""
        try:
            yield from self._judge_all(targets, is_ordered)
        finally:
            self.client.close()

    def _judge_all(self, targets: Iterator[Target], is_ordered: bool) -> Iterator[Outcome]:
        held = UpToFault(targets)
        batches = _batches(iter(held), self.choice)
        waiting: Deque[Batch] = deque()
        is_over = False
        while waiting or not is_over:
            while not is_over and not self.begun and self._has_room(waiting):
                batch = next(batches, None)
                is_over = batch is None
                if batch:
                    waiting.append(batch)
                    if batch.outcomes is None:
                        self._give(batch)
            for batch in _take_done(waiting, is_ordered):
                yield from batch.outcomes or ()
            if self.batches:
                self._receive()
            elif self.begun:
                self._judge_alone(self.begun.popleft())
        held.end()

    def _has_room(self, waiting: Deque[Batch]) -> bool:
        threads = sum(self.threads.values())
        return len(waiting) < WINDOW_EACH * threads and len(self.batches) < TASKS_EACH * threads

    def _give(self, batch: Batch) -> None:
        """Gives the files of a batch to the scheduler, as a new task."""
        self._ask_sometimes()
        self.tasks += 1
        name = f"{self.run}-{self.tasks}"
        order = Order(name, batch.targets, os.getcwd(), self.choice, self.version)
        # Those that are refused get none for as long as there are others.
        workers = list(self.threads) if self.unfit else None
        future = self.client.submit(do, pickle.dumps(order), key=name, pure=False, workers=workers,
                                    allow_other_workers=bool(workers))
        self.batches[name], self.futures[name] = batch, future
        future.add_done_callback(self._collect)

    def _collect(self, future: Any) -> None:
        """Gets what a task has answered, or has raised: in a thread of Dask, since the worker that has the answer may
        have ended, and then it comes when the task is done again."""
        try:
            answer = future.result()
            answer = pickle.loads(answer) if isinstance(answer, bytes) else answer
        except BaseException as error:  # pylint: disable=broad-except # whatever a worker raises
            answer = error
        self.ended.put((future.key, answer))

    def _receive(self) -> None:
        """Waits for the end of a task."""
        name, answer = self._next_ended()
        batch, future = self.batches.pop(name), self.futures.pop(name)
        if batch.is_of(answer):
            batch.outcomes = answer
        elif future.cancelled():
            self._check_scheduler()
            raise self._error("the scheduler has dropped a task")
        else:
            self._retry(batch, self._without_killed(name, answer))

    def _retry(self, batch: Batch, answer: Any) -> None:
        """A task has judged nothing."""
        if answer == BEGUN:
            self.begun.append(batch)
            return
        self._ask()
        batch.faults += answer != UNFIT
        if batch.faults < MOST_FAULTS:
            self._give(batch)
        else:
            batch.outcomes = [Outcome(target.path, NO_VERDICT, reason=f"the worker has failed: {answer}",
                                      again=target.again) for target in batch.targets]

    def _next_ended(self) -> Tuple[str, Any]:
        while True:
            try:
                return self.ended.get(timeout=SECONDS_BETWEEN)
            except Empty:
                self._ask_sometimes()

    def _without_killed(self, name: str, answer: Any) -> Any:
        """The answer. Where Dask has given up a task whose workers have ended, it is whether one had begun it."""
        from distributed import Event, KilledWorker  # pylint: disable=import-outside-toplevel # an optional package
        if not isinstance(answer, KilledWorker):
            return answer
        begun = Event(name, client=self.client)
        is_begun = begun.is_set()
        begun.clear()
        return BEGUN if is_begun else UNFIT

    def _judge_alone(self, batch: Batch) -> None:
        """Judges files one by one, while nothing else is judged: if a worker ends, it is known by which file."""
        batch.outcomes = []
        for target in batch.targets:
            single = Batch([target])
            self._give(single)
            while single.outcomes is None:
                self._receive()
                if single in self.begun:
                    self.begun.remove(single)
                    single.outcomes = [Outcome(target.path, NO_VERDICT, reason=KILLED, again=target.again)]
            batch.outcomes += single.outcomes

    # Workers

    def _ask_sometimes(self) -> None:
        """Looks now and then which workers there are, and waits if there is none."""
        if time.monotonic() - self.asked_at < SECONDS_BETWEEN:
            return
        self._ask()
        end = time.monotonic() + SECONDS_WITHOUT_WORKER
        while not self.threads:
            if time.monotonic() > end:
                raise self._error(f"no worker with {self.version} is left")
            time.sleep(SECONDS_BETWEEN)
            self._ask()

    def _ask(self) -> None:
        """Looks which workers there are, and asks new ones for their version. It says which are refused."""
        self._check_scheduler()
        try:
            threads: Dict[str, int] = self.client.nthreads()
            new = sorted(set(threads) - self.asked)
            answers = self.client.run(version, workers=new, on_error="return") if new else {}
        except (OSError, TimeoutError) as error:
            raise self._error(str(error)) from error
        for worker, answer in answers.items():
            if isinstance(answer, OSError):
                # It has ended meanwhile.
                continue
            self.asked.add(worker)
            if answer != self.version:
                self.unfit.add(worker)
                say(f"worker {worker} is refused: {answer}, not {self.version}")
        self.threads = {worker: count for worker, count in threads.items() if worker in self.asked - self.unfit}
        self.asked_at = time.monotonic()

    def _check_scheduler(self) -> None:
        if self.client.status != "running":
            raise self._error("the scheduler has gone")

    def _error(self, why: str) -> ClusterError:
        return ClusterError(f"{self.address}: {why}")
