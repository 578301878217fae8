"""Does something to many items in processes, and gives the results in the order of the items.

No more items are taken than the processes soon need, so memory does not grow with their number. A process that is
killed costs the one item on which it ended. It ends when the process that has started it does, whatever it does then.

An item may take bytes along, its weight. Only a process that waits gets such items: nobody blocks. A heavy one is not
copied: a new process has it from the process that starts it.

An item may have others in it, as a compressed archive has. A process that waits does them one after the other, and
sends their results as they come.
"""

from __future__ import annotations

import ctypes
import os
import signal
from collections import deque
from itertools import islice
from typing import (
    TYPE_CHECKING, Any, Callable, Deque, Dict, Iterable, Iterator, List, NamedTuple, Optional, Tuple, TypeVar)

from ._interrupts import forget_interrupts, held_interrupts

if TYPE_CHECKING:
    from multiprocessing.connection import Connection

Item = TypeVar("Item")

# <linux/prctl.h>: a process gets a signal when the one that has started it ends.
PR_SET_PDEATHSIG = 1
# How many items a process gets at once. The first ones get one each: there may be few, and large. And how many results
# that are known already wait with them.
BATCH, MOST_KNOWN = 16, 256
# Items of so many bytes are no longer sent, alone or together.
HEAVY = 1 << 20
# So many tasks each process has: one that it does, and one that waits.
TASKS_EACH = 2
# So many tasks for each process may be done or under way after the first one that is not done.
WINDOW_EACH = 8
# Results of what is in an item are sent together, and wait in this process until those before them are there.
RESULTS, MOST_WAITING = 64, 1 << 12


class UpToFault:
    """Items up to an exception of their iterator. It is raised after the results of the items before it."""

    def __init__(self, items: Iterator[Item]) -> None:
        self.items = items
        self.fault: Optional[Exception] = None

    def __iter__(self) -> Iterator[Item]:
        try:
            yield from self.items
        except Exception as fault:  # pylint: disable=broad-except # whatever it is
            self.fault = fault

    def end(self) -> None:
        """Raises the exception, if there was one."""
        if self.fault:
            raise self.fault


class Order(NamedTuple):
    """An item that has others in it, how many of these are done, and whether it is told before each."""

    item: Any
    done: int
    is_careful: bool


class Task:
    """Some items, with those results that are there and were not taken; or one item that `has_others` in it. Results that
    are known before come with their places among all results."""

    def __init__(self, items: List[Any], weight: int = 0, has_others: bool = False,
                 known: Iterable[Tuple[int, Any]] = ()) -> None:
        self.items = items
        self.weight = weight
        self.has_others = has_others
        self.known = known
        self.results: List[Any] = []
        self.is_done = False
        # How many results there were, and whether each of them is sent at once. And the results of what its process
        # does, if that is killed.
        self.count = 0
        self.is_careful = False
        self.if_ended: List[Any] = []

    def add(self, results: List[Any]) -> None:
        self.results += results
        self.count += len(results)

    def end(self, results: List[Any]) -> None:
        """Nobody needs the items any more."""
        for place, result in self.known:
            results.insert(place, result)
        self.add(results)
        self.is_done = True
        self.items.clear()

    def take(self) -> List[Any]:
        taken, self.results = self.results, []
        return taken

    @property
    def order(self) -> Order:
        return Order(self.items[0], self.count, self.is_careful)


class Worker(NamedTuple):
    """A process, the connection with it, and the tasks that it has. One that was started for a heavy task has no other,
    nor has one whose task has others in it."""

    process: int
    connection: Connection
    tasks: Deque[Task]
    is_for_heavy: bool = False

    @property
    def takes_more(self) -> bool:
        return not self.is_for_heavy and not any(task.has_others for task in self.tasks)


class Work(NamedTuple):
    """What is done to an item, what its result is if that is `known` before, and what it is if its process has ended. An
    item that `is_here` is done in this process. `weigh` says how many bytes an item takes along. `opened` gives the
    items in one that `has_others`."""

    do: Callable[[Any], Any]
    known: Callable[[Any], Any]
    ended: Callable[[Any], Any]
    is_here: Callable[[Any], bool]
    weigh: Callable[[Any], int]
    has_others: Callable[[Any], bool]
    opened: Callable[[Any], Iterator[Any]]


def map_in_processes(work: Work, items: Iterator[Any], jobs: int) -> Iterator[Any]:
    """The results for the items."""
    held = UpToFault(items)
    begun = iter(held)
    first = deque(islice(begun, 2 if jobs > 1 else 0))
    all_items = _popped(first, begun)
    if len(first) < 2 and not any(map(work.has_others, first)):
        yield from map(work.do, all_items)
        held.end()
        return
    pool = _Pool(work, jobs)
    try:
        for results in pool.run(_tasks(work, all_items, jobs)):
            yield from results
    finally:
        pool.close()
    held.end()


def _popped(first: Deque[Item], others: Iterator[Item]) -> Iterator[Item]:
    """The items, which nobody here holds."""
    while first:
        yield first.popleft()
    yield from others


def _tasks(work: Work, items: Iterator[Any], jobs: int) -> Iterator[Task]:
    singles = 4 * jobs
    batch: List[Any] = []
    known: List[Tuple[int, Any]] = []
    together = 0
    for item in items:
        result = work.known(item)
        if result is not None and len(known) < MOST_KNOWN:
            known.append((len(batch) + len(known), result))
            continue
        here, weight, has_others = work.is_here(item), work.weigh(item), work.has_others(item)
        is_full = len(known) == MOST_KNOWN or len(batch) == BATCH or together + weight > HEAVY
        if (batch or known) and (here or has_others or is_full or (batch and singles > 0)):
            yield _task(batch, together, known)
            batch, known, together, singles = [], [], 0, singles - 1
        if result is not None or here:
            yield _task([], 0, [(0, work.do(item) if result is None else result)])
        elif has_others:
            yield Task([item], has_others=True)
        else:
            batch.append(item)
            together += weight
        del item
    if batch or known:
        yield _task(batch, together, known)


def _task(batch: List[Any], weight: int, known: List[Tuple[int, Any]]) -> Task:
    task = Task(batch, weight, known=known)
    if not batch:
        task.end([])
    return task


class _Pool:
    def __init__(self, work: Work, jobs: int) -> None:
        self.work = work
        self.jobs = jobs
        self.workers: Dict[Connection, Worker] = {}
        # It loads sockets and more, which one file does not need. An interrupt in it would leave files open, as one in the
        # making of a pipe would.
        with held_interrupts():
            from multiprocessing import connection  # pylint: disable=import-outside-toplevel
        self.new_pipe, self.wait = connection.Pipe, connection.wait

    def run(self, tasks: Iterator[Task]) -> Iterator[List[Any]]:
        """The results of the tasks, in the order of the tasks, when they are there."""
        under_way: Deque[Task] = deque()
        again: Deque[Task] = deque()
        task = next(tasks, None)
        while under_way or task:
            while task and len(under_way) < self.jobs * WINDOW_EACH and self._has_room(task):
                under_way.append(task)
                if not task.is_done:
                    self._give(task, again)
                # No name here has the items of the one before it, which can be large.
                task = None
                task = next(tasks, None)
            while under_way and (under_way[0].results or under_way[0].is_done):
                yield under_way[0].take()
                if under_way[0].is_done and not under_way[0].results:
                    under_way.popleft()
            if under_way and not again:
                self._receive(again)
            while again:
                self._retry(again.popleft())

    def _has_room(self, task: Task) -> bool:
        """Whether a process has room for a task, or there can be one more."""
        idle, most = self._idlest(), 1 if task.weight or task.has_others else TASKS_EACH
        return task.is_done or len(self.workers) < self.jobs or (idle is not None and len(idle.tasks) < most)

    def _give(self, task: Task, again: Deque[Task]) -> None:
        """Gives a task to the process that has fewest, or to a new one."""
        idle = self._idlest()
        if task.weight > HEAVY:
            self._hand_on(task, idle)
            return
        if (idle is None or idle.tasks) and len(self.workers) < self.jobs:
            idle = self._start() or idle
        if idle is None or ((task.weight or task.has_others) and idle.tasks):
            task.end(list(map(self.work.do, self._items_of(task))))
            return
        idle.tasks.append(task)
        try:
            idle.connection.send(task.order if task.has_others else task.items)
        except OSError:
            self._bury(idle, again)

    def _idlest(self) -> Optional[Worker]:
        """The process that has fewest tasks, of those that take several."""
        several = (it for it in self.workers.values() if it.takes_more)
        return min(several, key=lambda it: len(it.tasks), default=None)

    def _hand_on(self, task: Task, idle: Optional[Worker]) -> None:
        """Starts a process for a heavy task, in the place of one that waits if there are enough."""
        if idle and len(self.workers) >= self.jobs:
            self._end(idle)
        worker = self._start(task)
        if worker:
            worker.tasks.append(task)
            task.if_ended = list(map(self.work.ended, task.items))
            task.items.clear()
        else:
            task.end(list(map(self.work.do, task.items)))

    def _items_of(self, task: Task) -> Iterator[Any]:
        """The items of a task, or what is left of those in its item."""
        return islice(self.work.opened(task.items[0]), task.count, None) if task.has_others else iter(task.items)

    def _receive(self, again: Deque[Task]) -> None:
        """Waits for results: not of a process many of whose results wait for those before them. The first task, whose
        results are taken, has none that wait."""
        ready = [it.connection for it in self.workers.values()
                 if it.tasks and len(it.tasks[0].results) < MOST_WAITING]
        for connection in self.wait(ready):
            worker = self.workers[connection]  # type: ignore[index]
            try:
                answer = worker.connection.recv()
            except (EOFError, OSError):
                self._bury(worker, again)
                continue
            task = worker.tasks[0]
            if task.has_others and answer is not None:
                results, task.if_ended = answer
                task.add(results)
                continue
            task.end(answer or [])
            worker.tasks.popleft()
            if worker.is_for_heavy:
                self._end(worker)

    def _bury(self, worker: Worker, again: Deque[Task]) -> None:
        """A process has ended. Its tasks are done again."""
        del self.workers[worker.connection]
        worker.connection.close()
        os.waitpid(worker.process, 0)
        if worker.is_for_heavy:
            task = worker.tasks.popleft()
            task.end(task.if_ended)
        elif worker.tasks and worker.tasks[0].has_others:
            self._go_on(worker.tasks.popleft(), again)
        elif worker.tasks and len(worker.tasks[0].items) == 1:
            task = worker.tasks.popleft()
            task.end(list(map(self.work.ended, task.items)))
        again.extend(worker.tasks)

    def _go_on(self, task: Task, again: Deque[Task]) -> None:
        """The process has ended that did what is in an item. Another one goes on, and says before each what comes next:
        so it is known which one ends a process."""
        if task.is_careful and not task.if_ended:
            # It has ended between two.
            task.end(list(map(self.work.ended, task.items)))
            return
        task.add(task.if_ended)
        task.is_careful, task.if_ended = True, []
        self._give(task, again)

    def _retry(self, task: Task) -> None:
        """Does a task item by item, in a process that an item may end."""
        worker: Optional[Worker] = None
        results = []
        for item in task.items:
            worker = worker or self._start()
            if worker is None:
                results.append(self.work.do(item))
                continue
            try:
                worker.connection.send([item])
                results += worker.connection.recv()
            except (EOFError, OSError):
                self._end(worker)
                worker = None
                results.append(self.work.ended(item))
        task.end(results)
        if worker:
            self._end(worker)

    def _start(self, heavy: Optional[Task] = None) -> Optional[Worker]:
        """Starts a process, if there can be one more."""
        starter = os.getpid()
        with held_interrupts():
            here, there = self.new_pipe()
            try:
                process = os.fork()
            except OSError:
                here.close()
                there.close()
                return None
            if process == 0:
                self._work(starter, here, there, heavy)
        there.close()
        worker = Worker(process, here, deque(), heavy is not None)
        self.workers[here] = worker
        return worker

    def _work(self, starter: int, here: Connection, there: Connection, heavy: Optional[Task]) -> None:
        """What the started process does, until there is nobody to tell."""
        try:
            forget_interrupts()
            ctypes.CDLL(None).prctl(PR_SET_PDEATHSIG, signal.SIGKILL)
            if os.getppid() != starter:
                return
            for other in (here, *self.workers):
                other.close()
            while heavy is None:
                order = there.recv()
                if isinstance(order, Order):
                    self._send_all(there, order)
                else:
                    there.send(list(map(self.work.do, order)))
            there.send(list(map(self.work.do, heavy.items)))
        finally:
            os._exit(0)

    def _send_all(self, there: Connection, order: Order) -> None:
        """Sends the results of all items in one, and nothing at their end. If it is careful, it also sends before each
        what its result is if this process is killed."""
        results: List[Any] = []
        for item in islice(self.work.opened(order.item), order.done, None):
            if order.is_careful:
                there.send(([], [self.work.ended(item)]))
            results.append(self.work.do(item))
            # It can be large, and the next one comes.
            del item
            if order.is_careful or len(results) == RESULTS:
                there.send((results, []))
                results = []
        there.send((results, []))
        there.send(None)

    def _end(self, worker: Worker) -> None:
        """Ends a process, which has nothing to do, or nothing that anybody waits for."""
        self.workers.pop(worker.connection, None)
        worker.connection.close()
        os.kill(worker.process, signal.SIGKILL)
        os.waitpid(worker.process, 0)

    def close(self) -> None:
        for worker in list(self.workers.values()):
            self._end(worker)
