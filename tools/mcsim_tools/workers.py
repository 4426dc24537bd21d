"""Processes that work beside a tool and end with it, together with the programs that they run."""
from __future__ import annotations

import contextlib
import multiprocessing
import multiprocessing.connection
import os
import signal
import threading
import time
from collections import deque
from collections.abc import Callable, Iterable, Iterator
from multiprocessing.connection import Connection
from multiprocessing.process import BaseProcess
from typing import Generic, Optional, TypeVar

from .faults import Fault

Item = TypeVar('Item')
Done = TypeVar('Done')

MOST_JOBS = 1024
# items per worker that are begun before the first of them is taken back
AHEAD = 2
# seconds in which a process that was killed is gone, unless the system does not let it go
GONE = 5
# how often a worker looks whether its parent is there, in seconds
LOOK = 0.5


def processors() -> int:
    """How many processors this process may use."""
    return min(len(os.sched_getaffinity(0)), MOST_JOBS)


# ---- in a worker


def end() -> None:
    """Ends a worker and all that it runs."""
    os.killpg(0, signal.SIGKILL)


def watch(parent: int) -> None:
    """Ends a worker whose parent is gone: it has another one then. A pipe would not tell, since workers that began later hold its ends too."""
    while os.getppid() == parent:
        time.sleep(LOOK)
    end()


def begin() -> None:
    """Makes a worker and what it runs a group of their own, which ends when it is told to, or when its parent is gone."""
    signal.signal(signal.SIGINT, signal.SIG_IGN)
    os.setsid()
    signal.signal(signal.SIGTERM, lambda *_: end())
    threading.Thread(target=watch, args=(os.getppid(),), daemon=True).start()


def serve(connection: Connection, work: Callable[[Item], Done]) -> None:
    """Answers each item with what the work makes of it, or with what it raises."""
    begin()
    with contextlib.suppress(EOFError):
        while True:
            item: Item = connection.recv()
            try:
                answer: object = work(item)
            except Exception as error:
                answer = error
            connection.send(answer)


# ---- beside the workers


def kill(process: BaseProcess) -> None:
    """Ends a worker, and what it runs, from outside."""
    with contextlib.suppress(ProcessLookupError, PermissionError):
        if process.pid:
            os.killpg(process.pid, signal.SIGKILL)
    # one that is no group yet
    process.kill()
    process.join(GONE)


class Worker(Generic[Item, Done]):
    """A process that does work for one item at a time."""

    def __init__(self, work: Callable[[Item], Done]) -> None:
        context = multiprocessing.get_context('fork')
        self.connection, other = context.Pipe()
        self.process = context.Process(target=serve, args=(other, work), daemon=True)
        self.process.start()
        other.close()

    def answer(self) -> object:
        """What came of the item, or the exception that did."""
        try:
            return self.connection.recv()
        except (EOFError, OSError):
            return Fault('a process of the tool has ended: there may be too little memory')

    def end(self) -> None:
        self.connection.close()
        kill(self.process)


class Queue(Generic[Item, Done]):
    """Items on their way through workers: few are under way at a time, and what comes of them is given in their order."""

    def __init__(self, workers: list[Worker[Item, Done]], items: Iterator[Item]) -> None:
        self.items, self.idle = items, deque(workers)
        self.ahead = AHEAD * len(workers)
        self.busy: dict[Connection, tuple[Worker[Item, Done], int]] = {}
        self.answers: dict[int, object] = {}
        self.begun = self.given = 0

    def fill(self) -> None:
        """Gives items to the workers that have none."""
        while self.idle and self.begun - self.given < self.ahead:
            item: Optional[list[Item]] = next(([item] for item in self.items), None)
            if item is None:
                return
            worker = self.idle.popleft()
            with contextlib.suppress(OSError):
                worker.connection.send(item[0])
            self.busy[worker.connection] = worker, self.begun
            self.begun += 1

    def take(self) -> None:
        """Waits for answers."""
        for ready in multiprocessing.connection.wait(list(self.busy)):
            assert isinstance(ready, Connection)
            worker, number = self.busy.pop(ready)
            self.answers[number] = worker.answer()
            self.idle.append(worker)

    def results(self) -> Iterator[Done]:
        while True:
            self.fill()
            if self.given == self.begun:
                return
            while self.given not in self.answers:
                self.take()
            answer = self.answers.pop(self.given)
            self.given += 1
            if isinstance(answer, Exception):
                raise answer
            yield answer  # type: ignore[misc]


@contextlib.contextmanager
def in_order(work: Callable[[Item], Done], items: Iterable[Item], jobs: int) -> Iterator[Iterator[Done]]:
    """Does work for items, some at a time, and gives what comes of it in their order. What is under way at the end is given up."""
    if jobs == 1:
        yield map(work, items)
        return
    workers: list[Worker[Item, Done]] = []
    try:
        for _ in range(jobs):
            workers.append(Worker(work))
        yield Queue(workers, iter(items)).results()
    finally:
        for worker in workers:
            worker.end()
