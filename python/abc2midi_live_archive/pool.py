"""Workers on this machine: a pool of processes. A thread for each of them waits for its results."""

from __future__ import annotations

import queue
import threading
from collections import Counter, deque
from collections.abc import Iterator
from typing import NamedTuple, Optional

from .allocator import choose_allocator
from .units import Outcome, Result, Unit
from .worker_process import WorkerProcess
from .workers import MOST_DEATHS, Done, Workers, died

AHEAD = 3  # units for each process that it has or that wait for it
FEW_DEATHS = 3  # of workers over a unit beside others, before it is done alone
SECONDS_OF_A_WAIT = 0.5


class Ended(NamedTuple):
    """A unit, and its result, or None if its worker died."""

    unit: Unit
    result: Optional[Result]


class Pool(Workers):
    """A pool of processes. If one dies, its unit is done again. One over which several died is done alone at the end: beside the
    others there may be too little memory for it."""

    def __init__(self, processes: int):
        super().__init__()
        choose_allocator()
        self.workers = [WorkerProcess() for _ in range(processes)]
        self.waiting: queue.SimpleQueue[Unit] = queue.SimpleQueue()
        self.ended: queue.SimpleQueue[Ended] = queue.SimpleQueue()
        self.again: deque[Unit] = deque()
        self.alone: deque[Unit] = deque()
        self.deaths: Counter[str] = Counter()

    def do(self, units: Iterator[Unit]) -> Iterator[Done]:
        for worker in self.workers:
            threading.Thread(target=self.do_waiting, args=(worker,), daemon=True).start()
        while self.give(units):
            unit, result = self.first_ended()
            del self.under_way[unit.book]
            if result:
                yield Done(unit, result)
            else:
                yield from self.note_death(unit)

    def do_waiting(self, worker: WorkerProcess) -> None:
        """Has a worker do units that wait, for ever."""
        while True:
            unit = self.waiting.get()
            try:
                result = worker.do(unit)
            except Exception as error:
                result = Result(Outcome.FAILED, f"no worker can do it: {error}")
            self.ended.put(Ended(unit, result))

    def give(self, units: Iterator[Unit]) -> bool:
        """Gives the workers as many units as they can have; returns whether they have any."""
        while self.has_room(len(self.workers) * AHEAD):
            unit = self.next_unit(units)
            if not unit:
                break
            self.under_way[unit.book] = unit
            self.waiting.put(unit)
        return bool(self.under_way)

    def next_unit(self, units: Iterator[Unit]) -> Optional[Unit]:
        """Returns the unit to do next: that of a dead worker, another one, or, beside no other, one that is done alone."""
        if self.again:
            return self.again.popleft()
        unit = next(units, None)
        return self.alone.popleft() if not unit and self.alone and not self.under_way else unit

    def first_ended(self) -> Ended:
        """Waits until a unit has ended. Python hears a signal that comes just before a wait only after it, so each wait is short."""
        while True:
            try:
                return self.ended.get(timeout=SECONDS_OF_A_WAIT)
            except queue.Empty:
                continue

    def note_death(self, unit: Unit) -> Iterator[Done]:
        """Gives a unit whose worker died to be done again, or yields that it is given up."""
        self.deaths[unit.book] += 1
        if self.deaths[unit.book] <= FEW_DEATHS:
            self.again.append(unit)
        elif self.deaths[unit.book] <= FEW_DEATHS + MOST_DEATHS:
            self.alone.append(unit)
        else:
            yield died(unit)

    def stop(self) -> None:
        for worker in self.workers:
            worker.stop()
        for worker in self.workers:
            worker.end()
