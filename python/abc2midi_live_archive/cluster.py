"""Workers on many machines, by Dask. It is loaded only when a scheduler is named."""

from __future__ import annotations

import asyncio
import importlib
import logging
import queue
import threading
import time
import warnings
from collections import Counter
from collections.abc import Callable, Iterator
from concurrent.futures import CancelledError
from typing import Any, Optional

from .units import Outcome, Result, Unit
from .worker_process import WorkerProcess
from .workers import DIED, MOST_DEATHS, Done, Workers, died

AHEAD = 4  # units for each thread of the workers that it has or that wait for it
LEAST_AHEAD = 16
MOST_LOSSES = 10  # of a result that was there, and whose worker ended before it was sent
SECONDS_OF_A_WAIT = 0.5
SECONDS_TO_CONNECT = 30
ADVICE = ("Large object", "Sending large graph")  # to programmers: with --collect a unit has its whole book
ENDED = "the scheduler ended; the same command resumes the run when there is one again"
LOST = "its result could not be had from the workers"
LOGGERS = ("distributed", "distributed.client", "asyncio")
NEEDS_DASK = "--scheduler needs Dask: install python3-distributed"
NO_WORKERS = "the cluster has no workers any more"

of_thread = threading.local()  # on a worker: the process in which a thread has units done


class NoCluster(Exception):
    """There is no Dask, no scheduler or no worker."""


class Cluster(Workers):
    """The workers of a scheduler. Dask gives the units of a dead worker to the others. A run that has had no worker for `patience`
    seconds ends; `tell` tells the user so before."""

    def __init__(self, address: str, patience: float, tell: Callable[[str], None]):
        """Connects. Raises NoCluster."""
        super().__init__()
        self.patience, self.tell = patience, tell
        try:
            self.dask: Any = importlib.import_module("distributed")
        except ImportError as error:
            raise NoCluster(f"{NEEDS_DASK} ({error})") from error
        keep_quiet()
        try:
            self.client = self.dask.Client(address, timeout=SECONDS_TO_CONNECT)
            self.client.wait_for_workers(1, timeout=patience)
        except (OSError, ValueError, asyncio.TimeoutError) as error:
            raise NoCluster(f"no scheduler with a worker answers at {address}: {str(error) or 'it took too long'}") from error
        self.deaths: Counter[str] = Counter()
        self.losses: Counter[str] = Counter()
        self.futures: dict[Any, Unit] = {}
        self.ended: queue.SimpleQueue[Any] = queue.SimpleQueue()

    def do(self, units: Iterator[Unit]) -> Iterator[Done]:
        try:
            while self.give(units):
                yield from self.take_ended()
        except (OSError, RuntimeError, ValueError) as error:  # what Dask raises without a scheduler
            raise NoCluster(f"{ENDED}: {error}") from error

    def give(self, units: Iterator[Unit]) -> bool:
        """Gives the scheduler as many units as the workers can have; returns whether it has any."""
        most = max(LEAST_AHEAD, AHEAD * self.threads())
        while self.has_room(most):
            unit = next(units, None)
            if not unit:
                break
            self.submit(unit)
        return bool(self.futures)

    def threads(self) -> int:
        """Returns how many units the workers do at once."""
        return int(sum(self.client.nthreads().values()))

    def submit(self, unit: Unit) -> None:
        """Gives a unit to the scheduler."""
        self.under_way[unit.book] = unit
        future = self.client.submit(do_apart, unit, pure=False)
        self.futures[future] = unit
        future.add_done_callback(self.ended.put)

    def take_ended(self) -> Iterator[Done]:
        """Yields the next unit that is done, if it is."""
        future = self.first_ended()
        unit = self.futures.pop(future)
        result = self.result_of(future, unit)
        if result:
            del self.under_way[unit.book]
            yield Done(unit, result)
        else:
            self.submit(unit)

    def first_ended(self) -> Any:
        """Waits until a unit has ended. Raises NoCluster if there is no worker for too long."""
        missed: Optional[float] = None  # since when
        while True:
            try:
                return self.ended.get(timeout=SECONDS_OF_A_WAIT)
            except queue.Empty:
                missed = self.missing_since(missed)

    def missing_since(self, missed: Optional[float]) -> Optional[float]:
        """Returns since when there is no worker, or None if there is one. Raises NoCluster if it is too long."""
        if self.threads():
            return None
        if missed is None:
            self.tell(f"{NO_WORKERS}; waiting {self.patience:g} seconds for one")
            return time.monotonic()
        if time.monotonic() - missed > self.patience:
            raise NoCluster(f"{NO_WORKERS}, and none came in {self.patience:g} seconds; the same command resumes the run")
        return missed

    def result_of(self, future: Any, unit: Unit) -> Optional[Result]:
        """Returns the result of a unit, or None if it has to be done again: its worker died over it, or before it sent the result."""
        if future.status == "cancelled":
            raise NoCluster(ENDED)
        if future.status == "error":
            return self.result_of_error(future.exception(), unit)
        try:
            result: Result = future.result(timeout=self.patience)
            return result
        except (OSError, asyncio.TimeoutError, asyncio.CancelledError, CancelledError, KeyError):
            self.losses[unit.book] += 1
            return Result(Outcome.FAILED, LOST) if self.losses[unit.book] > MOST_LOSSES else None

    def result_of_error(self, error: BaseException, unit: Unit) -> Optional[Result]:
        """Returns the result of a unit that ended by an error, or None if it has to be done again."""
        if not isinstance(error, self.dask.scheduler.KilledWorker):
            return Result(Outcome.FAILED, f"a worker failed: {type(error).__name__}: {error}")
        self.deaths[unit.book] += 1
        return died(unit).result if self.deaths[unit.book] > MOST_DEATHS else None

    def stop(self) -> None:
        self.client.close(timeout=1)


def do_apart(unit: Unit) -> Result:
    """Does a unit on a worker, in a process of its own, so that its limits hold and no book can end the worker. The process stays for
    the next units of this thread. Raises OSError if it cannot be started."""
    if not hasattr(of_thread, "process"):
        of_thread.process = WorkerProcess()
    results = (of_thread.process.do(unit) for _ in range(MOST_DEATHS))
    return next(filter(None, results), Result(Outcome.FAILED, DIED))


def keep_quiet() -> None:
    """Keeps Dask from printing what is for programmers, and what the run reports itself."""
    for warning in ADVICE:
        warnings.filterwarnings("ignore", warning, UserWarning)
    for name in LOGGERS:
        logging.getLogger(name).setLevel(logging.CRITICAL + 1)
