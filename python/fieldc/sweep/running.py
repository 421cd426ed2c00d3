"""Many questions at once: on the processors of this machine, or on a Dask cluster. Rows are written in the order of
seeds."""

from __future__ import annotations

import logging
import os
import re
import signal
import socket
import threading
import time
from collections import deque
from collections.abc import Callable, Generator, Iterator
from concurrent.futures import CancelledError, Executor, Future, ProcessPoolExecutor, wait
from concurrent.futures.process import BrokenProcessPool
from contextlib import closing, contextmanager
from dataclasses import asdict, dataclass

from ..refusals import Fault, Refusal
from . import rows
from .questions import Batch, Question, made_by
from .rows import Files

TICK = 0.2
DEVICES_A_BATCH = 1_000
MOST_A_BATCH = 50
WINDOW_OF_CLUSTER = 256
PATIENCE = 10
LOUD = ("distributed", "distributed.client", "tornado.application", "asyncio")


@dataclass(frozen=True)
class Spent:
    """What a sweep took: the CPU seconds inside `fc` and beside it, the seconds elapsed, and how many
    rows were asked."""

    inside: float
    beside: float
    clock: float
    rows: int


@dataclass(frozen=True)
class Place:
    """Where questions are asked: an executor, how many batches are asked ahead, and a check that raises Fault once the
    place isn't there any more."""

    executor: Executor
    window: int
    check: Callable[[], None] = lambda: None


def sweep(
    question: Question, first: int, count: int, files: Files, place: Place, waiting: Callable[[int, int], None]
) -> Spent:
    """Asks for the rows of so many seeds from the first on that aren't there yet, and writes them as they come.

    `waiting` is called about five times a second with how many rows are there, and how many of them were there before.
    Raises Fault, also if the rows that are there are of another sweep, and Refusal.
    """
    start, own, inside, beside = time.monotonic(), time.process_time(), 0.0, 0.0
    there = min(rows.taken_up(files, described(question, first), question.values), count)
    done = there
    found = in_order(place, question, first + there, count - there, lambda: waiting(done, there))
    with rows.growing(files.rows) as put_rows, rows.growing(files.seconds) as put_seconds, closing(found):
        for batch in found:
            put_rows("".join(batch.lines))
            put_seconds("".join(f"{seed},{took:.6f}\n" for seed, took in enumerate(batch.seconds, first + done)))
            done += len(batch.lines)
            inside, beside = inside + sum(batch.seconds), beside + batch.beside
            waiting(done, there)
    return Spent(inside, beside + time.process_time() - own, time.monotonic() - start, done - there)


def described(question: Question, first: int) -> dict[str, object]:
    """What a sweep is: the question, the first seed, and by what its rows are made."""
    whole = {**asdict(question), "seed": first, "made_by": made_by()}
    del whole["name"]
    return whole


def batches(question: Question, first: int, count: int) -> Iterator[tuple[int, int]]:
    """The first seeds and the sizes of the batches in which so many rows are asked."""
    base = question.rule.base
    width, height = question.rule.sides
    devices = len(base.inputs) if base is not None else max(question.rule.count[1], width * height)
    size = min(max(1, DEVICES_A_BATCH // devices), MOST_A_BATCH)
    for start in range(first, first + count, size):
        yield start, min(size, first + count - start)


def in_order(
    place: Place, question: Question, first: int, count: int, waiting: Callable[[], None]
) -> Generator[Batch, None, None]:
    """The batches of so many seeds, in their order."""
    left = batches(question, first, count)
    asked: deque[Future[Batch]] = deque()
    try:
        while True:
            while len(asked) < place.window and (one := next(left, None)) is not None:
                asked.append(place.executor.submit(question.batch, *one))
            if not asked:
                return
            while not wait([asked[0]], TICK).done:
                place.check()
                waiting()
            yield checked(asked.popleft().result())
    finally:
        for future in asked:
            future.cancel()


def checked(batch: Batch) -> Batch:
    """A batch that was made by the same `fc` and the same rules as here. Raises Fault for any other."""
    if batch.made_by != made_by():
        raise Fault("a worker has another fc or fieldc than this machine: install the same on all")
    return batch


# ---- where questions are asked -------------------------------------------------------------------------------------


def processors() -> int:
    """How many processors this process may run on."""
    return len(os.sched_getaffinity(0))


@contextmanager
def on_this_machine(workers: int) -> Iterator[Place]:
    """So many processes. Raises Fault if one of them ends before its time."""
    try:
        with ProcessPoolExecutor(workers, initializer=_begun, initargs=(os.getpid(),)) as pool:
            yield Place(pool, 8 * workers)
    except BrokenProcessPool:
        raise Fault("a process of the sweep was ended; the same command resumes it", 7) from None


def _begun(parent: int) -> None:
    """What a process does first: it leaves interrupts to its parent, and ends when that one does, however it ends."""
    signal.signal(signal.SIGINT, signal.SIG_IGN)

    def follow() -> None:
        while os.getppid() == parent:
            time.sleep(TICK)
        os._exit(1)

    threading.Thread(target=follow, daemon=True).start()


@contextmanager
def on_a_cluster(address: str) -> Iterator[Place]:
    """The Dask cluster of a scheduler. What was at work on a worker that dies is asked again, of another one.

    Raises Fault if Dask or the scheduler isn't there, and if a worker can't do what it is asked.
    """
    try:
        import distributed
    except ImportError:
        raise Fault("--scheduler needs Dask (Debian: python3-distributed)") from None
    reached(address)
    try:
        client = distributed.Client(address, timeout=PATIENCE, set_as_default=False)
    except (OSError, ValueError) as error:
        raise Fault(f"the scheduler {address} can't be reached: {error}") from None
    for name in LOUD:
        logging.getLogger(name).setLevel(logging.CRITICAL)
    gone = Fault(f"the scheduler {address} went away; the same command resumes the sweep", 7)
    with client, _told(address, gone):

        def check() -> None:
            if client.status == "closed":
                raise gone

        yield Place(client.get_executor(pure=False), WINDOW_OF_CLUSTER, check)


def reached(address: str) -> None:
    """Raises Fault if nobody answers at an address: Dask's own client would say it in many lines, and late."""
    found = re.fullmatch(r"(?:(?:tcp|tls)://)?(\[[^]]+\]|[^:/]+):([0-9]+)", address)
    if found is None:
        raise Fault(f"{address} isn't the address of a scheduler: write HOST:PORT, such as north:8786")
    try:
        socket.create_connection((found[1].strip("[]"), int(found[2])), PATIENCE).close()
    except (OSError, OverflowError) as error:
        raise Fault(f"the scheduler {address} can't be reached: {error}") from None


@contextmanager
def _told(address: str, gone: Fault) -> Iterator[None]:
    """Turns what Dask raises into faults."""
    try:
        yield
    except (Fault, Refusal):
        raise
    except CancelledError:
        raise gone from None
    except Exception as error:  # whatever a worker without the package, or the library, raises
        wanted = "each worker needs fieldc and fc (docs/sweep.md)"
        raise Fault(f"the cluster of {address}: {type(error).__name__}: {error}; {wanted}") from None
