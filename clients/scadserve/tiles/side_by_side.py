"""Work on many pieces by processes side by side, each of which ends with the one that started it.

    for number, found in done(work, pieces, jobs):
        ..

`work` is called with each piece in one of the processes, which know what stands in memory when they start. What it gives goes
back as it comes. At an exception here, as at Ctrl-C, all processes are ended, and with them what they have started.
"""

from __future__ import annotations

import contextlib
import multiprocessing
import os
import signal
from multiprocessing.connection import Connection, wait
from typing import Callable, Generic, Iterator, Sequence, TypeVar

from ..server.scripts import ServerFailed

P = TypeVar("P")
T = TypeVar("T")
_FORKING = multiprocessing.get_context("fork")


def processors() -> int:
    """How many processors there are for this process."""
    return len(os.sched_getaffinity(0)) if hasattr(os, "sched_getaffinity") else os.cpu_count() or 1


def done(work: Callable[[P], T], pieces: Sequence[P], jobs: int) -> Iterator[tuple[int, T]]:
    """The number of each piece with what is made of it, as it comes. Raises what `work` raises, and ServerFailed where a
    process is ended from outside."""
    team = _Team(work, pieces, min(jobs, len(pieces)))
    try:
        yield from team.results()
    finally:
        team.end()


class _Team(Generic[P, T]):
    """Processes, each with a pipe, by which it is told the numbers of pieces and gives what it makes of them."""

    def __init__(self, work: Callable[[P], T], pieces: Sequence[P], jobs: int) -> None:
        self._left = iter(range(len(pieces)))
        self._pipes: dict[Connection, multiprocessing.process.BaseProcess] = {}
        for _ in range(jobs):
            ours, theirs = _FORKING.Pipe()
            others = [*self._pipes, ours]
            process = _FORKING.Process(target=_serve, args=(work, pieces, theirs, others), daemon=False)
            process.start()
            theirs.close()
            self._pipes[ours] = process

    def results(self) -> Iterator[tuple[int, T]]:
        busy = set()
        for pipe in self._pipes:
            if self._give(pipe):
                busy.add(pipe)
        while busy:
            for ready in wait(list(busy)):
                pipe = next(it for it in busy if it is ready)
                number, found, error = self._taken(pipe)
                if error is not None:
                    raise error
                if not self._give(pipe):
                    busy.remove(pipe)
                yield number, found

    def _give(self, pipe: Connection) -> bool:
        """Tells a process the next piece, where there is one."""
        number = next(self._left, None)
        if number is not None:
            with contextlib.suppress(BrokenPipeError):
                pipe.send(number)
        return number is not None

    def _taken(self, pipe: Connection) -> tuple[int, T, Exception | None]:
        try:
            found: tuple[int, T, Exception | None] = pipe.recv()
            return found
        except (EOFError, ConnectionResetError):
            process = self._pipes[pipe]
            process.join()
            status = process.exitcode or 0
            how = f"signal {-status}" if status < 0 else f"status {status}"
            raise ServerFailed(f"a process that makes tiles ended with {how}", 128 - status if status < 0 else 6) from None

    def end(self) -> None:
        """Ends all processes: those that wait for a piece by the end of their pipe, and others by a signal."""
        for pipe, process in self._pipes.items():
            pipe.close()
            process.terminate()
        for process in self._pipes.values():
            # (Python does not notice a signal that comes just before a call that waits, so it is sent until the process ends)
            while process.is_alive():
                process.join(1)
                process.terminate()


def _serve(work: Callable[[P], T], pieces: Sequence[P], pipe: Connection, others: Sequence[Connection]) -> None:
    """Does what it is told by a pipe until that ends."""
    for it in others:
        it.close()
    signal.signal(signal.SIGTERM, _end)
    with contextlib.suppress(EOFError, KeyboardInterrupt, SystemExit, BrokenPipeError, ConnectionResetError):
        while True:
            number = pipe.recv()
            try:
                pipe.send((number, work(pieces[number]), None))
            except (BrokenPipeError, ConnectionResetError):
                raise
            except Exception as error:  # (which is raised where the results are read)
                pipe.send((number, None, error))


def _end(number: int, _frame: object) -> None:
    # (a second signal must not stop the ending of what this process has started)
    signal.signal(signal.SIGTERM, signal.SIG_IGN)
    raise SystemExit(128 + number)
