"""The queue of exports: what waits goes into one run of the server, up to 16 clients in each, and a few runs go side by side.

    exports = Exports(server, jobs=2, seconds=10)
    source, reply = exports.reply("tab 1", source, half=False)

A newer text of a client takes the place of the one that waits. A run is ended when its time is over: a shared one after a part
of the seconds that one alone has, since what it left is then tried one by one. Only this many of these go on at once that a job
is left for the others, and a client whose text took all of its seconds is tried alone until one of its texts is answered
early. So a costly text keeps no other client waiting for longer than the time of a shared run.
"""

from __future__ import annotations

import contextlib
import itertools
import os
import signal
import subprocess
import threading
from concurrent.futures import Future
from dataclasses import dataclass, field
from time import monotonic
from typing import Any, Callable, Sequence

from ..server.processes import begin, end_begun
from ..server.scripts import CLIENTS, Malformed, Reply, ServerFailed
from ..source.answering import answered
from ..source.sources import Source

#: A run that several clients share has so much of the seconds of one alone.
SHARED_PART = 0.25
# Of this many clients it is kept at most that their last text was costly.
_MOST_COSTLY = 1_024


class Replaced(Exception):
    """A newer text of the same client has come, so this one is not answered."""


class Closed(Exception):
    """The queue ends."""


class Process:
    """The process of a run, whichever it is at the time, which may be ended from another thread."""

    def __init__(self) -> None:
        self._lock = threading.Lock()
        self._process: subprocess.Popen[bytes] | None = None
        self._is_ended = False

    def take(self, process: subprocess.Popen[bytes]) -> None:
        """Takes a process, the first of a session, in place of an earlier one."""
        with self._lock:
            self._process = process
            if self._is_ended:
                self._end()

    def end(self) -> None:
        """Ends the process with all of its session, and those that are still to come."""
        with self._lock:
            self._is_ended = True
            self._end()

    def _end(self) -> None:
        if self._process is not None and self._process.poll() is None:
            with contextlib.suppress(ProcessLookupError):
                os.killpg(self._process.pid, signal.SIGTERM)


#: Work that isn't shared: it is handed the process to fill in, and the time of `time.monotonic` at which it ends.
Work = Callable[[Process, float], Any]


@dataclass(eq=False)
class _Waiting:
    """What a client waits for: the answer to a source, or that of work of its own."""

    client: str
    source: Source | None
    half: bool
    work: Work | None = None
    is_alone: bool = False
    answer: Future[Any] = field(default_factory=Future)


@dataclass(eq=False)
class _Run:
    """A run that is under way."""

    items: list[_Waiting]
    is_alone: bool
    process: Process = field(default_factory=Process)


class Exports:
    """The queue, with as many threads as runs may go side by side."""

    def __init__(self, server: Sequence[str], jobs: int, seconds: float) -> None:
        self._server, self._jobs, self._seconds = server, jobs, seconds
        self._changed = threading.Condition()
        self._waiting: dict[str, _Waiting] = {}  # (by client, in the order in which they are taken)
        self._under_way: list[_Run] = []
        self._costly: dict[str, None] = {}
        self._is_closed = False
        self._numbers = itertools.count()
        for _ in range(jobs):
            threading.Thread(target=self._go_on, daemon=True).start()

    def reply(self, client: str | None, source: Source, half: bool) -> tuple[Source, Reply]:
        """The answer to a source that is within the limits of one. Who gives no name is a client of this source alone.

        Raises Replaced, Closed, and what `run` of `server` raises.
        """
        return self.ask(client, source, half)()

    def ask(self, client: str | None, source: Source, half: bool) -> Callable[[], tuple[Source, Reply]]:
        """The same at once: what is given waits for the answer."""
        return self._asked(_Waiting(self._name(client), source, half)).result

    def alone(self, client: str | None, work: Work) -> Any:
        """What comes of work that no run is shared with. Raises Replaced, Closed, and what it raises."""
        return self._asked(_Waiting(self._name(client), None, False, work, True)).result()

    def close(self) -> None:
        """Ends all runs and all threads, and answers nothing any more."""
        with self._changed:
            self._is_closed = True
            for item in [*self._waiting.values(), *(it for run in self._under_way for it in run.items)]:
                _fail(item, Closed())
            self._waiting.clear()
            for run in self._under_way:
                run.process.end()
            self._changed.notify_all()
        end_begun(self._server)

    def _name(self, client: str | None) -> str:
        return f"\0{next(self._numbers)}" if client is None else client

    def _asked(self, item: _Waiting) -> Future[Any]:
        with self._changed:
            if self._is_closed:
                raise Closed()
            item.is_alone |= item.client in self._costly
            self._put(item)
            for run in self._under_way:
                # (what runs alone has nobody else who waits for it)
                if run.is_alone and run.items[0].client == item.client:
                    _fail(run.items[0], Replaced())
                    run.process.end()
        return item.answer

    def _put(self, item: _Waiting) -> None:
        """Has an item wait, at the place of the one that it replaces."""
        older = self._waiting.get(item.client)
        if older is not None:
            _fail(older, Replaced())
        self._waiting[item.client] = item
        self._changed.notify_all()

    def _go_on(self) -> None:
        half = False
        while True:
            # (the next run finds a server that has started)
            begin(self._server, ["--half"] * half)
            run = self._next_run()
            if run is None:
                end_begun(self._server)
                return
            half = run.items[0].half
            try:
                self._try(run)
            except BaseException as error:  # (each waiter is told, whatever it was)
                for item in run.items:
                    _fail(item, error)
            with self._changed:
                self._under_way.remove(run)
                self._changed.notify_all()

    def _next_run(self) -> _Run | None:
        """Takes what can be run next; waits until there is something. None at the end."""
        with self._changed:
            while not self._is_closed:
                run = self._taken()
                if run is not None:
                    self._under_way.append(run)
                    return run
                self._changed.wait()
        return None

    def _taken(self) -> _Run | None:
        alone = sum(it.is_alone for it in self._under_way)
        may_be_alone = alone < max(1, self._jobs - 1)
        first = next((it for it in self._waiting.values() if may_be_alone or not it.is_alone), None)
        if first is None:
            return None
        if first.is_alone:
            items = [first]
        else:
            same = (it for it in self._waiting.values() if not it.is_alone and it.half == first.half)
            items = list(itertools.islice(same, CLIENTS))
        for item in items:
            del self._waiting[item.client]
        return _Run(items, first.is_alone)

    def _try(self, run: _Run) -> None:
        began = monotonic()
        until = began + self._seconds * (1 if run.is_alone else SHARED_PART)
        first = run.items[0]
        try:
            if first.work is not None:
                found = [first.work(run.process, until)]
            else:
                sources = [it.source for it in run.items if it.source is not None]
                found = list(answered(sources, first.half, self._server, until=until, started=run.process.take))
        except (ServerFailed, Malformed) as failed:
            self._failed(run, failed)
            return
        if run.is_alone and monotonic() < began + self._seconds * SHARED_PART:
            with self._changed:
                self._costly.pop(first.client, None)
        for item, answer in zip(run.items, found):
            if not item.answer.done():
                item.answer.set_result(answer)

    def _failed(self, run: _Run, failed: Exception) -> None:
        """Tells the failure of a run alone; those of a shared one are tried one by one, where no newer text of them waits."""
        with self._changed:
            for item in run.items:
                if run.is_alone:
                    _fail(item, failed)
                    self._costly[item.client] = None
                elif item.client in self._waiting:
                    _fail(item, Replaced())
                else:
                    item.is_alone = True
                    self._put(item)
            while len(self._costly) > _MOST_COSTLY:
                del self._costly[next(iter(self._costly))]


def _fail(item: _Waiting, error: BaseException) -> None:
    if not item.answer.done():
        item.answer.set_exception(error)
