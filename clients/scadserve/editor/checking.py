"""What is wrong with a text: the server is asked by a thread for each text, which a newer version of it ends.

    checks = Checks(server, half, seconds, tell)
    checks.begin("file:///part.scad", lambda: source)    # calls tell(Checked(..)) once it is known
    checks.end("file:///part.scad")
"""

from __future__ import annotations

import contextlib
import os
import signal
import subprocess
import threading
from dataclasses import dataclass, field, replace
from time import monotonic
from typing import Callable, Iterable, Sequence

from ..server.scripts import Malformed, OutOfTime, ServerFailed, Solid, passed_limit
from ..source.answering import answered
from ..source.faults import STATUSES
from ..source.notes import notes_of
from ..source.recovering import structure_as_far
from ..source.sources import Refused, Source, Spot
from ..source.structure import MODULE
from ..source.telling import Message, limit_message, refused_message, reply_message
from ..source.tokens import tokens

#: This many texts are exported at once.
MOST_RUNS = 4
# (a server that is slow is not asked again which call led to a fault)
_QUICK = 1.0

#: What is to be told of a source beside its faults, as where OpenSCAD means another solid by it.
Notes = Callable[[Source], Iterable[Message]]


def notes(source: Source) -> Iterable[Message]:
    """The places that OpenSCAD takes for another solid."""
    for it in notes_of(source):
        said = f"OpenSCAD takes this for another solid: {it.text} (scad2off --explain {it.form} says more)"
        yield Message(it.file, it.form, said, "", Spot(it.file, it.line, it.column, None))


def no_notes(_: Source) -> Iterable[Message]:
    """Nothing is to be told."""
    return ()


@dataclass(frozen=True)
class Checked:
    """What came of a check of a text: faults, notes, and why the server gave no answer where that is the reason."""

    uri: str
    faults: Sequence[Message] = ()
    notes: Sequence[Message] = ()
    failed: str | None = None
    #: The check of which it came.
    check: object = None


@dataclass(eq=False)
class _Check:
    """A check that is under way, with the process of the server that it waits for."""

    uri: str
    lock: threading.Lock = field(default_factory=threading.Lock)
    process: subprocess.Popen[bytes] | None = None
    is_ended: bool = False

    def take(self, process: subprocess.Popen[bytes]) -> None:
        """Takes the process that is waited for now."""
        with self.lock:
            self.process = process
            if self.is_ended:
                self._end()

    def end(self) -> None:
        """Ends its process, and those that are still to come."""
        with self.lock:
            self.is_ended = True
            self._end()

    def _end(self) -> None:
        # (it is the first of a session of its own, and all of that ends)
        if self.process is not None and self.process.poll() is None:
            with contextlib.suppress(ProcessLookupError):
                os.killpg(self.process.pid, signal.SIGTERM)


class Checks:
    """The checks of texts, at most one of each, which tell what came of them by a call from their threads."""

    def __init__(
        self, server: Sequence[str], half: bool, seconds: float, tell: Callable[[Checked], None], notes: Notes = notes
    ) -> None:
        self._server, self._half, self._seconds, self._tell, self._notes = server, half, seconds, tell, notes
        self._under_way: dict[str, _Check] = {}
        self._runs = threading.BoundedSemaphore(MOST_RUNS)

    def begin(self, uri: str, source: Callable[[], Source]) -> None:
        """Checks the source of a text, in place of an older check of it."""
        self.end(uri)
        check = self._under_way[uri] = _Check(uri)
        threading.Thread(target=self._go, args=(check, source), daemon=True).start()

    def end(self, uri: str) -> None:
        """Ends the check of a text: nothing is said about it."""
        check = self._under_way.pop(uri, None)
        if check is not None:
            check.end()

    def is_last(self, checked: Checked) -> bool:
        """Whether no later check of the text was begun, nor this one ended."""
        return self._under_way.get(checked.uri) is checked.check

    def end_all(self) -> None:
        """Ends all checks."""
        for uri in list(self._under_way):
            self.end(uri)

    def _go(self, check: _Check, source: Callable[[], Source]) -> None:
        try:
            checked = self._checked(check, source)
        # (whatever goes wrong is told, and ends no more than this check)
        except Exception as error:
            checked = Checked(check.uri, failed=f"{type(error).__name__}: {error}")
        if not check.is_ended:
            self._tell(replace(checked, check=check))

    def _checked(self, check: _Check, read: Callable[[], Source]) -> Checked:
        try:
            source = read()
        except Refused as refused:
            return Checked(check.uri, [refused_message(refused)])
        limit = passed_limit(source.sent())
        if limit:
            return Checked(check.uri, [limit_message(source, limit)])
        with self._runs:
            if check.is_ended:
                return Checked(check.uri)
            try:
                faults = self._faults(check, source)
                return Checked(check.uri, faults, () if faults else list(self._notes(source)))
            except (ServerFailed, Malformed) as failed:
                return Checked(check.uri, failed=self._why(failed))

    def _faults(self, check: _Check, source: Source) -> list[Message]:
        began = monotonic()
        until = began + self._seconds
        try:
            [(of, reply)] = answered([source], self._half, self._server, until=until, started=check.take)
        except OutOfTime:
            said = f"it takes longer than {self._seconds:g} s, and was ended"
            return [Message(source.name, "OutOfTime", said, "make it simpler, or start scadls with more --seconds")]
        if isinstance(reply, Solid) and (reply.faces or not _shows_anything(source)):
            return []
        server = self._server if monotonic() - began < _QUICK and not check.is_ended else None
        return [reply_message(of, reply, self._half, server, until)]

    def _why(self, failed: Exception) -> str:
        if isinstance(failed, ServerFailed):
            return f"{failed}{STATUSES.get(failed.status, '')}"
        return f"the server's output is not an answer: {failed}"


def _shows_anything(source: Source) -> bool:
    """Whether a source is more than definitions and assignments, as a file is that others use."""
    found, _ = structure_as_far(tokens(source.sent()))
    bodies = [it.body for it in found.definitions]
    return any(call.kind == MODULE and not any(it.has(call.name) for it in bodies) for call in found.calls)
