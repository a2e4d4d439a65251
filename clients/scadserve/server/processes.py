"""Processes of the server: each is started, handed a script, and ended with all that it started, also where Python ends."""

from __future__ import annotations

import atexit
import contextlib
import os
import signal
import subprocess
import threading
from time import monotonic
from types import FrameType
from typing import Callable, Sequence, Union

from ..top import TOP
from .failures import STATUSES, NotStarted, OutOfTime, ServerFailed

#: What is handed a process of the server once it is started.
Started = Callable[["subprocess.Popen[bytes]"], None]
#: A program, or words that start it.
Server = Union[str, Sequence[str]]
_BESIDE = os.path.join(TOP, "scadserve")
#: The starter beside this package, or else the one on the PATH.
SERVER = (_BESIDE if os.path.exists(_BESIDE) else "scadserve",)


def server_of_environment() -> Sequence[str]:
    """The server that SCADSERVE in the environment names, or the one beside the tools."""
    return [os.environ["SCADSERVE"]] if os.environ.get("SCADSERVE") else SERVER


def server_words(server: Server | None) -> Sequence[str]:
    """The words that start a server; None is that of the environment. Raises TypeError and ValueError where they are none."""
    if server is None:
        return server_of_environment()
    words = [server] if isinstance(server, str) else server
    if not isinstance(words, (list, tuple)) or not all(isinstance(it, str) for it in words):
        raise TypeError(f"a server is a program or a list of words, and not {server!r}")
    if not words or not words[0]:
        raise ValueError(f"a server has the name of a program, and {server!r} has none")
    return words


def begin(server: Sequence[str], options: Sequence[str]) -> None:
    """Starts a server before its script is known, unless one waits: the next `output` of these words takes it. What its
    starter does is done while the caller reads what the script is made of. Where it can't be started, `output` tells so."""
    words = _words(server, options)
    with contextlib.suppress(NotStarted), _BEGINNING, _Signals() as signals:
        if words not in _BEGUN:
            _BEGUN[words] = _started(words)
        signals.are_taken()


def end_begun(server: Sequence[str]) -> None:
    """Ends what was begun of a server, and has no script yet."""
    for words in list(_BEGUN):
        process = _BEGUN.pop(words, None) if words[: len(server)] == tuple(server) else None
        if process is not None:
            _end(process)
            process.communicate()
            del _UNDER_WAY[process]


def output(
    server: Sequence[str], options: Sequence[str], script: bytes, until: float | None = None, started: Started | None = None
) -> bytes:
    """What a server prints of a script, until a time of `time.monotonic`. `started` is handed the process. Raises ServerFailed,
    or one of its kinds."""
    words = _words(server, options)
    with _Signals() as signals:
        process = _begun(words) or _started(words)
        try:
            signals.are_taken()
            if started is not None:
                started(process)
            said = process.communicate(script, None if until is None else max(0, until - monotonic()))[0]
        except BaseException as error:
            _end(process)
            process.communicate()
            if isinstance(error, subprocess.TimeoutExpired):
                raise OutOfTime("the server took too long", 128 + signal.SIGTERM) from error
            raise
        finally:
            del _UNDER_WAY[process]
    status = process.returncode if process.returncode >= 0 else 128 - process.returncode
    if status:
        raise STATUSES.get(status, ServerFailed)(f"the server ended with status {status}", status, said)
    return said


#: The processes that were begun and not yet handed a script, by their words.
_BEGUN: dict[tuple[str, ...], subprocess.Popen[bytes]] = {}
_BEGINNING = threading.Lock()
#: The processes that are under way, and the process of Python that began each: a fork of it ends none of them.
_UNDER_WAY: dict[subprocess.Popen[bytes], int] = {}



def _words(server: Sequence[str], options: Sequence[str]) -> tuple[str, ...]:
    return (*server, "run", *options)


def _begun(words: tuple[str, ...]) -> subprocess.Popen[bytes] | None:
    """The process of these words that was begun; None where there is none, or a signal has ended it meanwhile."""
    process = _BEGUN.pop(words, None)
    if process is None or (process.poll() or 0) >= 0:
        return process
    del _UNDER_WAY[process]
    return None


def _started(words: Sequence[str]) -> subprocess.Popen[bytes]:
    """A new process, which is under way. Raises NotStarted."""
    try:
        # In a session of its own, so that all that the server starts can be ended with it.
        process = subprocess.Popen(words, stdin=subprocess.PIPE, stdout=subprocess.PIPE, start_new_session=True)
    except OSError as error:
        raise NotStarted(f"{words[0]} does not start: {error.strerror}", 127) from error
    _UNDER_WAY[process] = os.getpid()
    return process


def _end(process: subprocess.Popen[bytes]) -> None:
    """Ends a process with all of its session, unless its end was seen before."""
    if process.returncode is None:
        with contextlib.suppress(ProcessLookupError):
            os.killpg(process.pid, signal.SIGTERM)


@atexit.register
def _end_all() -> None:
    for process, of in list(_UNDER_WAY.items()):
        if of == os.getpid():
            _end(process)


class _Signals:
    """Signals that end Python, in its main thread: within this they end what is under way before, and wait while it begins."""

    def __init__(self) -> None:
        is_main = threading.current_thread() is threading.main_thread()
        numbers = (signal.SIGTERM, signal.SIGHUP, signal.SIGINT) if is_main else ()
        before = {it: signal.getsignal(it) for it in numbers}
        self._before = {number: of for number, of in before.items() if of is signal.SIG_DFL or callable(of)}
        self._waiting: list[int] | None = []

    def __enter__(self) -> _Signals:
        for number in self._before:
            signal.signal(number, self._take)
        return self

    def __exit__(self, *_: object) -> None:
        for number, before in self._before.items():
            signal.signal(number, before)
        # (nothing was begun: they mean what they meant)
        for waiting in self._waiting or []:
            os.kill(os.getpid(), waiting)

    def are_taken(self) -> None:
        """Takes those that have waited, and each that comes from now on."""
        waiting, self._waiting = self._waiting or [], None
        for number in waiting:
            self._take(number, None)

    def _take(self, number: int, frame: FrameType | None) -> None:
        before = self._before[signal.Signals(number)]
        if self._waiting is not None:
            self._waiting.append(number)
        elif callable(before):
            before(number, frame)
        else:
            _end_all()
            signal.signal(number, signal.SIG_DFL)
            os.kill(os.getpid(), number)
