"""A running `scadlive` for tests: a process of its own, over a folder of the test's, on a free port of the loopback address."""

from __future__ import annotations

import http.client
import json
import os
import signal
import socket
import subprocess
import sys
import tempfile
import unittest
from pathlib import Path
from typing import Any, NamedTuple, Optional
from urllib.parse import quote, urlencode

from tests.calls import STAND_IN, TOP

# How many times longer all takes than on a machine that has nothing else to do.
BUSY = max(1.0, os.getloadavg()[0] / (os.cpu_count() or 1))
# Seconds in which an answer comes.
PATIENCE = 60 * BUSY


class Answer(NamedTuple):
    """An answer: its status, its headers with names in small letters, and its body."""

    status: int
    headers: dict[str, str]
    body: bytes

    def json(self) -> Any:
        return json.loads(self.body)


class Live:
    """The process, which ends with the test."""

    def __init__(self, folder: str, *words: str, server: str = STAND_IN, environment: Optional[dict[str, str]] = None) -> None:
        how = {**os.environ, "SCADSERVE": server, "OPENSCADPATH": "", **(environment or {})}
        # (the stand-in runs by this very Python)
        how["PATH"] = os.path.dirname(sys.executable) + os.pathsep + how["PATH"]
        call = [sys.executable, "-S", os.path.join(TOP, "bin", "scadlive"), folder, "--port", "0", *words]
        self.process = subprocess.Popen(
            call, stdout=subprocess.PIPE, stderr=subprocess.PIPE, env=how, preexec_fn=_signals_as_usual
        )
        assert self.process.stdout is not None
        self.address = self.process.stdout.readline().decode().strip()
        self.host = self.address.removeprefix("http://").rstrip("/")
        self.port = int(self.host.rpartition(":")[2]) if self.host else 0

    def close(self) -> tuple[int, str]:
        """Ends the process, and gives its status and what it said on standard error."""
        if self.process.poll() is None:
            self.process.send_signal(signal.SIGTERM)
        said = self.process.communicate(timeout=PATIENCE)[1]
        return self.process.returncode, said.decode()

    def ask(self, method: str, path: str, body: Optional[bytes] = None, headers: Optional[dict[str, str]] = None) -> Answer:
        """The answer to a request."""
        connection = http.client.HTTPConnection("127.0.0.1", self.port, timeout=PATIENCE)
        try:
            connection.request(method, path, body, headers or {})
            answer = connection.getresponse()
            return Answer(answer.status, {name.lower(): value for name, value in answer.getheaders()}, answer.read())
        finally:
            connection.close()

    def solid(self, text: str, headers: Optional[dict[str, str]] = None, D: tuple[str, ...] = (), **query: str) -> Answer:
        """The answer to a source."""
        words = urlencode([*query.items(), *(("D", it) for it in D)])
        return self.ask("POST", f"/solid?{words}", text.encode(), headers)

    def put(self, name: str, text: str, **headers: str) -> Answer:
        """The answer to a file that is saved."""
        named = {key.replace("_", "-"): value for key, value in headers.items()}
        return self.ask("PUT", f"/files/{quote(name)}", text.encode(), named)

    def raw(self, data: bytes, patience: float = PATIENCE) -> bytes:
        """What the server says until it closes the connection, to bytes that are sent as they are."""
        with socket.create_connection(("127.0.0.1", self.port), timeout=patience) as it:
            it.sendall(data)
            it.shutdown(socket.SHUT_WR)
            said = b""
            while more := it.recv(1 << 16):
                said += more
            return said


class Case(unittest.TestCase):
    """Tests of one running server, over a folder that is made anew for them."""

    words: tuple[str, ...] = ()
    server = STAND_IN
    environment: dict[str, str] = {}
    #: The folder of the sources, and the one that it stands in.
    folder: Path
    around: Path
    live: Live

    @classmethod
    def setUpClass(cls) -> None:
        folder = tempfile.TemporaryDirectory()
        cls.addClassCleanup(folder.cleanup)
        cls.around = Path(os.path.realpath(folder.name))
        cls.folder = cls.around / "parts"
        cls.folder.mkdir()
        cls.make()
        cls.live = Live(str(cls.folder), *cls.words, server=cls.server, environment=cls.environment)
        cls.addClassCleanup(cls.ended)

    @classmethod
    def make(cls) -> None:
        """Makes the files that are there from the beginning."""

    @classmethod
    def ended(cls) -> None:
        """The server ends by its signal, and had nothing to say."""
        found = cls.live.close()
        assert found == (128 + signal.SIGTERM, ""), found


def _signals_as_usual() -> None:
    """A process that is started has the signals of one from a terminal."""
    for number in (signal.SIGINT, signal.SIGTERM, signal.SIGHUP, signal.SIGPIPE):
        signal.signal(number, signal.SIG_DFL)
