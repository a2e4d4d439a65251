"""An editor that speaks with the language server by the protocol, for tests."""

import json
import os
import pathlib
import queue
import re
import subprocess
import sys
import threading
import time

from scadserve.editor.serving import Serving, Settings
from tests.calls import STAND_IN, TOP, Calls

SCADLS = [sys.executable, "-S", os.path.join(TOP, "bin", "scadls")]
STAND_IN_WORDS = (sys.executable, "-S", STAND_IN)
#: A machine that is busy with much else is given so long for what takes milliseconds.
PATIENCE = 50


def framed(data):
    """A message of these bytes."""
    return b"Content-Length: %d\r\n\r\n" % len(data) + data


class Editor:
    """One side of a conversation, over two streams. What comes is read by a thread."""

    def __init__(self, out, source):
        self._out, self._source = out, source
        self._received = queue.Queue()
        self._kept = []
        self._number = 0
        threading.Thread(target=self._listen, daemon=True).start()

    def _listen(self):
        while True:
            header = self._source.readline()
            if not header:
                self._received.put(None)
                return
            length = int(re.fullmatch(rb"Content-Length: (\d+)\r\n", header)[1])
            assert self._source.readline() == b"\r\n"
            self._received.put(json.loads(self._source.read(length)))

    def write(self, data):
        self._out.write(data)
        self._out.flush()

    def send(self, message):
        self.write(framed(json.dumps({"jsonrpc": "2.0", **message}).encode()))

    def notify(self, method, params=None):
        self.send({"method": method, "params": params})

    def begin(self, method, params=None):
        """Sends a request, and gives its number."""
        self._number += 1
        self.send({"id": self._number, "method": method, "params": params})
        return self._number

    def wait(self, fits, seconds=PATIENCE):
        """The first message that fits. What comes before it is kept for others who wait. Raises EOFError and queue.Empty."""
        for at, message in enumerate(self._kept):
            if fits(message):
                return self._kept.pop(at)
        end = time.monotonic() + seconds
        while True:
            message = self._received.get(timeout=max(0.01, end - time.monotonic()))
            if message is None:
                raise EOFError
            if fits(message):
                return message
            self._kept.append(message)

    def answer(self, number):
        """The message that answers a request of this number."""
        return self.wait(lambda it: "method" not in it and it.get("id") == number)

    def ask(self, method, params=None):
        """The result of a request, or the error."""
        answer = self.answer(self.begin(method, params))
        return answer["error"] if "error" in answer else answer["result"]

    def start(self, capabilities=None, **params):
        found = self.ask("initialize", {"processId": None, "rootUri": None, "capabilities": capabilities or {}, **params})
        self.notify("initialized", {})
        return found

    def diagnostics(self, uri, version=None, seconds=PATIENCE):
        """What is said about a text, of this version of it where one is named."""

        def fits(it):
            of = it.get("params", {}) if it.get("method") == "textDocument/publishDiagnostics" else {}
            return of.get("uri") == uri and (version is None or of.get("version") == version)

        return self.wait(fits, seconds)["params"]["diagnostics"]

    def close(self):
        """Ends what is sent."""
        self._out.close()


class Case(Calls):
    """Tests of a conversation about files in the folder of the test, with the stand-in for a server or another one."""

    def setUp(self):
        super().setUp()
        self.folder = os.path.realpath(self.folder)

    def editor(self, server=STAND_IN_WORDS, **settings):
        """A conversation with a server in a thread of this process, whose status is in `self.statuses` at its end."""
        (their_source, our_out), (our_source, their_out) = (os.pipe() for _ in range(2))
        sides = [open(their_source, "rb"), open(their_out, "wb"), open(our_source, "rb"), open(our_out, "wb")]
        self.statuses = queue.Queue()

        def go():
            self.statuses.put(Serving(*sides[:2], Settings(server, **settings)).run())
            sides[1].close()

        thread = threading.Thread(target=go, daemon=True)
        thread.start()

        def end():
            sides[3].close()
            thread.join(PATIENCE)
            for it in sides[::2]:
                it.close()

        self.addCleanup(end)
        return Editor(sides[3], sides[2])

    def program(self, *words, **environment):
        """A conversation with the program itself, and its process."""
        pipes = {"stdin": subprocess.PIPE, "stdout": subprocess.PIPE, "stderr": subprocess.PIPE}
        environment = {**self.environment, **environment}
        process = subprocess.Popen([*SCADLS, *words], env=environment, cwd=self.folder, **pipes)

        def end():
            process.kill()
            process.wait()
            for it in (process.stdin, process.stdout, process.stderr):
                it.close()

        self.addCleanup(end)
        return Editor(process.stdin, process.stdout), process

    def uri(self, name):
        return pathlib.Path(self.folder, name).as_uri()

    def opened(self, editor, name, text, version=1):
        """Opens a text as that of a file, and gives what names it."""
        item = {"uri": self.uri(name), "languageId": "openscad", "version": version, "text": text}
        editor.notify("textDocument/didOpen", {"textDocument": item})
        return self.uri(name)

    def change(self, editor, uri, version, *changes):
        editor.notify(
            "textDocument/didChange", {"textDocument": {"uri": uri, "version": version}, "contentChanges": list(changes)}
        )

    def text(self, text, name="part.scad", capabilities=None):
        """A conversation about one text, and what names it."""
        editor = self.editor()
        editor.start(capabilities)
        return editor, self.opened(editor, name, text)


def place(text, pattern):
    """The place at which what stands in the brackets of a pattern begins; lines and units of UTF-16 from 0."""
    found = re.search(pattern, text)
    before = text[: found.start(1)].split("\n")
    return {"line": len(before) - 1, "character": len(before[-1].encode("utf-16-le", "surrogatepass")) // 2}


def about(uri, text, pattern):
    """The parameters of a request about such a place."""
    return {"textDocument": {"uri": uri}, "position": place(text, pattern)}


def applied(text, edits):
    """A text with edits of the protocol, whose lines are ASCII."""
    lines = text.split("\n")
    for edit in sorted(edits, key=lambda it: (it["range"]["start"]["line"], it["range"]["start"]["character"]), reverse=True):
        start, end = edit["range"]["start"], edit["range"]["end"]
        assert start["line"] == end["line"]
        line = lines[start["line"]]
        lines[start["line"]] = line[: start["character"]] + edit["newText"] + line[end["character"] :]
    return "\n".join(lines)
