"""The language server: messages in, messages out, one after another, while threads wait for solids.

    status = Serving(sys.stdin.buffer, sys.stdout.buffer, Settings(server)).run()
"""

from __future__ import annotations

import queue
import threading
from dataclasses import dataclass, field
from functools import partial
from time import monotonic
from typing import Any, BinaryIO, Callable, Sequence

from ..files import say
from ..source.joining import File
from ..source.reading import joined_source
from ..source.sources import Source
from ..version import VERSION
from . import answers, checking, framing
from .checking import Checked, Checks, Notes
from .documents import Document, Documents, OpenFolders, path_of
from .framing import Failed
from .reporting import diagnostics
from .texts import Text, encoded

#: After this many seconds without a change a text is checked.
PAUSE = 0.15


@dataclass(frozen=True)
class Settings:
    """What holds of all texts: the server, how it is asked, the folders of what is included, and what else is noted."""

    server: Sequence[str]
    half: bool = False
    seconds: float = 10.0
    folders: Sequence[str] = ()
    notes: Notes = checking.notes


@dataclass
class _End:
    """The editor has closed its side."""


@dataclass
class _State:
    """How far the conversation is: what the editor can, and whether it has said that all is over."""

    capabilities: dict[str, Any] = field(default_factory=dict)
    is_initialized: bool = False
    is_shut_down: bool = False
    status: int | None = None


class Serving:
    """A conversation with an editor."""

    def __init__(self, source: BinaryIO, sink: BinaryIO, settings: Settings) -> None:
        self._source, self._sink, self._settings = source, sink, settings
        self._events: queue.Queue[Any] = queue.Queue()
        self._documents = Documents(settings.folders)
        self._checks = Checks(settings.server, settings.half, settings.seconds, self._events.put, settings.notes)
        self._state = _State()
        #: When each text is to be checked, and which files were read for it at the last time.
        self._due: dict[str, float] = {}
        self._read: dict[str, set[str]] = {}
        self._cancelled: set[str | int] = set()
        self._said: set[str] = set()
        self._notifications: dict[str, Callable[[Any], None]] = {
            "initialized": self._initialized,
            "exit": self._exit,
            "$/cancelRequest": self._cancel,
            "textDocument/didOpen": self._opened,
            "textDocument/didChange": self._changed,
            "textDocument/didSave": self._saved,
            "textDocument/didClose": self._closed,
            "workspace/didChangeWatchedFiles": self._files_changed,
            "workspace/didChangeWorkspaceFolders": self._folders_changed,
        }

    def run(self) -> int:
        """Answers until the editor ends the conversation, and gives the status: 0 where it has said so before."""
        threading.Thread(target=self._listen, daemon=True).start()
        try:
            while self._state.status is None:
                self._take()
        finally:
            self._checks.end_all()
        return self._state.status

    def _listen(self) -> None:
        """Reads messages, in a thread of its own, so that what is cancelled is known before its turn comes."""
        while True:
            try:
                message = framing.read_message(self._source)
            except Failed as failed:
                self._events.put(failed)
                continue
            except (EOFError, OSError, ValueError):
                self._events.put(_End())
                return
            if isinstance(message, dict) and message.get("method") == "$/cancelRequest":
                params = message.get("params")
                if isinstance(params, dict) and isinstance(params.get("id"), (str, int)):
                    self._cancelled.add(params["id"])
            self._events.put(message)

    def _take(self) -> None:
        """Takes what comes next, or begins the checks that are due."""
        try:
            wait = max(0.0, min(self._due.values()) - monotonic()) if self._due else None
            event = self._events.get(timeout=wait)
        except queue.Empty:
            self._begin_due()
            return
        if isinstance(event, _End):
            self._state.status = 0 if self._state.is_shut_down else 1
        elif isinstance(event, Failed):
            self._answer(None, event)
        elif isinstance(event, Checked):
            self._show(event)
        else:
            self._message(event)

    def _message(self, message: Any) -> None:
        if not isinstance(message, dict):
            self._answer(None, Failed(framing.INVALID_REQUEST, "a message is an object"))
            return
        method: Any = message.get("method")
        number: Any = message.get("id")
        if not isinstance(method, str):
            # (an answer of the editor has none, and wants none)
            if "result" not in message and "error" not in message:
                self._answer(None, Failed(framing.INVALID_REQUEST, "a message has a method"))
        elif "id" not in message:
            self._notified(method, message.get("params"))
        elif not isinstance(number, (str, int)) or isinstance(number, bool):
            self._answer(None, Failed(framing.INVALID_REQUEST, "the id of a request is a number or a text"))
        else:
            self._answer(number, self._guarded(partial(self._asked, number, method, message.get("params"))))

    def _guarded(self, work: Callable[[], Any]) -> Any:
        """What comes of some work, or how it failed. Nothing that an editor sends ends the server."""
        try:
            return work()
        except Failed as failed:
            return failed
        except Exception as error:
            say(f"scadls: {type(error).__name__}: {error}\n")
            return Failed(framing.INTERNAL_ERROR, f"{type(error).__name__}: {error}")

    def _answer(self, number: str | int | None, result: Any) -> None:
        if isinstance(result, Failed):
            self._send({"id": number, "error": {"code": result.code, "message": result.said}})
        else:
            self._send({"id": number, "result": result})

    def _send(self, message: dict[str, Any]) -> None:
        try:
            framing.write_message(self._sink, message)
        except (OSError, ValueError):
            self._state.status = 1

    def _asked(self, number: str | int, method: str, params: Any) -> Any:
        if number in self._cancelled:
            self._cancelled.discard(number)
            raise Failed(framing.CANCELLED, "it was cancelled")
        if self._state.is_shut_down:
            raise Failed(framing.INVALID_REQUEST, "the server was shut down")
        if method == "initialize":
            return self._initialize(params)
        if not self._state.is_initialized:
            raise Failed(framing.NOT_INITIALIZED, "initialize comes first")
        if method == "shutdown":
            self._state.is_shut_down = True
            self._checks.end_all()
            self._due.clear()
            return None
        answer = answers.ANSWERS.get(method)
        if answer is None:
            raise Failed(framing.NO_METHOD, f"there is no method {method}")
        return answer(answers.Asked(self._documents, self._state.capabilities, params))

    def _initialize(self, params: Any) -> dict[str, Any]:
        if self._state.is_initialized:
            raise Failed(framing.INVALID_REQUEST, "the server is initialized already")
        if not isinstance(params, dict):
            raise Failed(framing.INVALID_PARAMS, "initialize has parameters")
        self._state.is_initialized = True
        capabilities = params.get("capabilities")
        self._state.capabilities = capabilities if isinstance(capabilities, dict) else {}
        folders = params.get("workspaceFolders")
        named = [
            it.get("uri") for it in folders if isinstance(it, dict)
        ] if isinstance(folders, list) else [params.get("rootUri")]
        self._documents.roots = [path_of(it) for it in named if isinstance(it, str)]
        return {"capabilities": answers.CAPABILITIES, "serverInfo": {"name": "scadls", "version": VERSION}}

    def _notified(self, method: str, params: Any) -> None:
        if method == "exit" or (self._state.is_initialized and not self._state.is_shut_down):
            self._documents.changes += 1
            failed = self._guarded(lambda: self._notifications.get(method, lambda _: None)(params))
            if isinstance(failed, Failed):
                say(f"scadls: {method}: {failed.said}\n")

    def _initialized(self, _: Any) -> None:
        """Asks the editor to tell where a source is changed by others, where it can."""
        watching = answers.Asked(self._documents, self._state.capabilities, None).can("workspace", "didChangeWatchedFiles")
        if isinstance(watching, dict) and watching.get("dynamicRegistration"):
            options = {"watchers": [{"globPattern": "**/*.scad"}]}
            wanted = {"id": "sources", "method": "workspace/didChangeWatchedFiles", "registerOptions": options}
            self._send({"id": "watch", "method": "client/registerCapability", "params": {"registrations": [wanted]}})

    def _exit(self, _: Any) -> None:
        self._state.status = 0 if self._state.is_shut_down else 1

    def _cancel(self, params: Any) -> None:
        # (its turn has come, so what it cancels was answered before)
        number: Any = params.get("id") if isinstance(params, dict) else None
        if isinstance(number, (str, int)):
            self._cancelled.discard(number)

    def _opened(self, params: Any) -> None:
        uri, text = (answers.wanted(params, str, "textDocument", it) for it in ("uri", "text"))
        version = params["textDocument"].get("version")
        self._documents.open[uri] = Document(uri, path_of(uri), version, Text(encoded(text)))
        self._is_new(uri)

    def _changed(self, params: Any) -> None:
        document = answers.document(self._documents, params)
        text = document.text
        for change in answers.wanted(params, list, "contentChanges"):
            text = text.changed(change)
        document.text, document.version = text, params["textDocument"].get("version")
        self._is_new(document.uri)

    def _saved(self, params: Any) -> None:
        self._is_new(answers.document(self._documents, params).uri)

    def _closed(self, params: Any) -> None:
        document = answers.document(self._documents, params)
        del self._documents.open[document.uri]
        self._checks.end(document.uri)
        self._due.pop(document.uri, None)
        self._read.pop(document.uri, None)
        self._send_diagnostics(document.uri, None, [])
        # (what includes it sees the file again)
        self._is_due(it for it, read in self._read.items() if document.real in read)

    def _files_changed(self, _: Any) -> None:
        self._is_due(self._documents.open)

    def _folders_changed(self, params: Any) -> None:
        added, removed = (answers.wanted(params, list, "event", it) for it in ("added", "removed"))
        gone = [path_of(answers.wanted(it, str, "uri")) for it in removed]
        self._documents.roots = [it for it in self._documents.roots if it not in gone]
        self._documents.roots += [path_of(answers.wanted(it, str, "uri")) for it in added]

    def _is_new(self, uri: str) -> None:
        """A text is another one now: the old check of it ends at once, and it and all that read it are checked after a pause.
        """
        self._checks.end(uri)
        real = self._documents.open[uri].real
        self._is_due([uri, *(it for it, read in self._read.items() if real in read and it != uri)])

    def _is_due(self, uris: Any) -> None:
        self._due.update(dict.fromkeys(list(uris), monotonic() + PAUSE))

    def _begin_due(self) -> None:
        now = monotonic()
        for uri in [it for it, when in self._due.items() if when <= now]:
            del self._due[uri]
            if uri in self._documents.open:
                self._check(self._documents.open[uri])

    def _check(self, document: Document) -> None:
        folders = OpenFolders(self._documents.folders, self._documents.texts())
        self._read[document.uri] = folders.read

        def source() -> Source:
            return joined_source(folders, File(document.path, document.path, document.text.data))

        self._checks.begin(document.uri, source)

    def _show(self, checked: Checked) -> None:
        document = self._documents.open.get(checked.uri)
        if document is None or not self._checks.is_last(checked):
            return
        if checked.failed is not None and checked.failed not in self._said:
            self._said.add(checked.failed)
            self._send({"method": "window/showMessage", "params": {"type": 1, "message": f"scadls: {checked.failed}"}})
        self._send_diagnostics(document.uri, document.version, diagnostics(self._documents, document, checked))

    def _send_diagnostics(self, uri: str, version: int | None, found: list[dict[str, Any]]) -> None:
        params: dict[str, Any] = {"uri": uri, "diagnostics": found}
        if isinstance(version, int):
            params["version"] = version
        self._send({"method": "textDocument/publishDiagnostics", "params": params})
