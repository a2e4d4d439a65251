"""The web server: its pages, its files and its answers, for clients that may do harm or nothing at all.

A request is answered where it comes from a page of this server or from a program: its `Host` is one that this server has, an
`Origin` is that of its own pages, and where a token is set, it has that. A request is read until its time is over, in no more
bytes than a source may have, and written until another time is over; this many connections are served at once.
"""

from __future__ import annotations

import contextlib
import hmac
import io
import ipaddress
import json
import os
import re
import socket
import threading
from argparse import ArgumentTypeError
from dataclasses import dataclass, field
from fractions import Fraction
from http import HTTPStatus
from http.cookies import CookieError, SimpleCookie
from http.server import BaseHTTPRequestHandler, ThreadingHTTPServer
from pathlib import Path
from time import monotonic
from typing import Any, Callable, Mapping
from urllib.parse import parse_qsl, quote, unquote_to_bytes

from ..calls.words import definition
from ..files import reason, say
from ..openscad.front import program
from ..source.lengths import unit_argument
from ..version import VERSION
from .exports import Closed, Replaced
from .folder import MOST_BYTES, Folder, NoSuchFile, mark_of
from .media import FORMATS
from .parameters import parameters
from .solving import NO_FILE, NotSolved, Request, Solver
from .watching import Watch

#: Where Debian's CodeMirror is.
CODEMIRROR = Path("/usr/share/javascript/codemirror")
_PAGE = Path(__file__).with_name("page")
_VIEWER = Path(__file__).parent.parent / "view" / "page.js"
# The parts of the page, by name.
_PARTS = {
    "live.js": _PAGE / "live.js",
    "editor.js": _PAGE / "editor.js",
    "solid.js": _PAGE / "solid.js",
    "live.css": _PAGE / "live.css",
    "viewer.js": _VIEWER,
}
_CODEMIRROR_PARTS = (
    "lib/codemirror.js",
    "lib/codemirror.css",
    "addon/edit/matchbrackets.js",
    "addon/edit/closebrackets.js",
    "addon/comment/comment.js",
    "addon/dialog/dialog.js",
    "addon/dialog/dialog.css",
    "addon/search/searchcursor.js",
    "addon/search/search.js",
)
_MEDIA = {".js": "text/javascript; charset=utf-8", ".css": "text/css; charset=utf-8", ".html": "text/html; charset=utf-8"}
_SAFE = {
    "Content-Security-Policy": "default-src 'none'; script-src 'self'; style-src 'self'; img-src 'self' data:; "
    "connect-src 'self'; base-uri 'none'; form-action 'none'; frame-ancestors 'none'",
    "X-Content-Type-Options": "nosniff",
    "X-Frame-Options": "DENY",
    "Referrer-Policy": "no-referrer",
    "Cross-Origin-Resource-Policy": "same-origin",
    "Cross-Origin-Opener-Policy": "same-origin",
    "Cache-Control": "no-store",
}
# A downloaded page or picture is shown by no page of this server, and runs nothing here.
_INERT = {**_SAFE, "Content-Security-Policy": "default-src 'none'; sandbox"}
_COOKIE = "scadlive"
_CLIENT = re.compile(r"[A-Za-z0-9-]{1,40}")
_LENGTH = re.compile(r"[0-9]{1,12}")
_MOST_DEFINITIONS = 200
# Seconds in which a request is read, and an answer written, and between two signs of life on a stream of events.
_READ, _WRITE, _HEARTBEAT = 15.0, 30.0, 10.0
# This many connections are served at once, and this many streams of events.
_MOST_CONNECTIONS, _MOST_STREAMS = 256, 96
_JSON = "application/json"


@dataclass(frozen=True)
class Settings:
    """Who may come in, and from where the page is seen."""

    #: The names by which this server is called, as `Host` has them.
    hosts: frozenset[str]
    #: Where the pages come from, as `Origin` has it, besides those names.
    origins: frozenset[str] = frozenset()
    #: Whether a `Host` may be any address in numbers, which no other site can have a name for.
    any_address: bool = False
    #: What a proxy leaves before each path; empty, or `/` with a name.
    base: str = ""
    token: str | None = None


@dataclass
class Site:
    """What is served."""

    folder: Folder
    solver: Solver
    watch: Watch
    settings: Settings
    #: The source that the page begins with.
    first: str = ""
    half: bool = False
    has_openscad: bool = field(default_factory=lambda: program() is not None)


class Refusal(Exception):
    """A request that is answered by a status alone, and why."""

    def __init__(self, status: HTTPStatus, why: str = "", **headers: str) -> None:
        super().__init__(why or status.phrase)
        self.status, self.headers = status, headers


class Server(ThreadingHTTPServer):
    """Listens, and has a thread for each connection."""

    daemon_threads = True
    request_queue_size = 128

    def __init__(self, address: tuple[str, int], site: Site | None = None) -> None:
        if ":" in address[0]:
            self.address_family = socket.AF_INET6
        self.site = site
        self._connections = threading.BoundedSemaphore(_MOST_CONNECTIONS)
        self.streams = threading.BoundedSemaphore(_MOST_STREAMS)
        super().__init__(address, Handler)

    def process_request(self, request: Any, client_address: Any) -> None:
        """Hands a connection to a thread, or closes it where there are too many."""
        if self._connections.acquire(blocking=False):
            super().process_request(request, client_address)
        else:
            self.shutdown_request(request)

    def process_request_thread(self, request: Any, client_address: Any) -> None:
        """Serves a connection."""
        try:
            super().process_request_thread(request, client_address)
        finally:
            self._connections.release()

    def handle_error(self, request: Any, client_address: Any) -> None:
        """A connection that breaks off is nothing to tell."""


class _Reader(io.RawIOBase):
    """The bytes of a connection until a time, which is set anew for each request."""

    def __init__(self, connection: socket.socket) -> None:
        self._connection = connection
        self.until = monotonic() + _READ

    def readable(self) -> bool:
        """It is."""
        return True

    def readinto(self, buffer: Any) -> int:
        """Reads what there is. Raises TimeoutError once the time is over."""
        left = self.until - monotonic()
        if left <= 0:
            raise TimeoutError
        self._connection.settimeout(left)
        return self._connection.recv_into(buffer)


class Handler(BaseHTTPRequestHandler):
    """Answers the requests of a connection."""

    protocol_version = "HTTP/1.1"
    server: Server

    def setup(self) -> None:
        """Reads by a reader of its own, which has an end."""
        super().setup()
        self.connection.setsockopt(socket.IPPROTO_TCP, socket.TCP_NODELAY, True)
        self._reader = _Reader(self.connection)
        self.rfile = io.BufferedReader(self._reader)

    def version_string(self) -> str:
        """What answers call this server."""
        return "scadlive"

    def log_message(self, format: str, *args: Any) -> None:
        """Requests are not told."""

    def handle_one_request(self) -> None:
        """Answers a request; one that breaks off, or is too slow, ends the connection."""
        self._reader.until = monotonic() + _READ
        try:
            super().handle_one_request()
        except OSError:
            self.close_connection = True

    def __getattr__(self, name: str) -> Any:
        """All methods are answered in one place."""
        if name.startswith("do_"):
            return self._answer
        raise AttributeError(name)

    @property
    def site(self) -> Site:
        """What is served."""
        assert self.server.site is not None
        return self.server.site

    def _answer(self) -> None:
        try:
            path, query = self._admitted()
            self._route(path, query)
        except Refusal as refusal:
            self.close_connection = True
            self._send(refusal.status, "text/plain; charset=utf-8", f"{refusal}\n".encode(), refusal.headers)
        except (BrokenPipeError, ConnectionError, TimeoutError):
            self.close_connection = True
        except Closed:
            self.close_connection = True
        except Exception as error:  # (one request ends by it, and no other one)
            say(f"scadlive: {self.command} {self.path.partition('?')[0]!r}: {type(error).__name__}: {error}\n")
            self.close_connection = True
            self._send(HTTPStatus.INTERNAL_SERVER_ERROR, "text/plain; charset=utf-8", b"this is a defect of scadlive\n")

    def _admitted(self) -> tuple[str, dict[str, list[str]]]:
        """The path of a request that may be answered, without the base, and its query. Raises Refusal."""
        settings = self.site.settings
        if self.request_version == "HTTP/0.9":
            self.request_version = self.protocol_version
            raise Refusal(HTTPStatus.HTTP_VERSION_NOT_SUPPORTED)
        hosts = self.headers.get_all("Host") or []
        if len(hosts) != 1 or not self._is_own(hosts[0]):
            raise Refusal(HTTPStatus.MISDIRECTED_REQUEST, "this server is called by another name")
        for origin in self.headers.get_all("Origin") or []:
            if origin not in settings.origins and origin != f"http://{hosts[0]}":
                raise Refusal(HTTPStatus.FORBIDDEN, "a page of another site asks")
        if self.headers.get("Sec-Fetch-Site", "none") not in ("none", "same-origin") and self.command != "GET":
            raise Refusal(HTTPStatus.FORBIDDEN, "a page of another site asks")
        if self.headers.get("Transfer-Encoding"):
            raise Refusal(HTTPStatus.NOT_IMPLEMENTED, "a body has a Content-Length")
        path, _, query = self.path.partition("?")
        if not path.startswith("/"):
            raise Refusal(HTTPStatus.BAD_REQUEST, "a path begins with /")
        path = path.removeprefix(settings.base) if path.startswith(settings.base + "/") else path
        try:
            pairs = parse_qsl(query, keep_blank_values=True, max_num_fields=_MOST_DEFINITIONS + 20, errors="strict")
            decoded = unquote_to_bytes(path).decode("utf-8")
        except ValueError:
            raise Refusal(HTTPStatus.BAD_REQUEST, "the address is no UTF-8, or has too many fields") from None
        values: dict[str, list[str]] = {}
        for name, value in pairs:
            values.setdefault(name, []).append(value)
        self._test_token(decoded, values)
        return decoded, values

    def _is_own(self, host: str) -> bool:
        """Whether this server is called so."""
        settings = self.site.settings
        if host.lower() in settings.hosts:
            return True
        address, _, port = host.rpartition(":")
        if not settings.any_address or port != str(self.server.server_address[1]):
            return False
        with contextlib.suppress(ValueError):
            return bool(ipaddress.ip_address(address.strip("[]")))
        return False

    def _test_token(self, path: str, query: Mapping[str, list[str]]) -> None:
        """Raises Refusal where a token is set and the request hasn't it; a page with it in its address gets it as a cookie."""
        token = self.site.settings.token
        if token is None:
            return
        given = query.get("token", [""])[0]
        if path == "/" and self.command == "GET" and _is_same(given, token):
            cookie = f"{_COOKIE}={quote(token, safe='')}; Path={self.site.settings.base}/; HttpOnly; SameSite=Strict"
            raise Refusal(HTTPStatus.SEE_OTHER, **{"Location": "./", "Set-Cookie": cookie})
        try:
            cookies: Any = SimpleCookie(self.headers.get("Cookie", ""))
        except CookieError:
            cookies = SimpleCookie()
        kept = unquote_to_bytes(cookies[_COOKIE].value).decode("utf-8", "replace") if _COOKIE in cookies else ""
        if _is_same(self.headers.get("Authorization", ""), f"Bearer {token}") or _is_same(kept, token):
            return
        raise Refusal(HTTPStatus.UNAUTHORIZED, "the token is missing or another one", **{"WWW-Authenticate": "Bearer"})

    def _route(self, path: str, query: Mapping[str, list[str]]) -> None:
        methods: dict[str, Callable[[], None]]
        if path == "/":
            methods = {"GET": lambda: self._page(query)}
        elif path == "/version":
            methods = {"GET": lambda: self._send_json({"name": "scadserve", "version": VERSION})}
        elif path == "/solid":
            methods = {"POST": lambda: self._solid(query)}
        elif path == "/events":
            methods = {"GET": self._events}
        elif path == "/files":
            methods = {"GET": lambda: self._send_json({"files": self.site.folder.files()})}
        elif path.startswith("/files/"):
            name = path[len("/files/") :]
            methods = {"GET": lambda: self._read_file(name), "PUT": lambda: self._write_file(name)}
        elif path.startswith("/page/"):
            methods = {"GET": lambda: self._part(path[len("/page/") :])}
        else:
            raise Refusal(HTTPStatus.NOT_FOUND)
        method = methods.get("GET" if self.command == "HEAD" else self.command)
        if method is None or (self.command == "HEAD" and path == "/events"):
            raise Refusal(HTTPStatus.METHOD_NOT_ALLOWED, **{"Allow": ", ".join(methods)})
        if "PUT" not in methods and "POST" not in methods:
            self._no_body()
        method()

    # The page and its parts.

    def _page(self, query: Mapping[str, list[str]]) -> None:
        site = self.site
        is_plain = "plain" in query or not (CODEMIRROR / _CODEMIRROR_PARTS[0]).is_file()
        begin = {
            "first": site.first,
            "half": site.half,
            "openscad": site.has_openscad,
            "editor": "plain" if is_plain else "codemirror",
            "codemirror": (CODEMIRROR / _CODEMIRROR_PARTS[0]).is_file(),
            "formats": {name: it.ending for name, it in FORMATS.items()},
            "version": VERSION,
        }
        parts = [] if is_plain else [f"page/codemirror/{it}" for it in _CODEMIRROR_PARTS if (CODEMIRROR / it).is_file()]
        tags = [f'<link rel="stylesheet" href="{it}">' for it in parts if it.endswith(".css")]
        tags += [f'<script src="{it}"></script>' for it in parts if it.endswith(".js")]
        # (no text of a script's data may end its element)
        data = json.dumps(begin).replace("<", "\\u003c")
        text = (_PAGE / "live.html").read_text("utf-8").replace("$parts", "\n".join(tags)).replace("$begin", data)
        self._send(HTTPStatus.OK, _MEDIA[".html"], text.encode())

    def _part(self, name: str) -> None:
        path = _PARTS.get(name)
        own = name.removeprefix("codemirror/")
        if own != name and own in _CODEMIRROR_PARTS:
            path = CODEMIRROR / own
        if path is None or not path.is_file():
            raise Refusal(HTTPStatus.NOT_FOUND)
        self._send(HTTPStatus.OK, _MEDIA[path.suffix], path.read_bytes())

    # The files of the folder.

    def _read_file(self, name: str) -> None:
        try:
            data = self.site.folder.read(name)
        except (NoSuchFile, OSError):
            raise Refusal(HTTPStatus.NOT_FOUND) from None
        self._send(HTTPStatus.OK, "text/plain; charset=utf-8", data, {"ETag": f'"{mark_of(data)}"'})

    def _write_file(self, name: str) -> None:
        """Writes a file where it has the mark that is wanted, or where it isn't there and none is wanted."""
        wanted = self.headers.get("If-Match"), self.headers.get("If-None-Match")
        data = self._body()
        try:
            mark = self.site.folder.mark(name)
            is_known = mark is not None and wanted in ((f'"{mark}"', None), ("*", None))
            is_wanted = mark is None if wanted == (None, "*") else is_known
            if wanted == (None, None):
                raise Refusal(
                    HTTPStatus.PRECONDITION_REQUIRED, "If-Match says which text is replaced, or If-None-Match: * a new one"
                )
            if not is_wanted:
                raise Refusal(HTTPStatus.PRECONDITION_FAILED, "the file has another text now", **{"ETag": f'"{mark or ""}"'})
            self.site.folder.write(name, data)
        except NoSuchFile:
            raise Refusal(HTTPStatus.NOT_FOUND) from None
        except OSError as error:
            raise Refusal(HTTPStatus.FORBIDDEN, f"the file can't be written: {reason(error)}") from None
        self._send(HTTPStatus.NO_CONTENT, "", b"", {"ETag": f'"{mark_of(data)}"'})

    def _events(self) -> None:
        """Tells the marks of the files, and each change, until the client goes."""
        if not self.server.streams.acquire(blocking=False):
            raise Refusal(HTTPStatus.SERVICE_UNAVAILABLE, "too many pages listen")
        try:
            self.close_connection = True
            self._head(HTTPStatus.OK, "text/event-stream; charset=utf-8", {"Connection": "close"})
            known = None
            with self.site.watch as watch:
                while True:
                    state = watch.next_state(known, _HEARTBEAT)
                    self._write(b": \n\n" if state == known else b"data: " + json.dumps(state._asdict()).encode() + b"\n\n")
                    known = state
        finally:
            self.server.streams.release()

    # Solids.

    def _solid(self, query: Mapping[str, list[str]]) -> None:
        form = self._format(query)
        request = self._request(query)
        unit = _unit(_one(query, "unit"))
        began = monotonic()
        found = [it.as_json() for it in parameters(request.text)] if form == "json" else []
        try:
            solved = self.site.solver.solve(request)
            if form == "json":
                scale = solved.scale()
                unit_said = str(scale) if scale else None
                notes = [it.as_json() for it in solved.notes]
                answer: dict[str, object] = {
                    "solid": solved.text.decode(), "unit": unit_said, "notes": notes, "parameters": found
                }
                answer["milliseconds"] = _since(began)
                self._send_json(answer)
                return
            from .downloads import written  # (which takes a while to load)

            data = written(form, request.file, solved, unit)
        except Replaced:
            raise Refusal(HTTPStatus.CONFLICT, "a newer text of this client has come") from None
        except NotSolved as fault:
            status = HTTPStatus.UNPROCESSABLE_ENTITY if fault.is_of_source else HTTPStatus.SERVICE_UNAVAILABLE
            faults, notes = [it.as_json() for it in fault.faults], [it.as_json() for it in fault.notes]
            told: dict[str, object] = {"faults": faults, "notes": notes, "parameters": found}
            told["milliseconds"] = _since(began)
            self._send_json(told, status)
            return
        name = os.path.basename(request.file)[: -len(".scad")] + FORMATS[form].ending
        disposition = f"attachment; filename*=UTF-8''{quote(name, safe='')}"
        self._send(HTTPStatus.OK, FORMATS[form].media, data, {"Content-Disposition": disposition}, _INERT)

    def _format(self, query: Mapping[str, list[str]]) -> str:
        """The format that the query asks for, or else the first known one of Accept, or else a 4OFF text."""
        asked = _one(query, "format")
        if asked is not None:
            if asked not in (*FORMATS, "json"):
                raise Refusal(HTTPStatus.BAD_REQUEST, f"format is one of json, {', '.join(FORMATS)}")
            return asked
        media = {it.media.partition(";")[0]: name for name, it in reversed(FORMATS.items())} | {_JSON: "json"}
        accepted = [it.partition(";")[0].strip().lower() for it in self.headers.get("Accept", "*/*").split(",")]
        for it in accepted:
            if it in media:
                return media[it]
            if it in ("*/*", "model/*", ""):
                return "4off"
        raise Refusal(HTTPStatus.NOT_ACCEPTABLE, f"Accept has one of {', '.join(media)}")

    def _request(self, query: Mapping[str, list[str]]) -> Request:
        """What is asked. Raises Refusal."""
        known = {"format", "unit", "D", "file", "client", "half", "openscad"}
        if not known.issuperset(query):
            raise Refusal(HTTPStatus.BAD_REQUEST, f"the query has {', '.join(sorted(known))}, and no other names")
        client, name = _one(query, "client"), _one(query, "file")
        if client is not None and not _CLIENT.fullmatch(client):
            raise Refusal(HTTPStatus.BAD_REQUEST, "a client is 1 to 40 letters, digits and -")
        try:
            if name is not None:
                self.site.folder.place(name)
            definitions = [definition(it) for it in query.get("D", [])]
        except NoSuchFile:
            raise Refusal(HTTPStatus.BAD_REQUEST, "file is the name of a source in the folder, or of a new one") from None
        except ArgumentTypeError as error:
            raise Refusal(HTTPStatus.BAD_REQUEST, f"D: {error}") from None
        is_by_openscad = _switch(query, "openscad", False)
        if is_by_openscad and not self.site.has_openscad:
            raise Refusal(HTTPStatus.BAD_REQUEST, "openscad is not installed here")
        half = _switch(query, "half", self.site.half)
        return Request(self._body(), name or NO_FILE, client, definitions, half, is_by_openscad)

    # Bodies and answers.

    def _body(self) -> bytes:
        lengths = self.headers.get_all("Content-Length") or []
        if len(lengths) != 1 or not _LENGTH.fullmatch(lengths[0]):
            status = HTTPStatus.BAD_REQUEST if lengths else HTTPStatus.LENGTH_REQUIRED
            raise Refusal(status, "a request has one Content-Length")
        length = int(lengths[0])
        if length > MOST_BYTES:
            raise Refusal(HTTPStatus.REQUEST_ENTITY_TOO_LARGE, "a source has at most 1 MiB")
        if self.headers.get("Expect", "").lower() == "100-continue":
            self.send_response_only(HTTPStatus.CONTINUE)
            self.end_headers()
        data = self.rfile.read(length)
        if len(data) < length:
            raise ConnectionError("the request breaks off")
        return data

    def _no_body(self) -> None:
        if any(it != "0" for it in self.headers.get_all("Content-Length") or []):
            raise Refusal(HTTPStatus.BAD_REQUEST, "this request has no body")

    def handle_expect_100(self) -> bool:
        """The body is asked for once the request is known to be answered."""
        return True

    def send_error(self, code: int, message: str | None = None, explain: str | None = None) -> None:
        """What is not a request at all is told so in plain words, which have nothing of it."""
        self.close_connection = True
        self.request_version = self.protocol_version
        self._send(HTTPStatus(code), "text/plain; charset=utf-8", f"{HTTPStatus(code).phrase}\n".encode())

    def _send_json(self, value: object, status: HTTPStatus = HTTPStatus.OK) -> None:
        self._send(status, _JSON, json.dumps(value, separators=(",", ":")).encode() + b"\n")

    def _send(
        self,
        status: HTTPStatus,
        media: str,
        data: bytes,
        headers: Mapping[str, str] | None = None,
        safe: Mapping[str, str] = _SAFE,
    ) -> None:
        headers = dict(headers or {})
        if status != HTTPStatus.NO_CONTENT:
            headers["Content-Length"] = str(len(data))
        if self.close_connection:
            headers["Connection"] = "close"
        self._head(status, media, headers, safe)
        if getattr(self, "command", None) != "HEAD":
            self._write(data)

    def _head(self, status: HTTPStatus, media: str, headers: Mapping[str, str], safe: Mapping[str, str] = _SAFE) -> None:
        self.send_response(status)
        for name, value in {**({"Content-Type": media} if media else {}), **safe, **headers}.items():
            self.send_header(name, value)
        self.connection.settimeout(_WRITE)
        self.end_headers()

    def _write(self, data: bytes) -> None:
        """Writes all of it, or raises TimeoutError: the time is that of all."""
        self.connection.settimeout(_WRITE)
        self.wfile.write(data)


def _is_same(given: str, wanted: str) -> bool:
    return hmac.compare_digest(given.encode("utf-8", "replace"), wanted.encode("utf-8", "replace"))


def _since(began: float) -> float:
    """The milliseconds since a time."""
    return round(1000 * (monotonic() - began), 1)


def _one(query: Mapping[str, list[str]], name: str) -> str | None:
    values = query.get(name, [])
    if len(values) > 1:
        raise Refusal(HTTPStatus.BAD_REQUEST, f"{name} stands twice")
    return values[0] if values else None


def _switch(query: Mapping[str, list[str]], name: str, otherwise: bool) -> bool:
    value = _one(query, name)
    if value not in (None, "0", "1"):
        raise Refusal(HTTPStatus.BAD_REQUEST, f"{name} is 0 or 1")
    return otherwise if value is None else value == "1"


def _unit(text: str | None) -> Fraction | None:
    if text is None:
        return None
    try:
        return unit_argument(text)
    except ArgumentTypeError as error:
        raise Refusal(HTTPStatus.BAD_REQUEST, f"unit: {error}") from None
