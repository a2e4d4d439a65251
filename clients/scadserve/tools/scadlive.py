"""`scadlive`: serves a page in which sources are edited and their solids turn, to browsers and programs of this machine."""

from __future__ import annotations

import ipaddress
import os
import re
import threading
import webbrowser
from argparse import ArgumentTypeError, Namespace
from typing import Sequence
from urllib.parse import quote, urlsplit

from ..calls.asking import told
from ..calls.words import Words, write_out
from ..ending import BadCall, ended
from ..files import reason, say
from ..live.folder import ENDING, Folder, NoSuchFile
from ..live.serving import Server, Settings, Site
from ..live.solving import Solver
from ..live.watching import Watch
from ..server.processes import server_of_environment
from ..source.joining import folders_of_environment

TOOL = "scadlive"
_DESCRIPTION = (
    "Serves a page in which OpenSCAD sources are edited and their solids are shown, for many browsers and programs at "
    "once."
)
_STATUSES = (
    "It runs until Ctrl-C. The status is 2 if the words are wrong, the folder can't be read or nothing can listen at that "
    "address, and 130 after Ctrl-C. SCADSERVE in the environment names a server to use in place of ./scadserve, and "
    "SCADLIVE_TOKEN the token. docs/LIVE.md describes the requests of programs, and who has access."
)
_PORT = 4780
_LOOPBACK = "127.0.0.1"


def main(words: Sequence[str]) -> int:
    """Does what the words of a call ask for, and gives its status."""
    return ended(lambda: told(TOOL, lambda: _do(words)))


def parser() -> Words:
    """The words that there are."""
    words = Words(TOOL, _DESCRIPTION, _STATUSES)
    words.add_argument(
        "file",
        nargs="?",
        default=".",
        metavar="FILE",
        help="a source to begin with, or the folder of the sources; default: the working directory",
    )
    words.add_argument(
        "--port", type=_port, default=_PORT, metavar="N", help=f"the port; 0 takes a free one; default: {_PORT}"
    )
    words.add_argument("--open", action="store_true", help="open the page in a browser")
    words.add_argument(
        "--jobs", type=_jobs, default=2, metavar="N", help="how many runs of the server there are at once, 1 to 64; default: 2"
    )
    words.add_argument("--seconds", type=_seconds, default=10.0, metavar="S", help="end a run after S seconds; default: 10")
    words.add_argument("--half", action="store_true", help="corners may lie at half units")
    words.add_argument(
        "-I",
        dest="folders",
        metavar="DIR",
        action="append",
        default=[],
        help="look in DIR too for files that a source includes or uses",
    )
    words.add_argument(
        "--bind", metavar="ADDRESS", default=_LOOPBACK, help="the address to listen on; default: 127.0.0.1; others need a token"
    )
    words.add_argument("--token", metavar="TOKEN", help="answer only requests that have this token")
    words.add_argument(
        "--base", metavar="URL", default="", help="where a proxy shows the page: https://example.org/live, or the path /live"
    )
    return words


def _do(words: Sequence[str]) -> int:
    asked = parser().parse_args(words)
    token = os.environ.get("SCADLIVE_TOKEN") if asked.token is None else asked.token
    if token is not None and not re.fullmatch(r"[!-~]{8,200}", token):
        raise BadCall("a token has 8 to 200 letters, digits and signs, without a blank")
    if not _address(asked.bind).is_loopback and token is None:
        raise BadCall(f"--bind {asked.bind} lets other machines in, so it needs --token or SCADLIVE_TOKEN")
    folder, first = _folder(asked.file)
    libraries = [os.path.abspath(it) for it in asked.folders]
    server = [os.path.abspath(it) if os.path.dirname(it) else it for it in server_of_environment()]
    os.environ["OPENSCADPATH"] = os.pathsep.join(map(os.path.abspath, folders_of_environment()))
    os.chdir(folder.path)  # (so that files are named as the tools name them)
    solver = Solver(folder, libraries, server, asked.jobs, asked.seconds)
    try:
        return _serve(asked, folder, first, solver, token)
    finally:
        solver.exports.close()


def _serve(asked: Namespace, folder: Folder, first: str, solver: Solver, token: str | None) -> int:
    """Serves until it is ended."""
    try:
        listening = Server((asked.bind, asked.port))
    except OSError as error:
        raise BadCall(f"cannot listen on {asked.bind}, port {asked.port}: {reason(error)}") from None
    with listening as it:
        port = it.server_address[1]
        watch = Watch(folder, [*solver.libraries, *folders_of_environment()])
        it.site = Site(folder, solver, watch, _settings(asked, port, token), first, asked.half)
        address = f"http://{_host(asked.bind)}:{port}/"
        write_out("-", f"{address}\n".encode())
        if asked.open:
            page = address + (f"?token={quote(token, safe='')}" if token else "")
            threading.Thread(target=_open, args=(page,), daemon=True).start()
        it.serve_forever(poll_interval=0.1)
    return 0


def _open(address: str) -> None:
    if not webbrowser.open(address):
        say(f"{TOOL}: no browser could be opened: {address} is the page\n")


def _folder(path: str) -> tuple[Folder, str]:
    """The folder that is served, and the source to begin with. Raises BadCall."""
    if os.path.isdir(path):
        folder, first = Folder(path), ""
        names = folder.names()
        return folder, names[0] if names else ""
    folder = Folder(os.path.dirname(os.path.abspath(path)))
    first = os.path.basename(path)
    if not os.path.isdir(folder.path):
        raise BadCall(f"cannot open {path}: there is no such folder")
    if not first.endswith(ENDING):
        raise BadCall(f"{path} is neither a folder nor a source, whose name ends with {ENDING}")
    try:
        if os.path.lexists(folder.place(first)):
            folder.read(first)
    except NoSuchFile:
        raise BadCall(f"cannot open {path}: it is a link, hidden, larger than 1 MiB or no ordinary file") from None
    except OSError as error:
        raise BadCall(f"cannot open {path}: {reason(error)}") from None
    return folder, first


def _settings(asked: Namespace, port: int, token: str | None) -> Settings:
    """Who may come in. Raises BadCall."""
    names = {asked.bind, "localhost", _LOOPBACK, "::1"} if _address(asked.bind).is_loopback else {asked.bind}
    hosts = {f"{_host(it)}:{port}" for it in names} | ({_host(it) for it in names} if port == 80 else set())
    base = urlsplit(asked.base)
    is_path = asked.base.startswith("/")
    if asked.base and not is_path and (base.scheme not in ("http", "https") or not base.netloc):
        raise BadCall(f"--base {asked.base} is neither an address with http or https nor a path")
    path = base.path.rstrip("/")
    if not re.fullmatch(r"(?:/[A-Za-z0-9._~-]+)*", path) or base.query or base.fragment:
        raise BadCall(f"the path of --base {asked.base} has characters other than letters, digits, . _ ~ and -")
    outside = frozenset() if is_path or not asked.base else frozenset({f"{base.scheme}://{base.netloc}"})
    hosts |= {base.netloc.lower()} if outside else set()
    return Settings(frozenset(hosts), outside, _address(asked.bind).is_unspecified, path, token)


def _address(text: str) -> ipaddress.IPv4Address | ipaddress.IPv6Address:
    try:
        return ipaddress.ip_address(text)
    except ValueError:
        raise BadCall(f"--bind {text} is not an address in numbers, such as 127.0.0.1 or ::1") from None


def _host(address: str) -> str:
    return f"[{address}]" if ":" in address else address


def _port(text: str) -> int:
    if not re.fullmatch(r"[0-9]{1,5}", text) or int(text) > 65535:
        raise ArgumentTypeError(f"{text!r} is not a port from 0 to 65535")
    return int(text)


def _jobs(text: str) -> int:
    if not re.fullmatch(r"[0-9]{1,2}", text) or not 1 <= int(text) <= 64:
        raise ArgumentTypeError(f"{text!r} is not a number from 1 to 64")
    return int(text)


def _seconds(text: str) -> float:
    if not re.fullmatch(r"[0-9]{1,4}(\.[0-9]{1,3})?", text) or float(text) <= 0:
        raise ArgumentTypeError(f"{text!r} is not a number of seconds from 0.001 to 9999")
    return float(text)
