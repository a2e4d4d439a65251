"""A client of the server: writes scripts within their limits, runs them, and reads what they are answered.

    script = Script()
    part = script.client("a")
    part.source([b"cube([1, 2, 3]);"])
    at = part.export()
    [answers] = run([script])
    answers["a"][at]  # Solid(vertices=8, faces=6, text=b"4OFF\\n..."), or Fault(line=2, column=1, word="Expected"), ..

Texts are bytes, since a source may hold any; coordinates are in the source's units. Each limit of docs/SPECIFICATION.md on
scripts and sessions is tested before a byte is sent, and is told by the server's own word.
"""

from __future__ import annotations

import re
from typing import Iterable, Sequence

from .failures import BadScript, BadWords, Malformed, NotStarted, OutOfMemory, OutOfTime, ReadFault, ServerFailed, WriteFault
from .processes import Server, Started, output, server_words
from .replies import ANSWERED, SOURCE_LINES, Answers, Complex, Fault, NoMemory, Ok, Refused, Reply
from .replies import Session, Solid, Text, printed, read

# What a program that sends scripts needs, the types of replies too.
__all__ = ["Script", "Client", "run", "passed_limit", "read", "printed", "Answers", "Reply", "Ok", "Refused", "Text", "Solid"]
__all__ += ["Fault", "Complex", "NoMemory", "Limit", "Malformed", "ServerFailed", "NotStarted", "BadWords", "BadScript"]
__all__ += ["ReadFault", "WriteFault", "OutOfMemory", "OutOfTime"]

SCRIPT_BYTES = 1_048_576
LINE_BYTES = 1_024  # (of a line of a script, without its end)
CLIENTS = 16
COMMANDS = 8_192  # (of each client)

NAME = re.compile("[a-z0-9]{1,16}")
WORKERS, MEMO = range(1, 65), range(2_000_001)


def _options(workers: int | None, memo: int | None) -> list[str]:
    """The words of the server for these. Raises TypeError and ValueError where one is out of range."""
    words = []
    for name, value, values in (("workers", workers, WORKERS), ("memo", memo, MEMO)):
        if value is None:
            continue
        if not isinstance(value, int) or isinstance(value, bool):
            raise TypeError(f"{name} is a whole number, and not {value!r}")
        if value not in values:
            raise ValueError(f"{name} is {values[0]:,} to {values[-1]:,}, and not {shown_value(value)}")
        words += [f"--{name}", str(value)]
    return words


def test_options(server: Server | None, workers: int | None, memo: int | None) -> None:
    """Raises TypeError and ValueError where `run` would, before anything is begun."""
    server_words(server)
    _options(workers, memo)


def shown_value(value: object) -> str:
    """A value in a message, which may be a number that is too long to be written."""
    is_long = isinstance(value, int) and abs(value) >= 10**30
    return "a number of more than 30 digits" if is_long else repr(value)


class Limit(ValueError):
    """A command would pass a limit of its script or its session; `word` is the server's for it. Nothing was added."""

    def __init__(self, word: str) -> None:
        super().__init__(word)
        self.word = word


class Client:
    """A client of a script. Each command gives the place of its reply in the client's list of replies, from 0."""

    def __init__(self, script: Script, name: str) -> None:
        self._script, self._name, self._session = script, name.encode(), Session()
        self._commands = 0

    def put(self, number: int, text: bytes) -> int:
        """Makes a text, which has no newline, the line of this number, from 1; that line and later ones move down."""
        return self._add([b"put %d %b" % (number, text)])[0]

    def set(self, number: int, text: bytes) -> int:
        """Makes the line of this number another text."""
        return self._add([b"set %d %b" % (number, text)])[0]

    def cut(self, first: int, last: int) -> int:
        """Removes the lines from the first number to the last."""
        return self._add([b"cut %d %d" % (first, last)])[0]

    def show(self) -> int:
        """Asks for the lines: a Text."""
        return self._add([b"show"])[0]

    def export(self) -> int:
        """Asks for the solid of the source: a Solid, a Fault or a Complex."""
        return self._add([b"export"])[0]

    def source(self, lines: Sequence[bytes]) -> range:
        """Makes these lines the whole source, by a cut of the old ones and a put for each, and gives the places of their
        replies. Adds all of these commands, or none."""
        return self._add(self._rewriting(lines))

    def has_room(self, lines: Sequence[bytes]) -> bool:
        """Whether these lines can be made the whole source and be exported."""
        try:
            self._test([*self._rewriting(lines), b"export"])
        except Limit:
            return False
        return self._session.exports < ANSWERED

    def _rewriting(self, lines: Sequence[bytes]) -> list[bytes]:
        """The commands that make these lines the whole source."""
        if len(lines) > SOURCE_LINES:
            raise Limit("TooManyLines")
        held = len(self._session.lines)
        return [b"cut 1 %d" % held] * (held > 0) + _puts(self._name, lines)

    def _add(self, commands: Sequence[bytes]) -> range:
        """Adds one command, or several that no session refuses, and gives the places of their replies."""
        self._test(commands)
        for command in commands:
            answer = self._session.answer(command)
            if isinstance(answer, Refused):
                raise Limit(answer.word)
            self._script._append(_line(self._name, command))
        self._commands += len(commands)
        return range(self._commands - len(commands), self._commands)

    def _test(self, commands: Sequence[bytes]) -> None:
        """Raises Limit where the script can't go on with these commands, and ValueError where one is not a line."""
        if any(b"\n" in it for it in commands):
            raise ValueError("a line of a source has no newline")
        if any(_is_long(self._name, it) for it in commands):
            raise Limit("TooLong")
        if self._commands + len(commands) > COMMANDS:
            raise Limit("TooManyCommands")
        if len(self._script) + sum(len(_line(self._name, it)) for it in commands) > SCRIPT_BYTES:
            raise Limit("TooLarge")


class Script:
    """A script of up to 16 clients, in whole units or in half ones. Its length is in bytes."""

    def __init__(self, half: bool = False) -> None:
        self.half = half
        self._clients: dict[str, Client] = {}
        self._lines: list[bytes] = []
        self._length = 0

    def client(self, name: str) -> Client:
        """A new client of this name: 1 to 16 bytes of a to z and 0 to 9. Raises ValueError where there is one already."""
        if not NAME.fullmatch(name):
            raise Limit("NoName")
        if name in self._clients:
            raise ValueError(f"the script has a client {name} already")
        if len(self._clients) == CLIENTS:
            raise Limit("TooManyClients")
        self._clients[name] = Client(self, name)
        return self._clients[name]

    def _append(self, line: bytes) -> None:
        self._lines.append(line)
        self._length += len(line)

    def __len__(self) -> int:
        return self._length

    def __bytes__(self) -> bytes:
        return b"".join(self._lines)


def run(
    scripts: Iterable[Script],
    server: Server | None = None,
    workers: int | None = None,
    memo: int | None = None,
    until: float | None = None,
    started: Started | None = None,
) -> list[Answers]:
    """What each script is answered: the replies of each client, by name.

    `server` is a program, or words that start it; else what SCADSERVE in the environment names, or `./scadserve`.

    `workers` are at most this many for an export (1 to 64, else 4), `memo` is the weight of what it keeps (0 to 2,000,000,
    else 500,000), and `until` is the time of `time.monotonic` at which it is ended. `started` is handed each process, the
    first of a session of its own, so that another thread may end it. It is ended when Python ends, also by SIGTERM or SIGHUP
    where it was called by the main thread.

    Raises ServerFailed, or one of its kinds, where the server does not start, ends with a status other than 0 or takes too
    long, and Malformed where its output can't be what the script is answered. Raises TypeError and ValueError where an
    argument is none.
    """
    if isinstance(scripts, Script):
        raise TypeError("scripts are a list: run([script])")
    words, options = server_words(server), _options(workers, memo)
    return [read(bytes(it), output(words, [*["--half"] * it.half, *options], bytes(it), until, started)) for it in scripts]


def passed_limit(lines: Sequence[bytes]) -> Fault | None:
    """The first limit that a source passes though nothing stands beside it: TooManyLines, TooLong or TooLarge at its place.

    A line is too long at its first byte past 1,016. The source is too large at the line with which a script passes its
    1,048,576 bytes that has one client, of a name of one byte, and ends with the export.
    """
    name = b"a"
    commands = _puts(name, lines)
    sizes = [len(_line(name, it)) for it in (commands if _is_in_order(commands) else reversed(commands))]
    most = LINE_BYTES - len(b"a put 1 ")
    left = SCRIPT_BYTES - len(_line(name, b"export"))
    for number, (line, size) in enumerate(zip(lines, sizes), 1):
        left -= size
        if number > SOURCE_LINES:
            return Fault(number, 1, "TooManyLines")
        if len(line) > most:
            return Fault(number, most + 1, "TooLong")
        if left < 0:
            return Fault(number, 1, "TooLarge")
    return None


def _puts(name: bytes, lines: Sequence[bytes]) -> list[bytes]:
    """Commands that put these lines into an empty source: in order or, where one is too long to be put behind its own
    number, from the last to the first, each as line 1."""
    in_order = [b"put %d %b" % it for it in enumerate(lines, 1)]
    if any(_is_long(name, it) for it in in_order):
        return [b"put 1 " + it for it in reversed(lines)]
    return in_order


def _is_in_order(commands: Sequence[bytes]) -> bool:
    return len(commands) < 2 or commands[1].startswith(b"put 2 ")


def _is_long(name: bytes, command: bytes) -> bool:
    return len(name) + 1 + len(command) > LINE_BYTES


def _line(name: bytes, command: bytes) -> bytes:
    """A line of a script. One carriage return at its end is dropped by the server, so a text's own is written twice."""
    return b"%b %b%b\n" % (name, command, b"\r" * command.endswith(b"\r"))
