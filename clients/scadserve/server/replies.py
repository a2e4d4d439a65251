"""The replies of the server: their types, and the one reader of outputs, which wants the script that was sent.

What is read is said in docs/SPECIFICATION.md under Sessions, Replies and 4OFF. All but the reply to an export is known from a
client's own commands, so an output that says something else is Malformed, and never read as another one.
"""

from __future__ import annotations

import re
from typing import Callable, NamedTuple, Sequence, Union

from .failures import Malformed

SOURCE_LINES = 4_096
ANSWERED = 16  # (a client's shows, and its exports)

FROM_ONE, INTEGER = "[1-9][0-9]{0,9}", "(?:0|-?[1-9][0-9]*)"  # (a count of more digits comes from no server)
COUNT = f"(?:0|{FROM_ONE})"
REPLY = re.compile(
    f"ok (?P<ok>{COUNT})|refused (?P<refused>[A-Za-z]+)|(?P<nomem>nomem)|text (?P<text>{COUNT})|solid (?P<solid>{COUNT})"
    f"|fault (?P<line>{FROM_ONE}):(?P<column>{FROM_ONE}) (?P<fault>[A-Za-z]+)"
    f"|complex (?:(?P<kind>solid|sum) (?P<node>{FROM_ONE})|(?P<count>facets|corners|vertices))".encode()
)
HEADER = re.compile(f"({COUNT}) ({COUNT}) 0".encode())
VERTEX = re.compile(f"(?:{INTEGER} ){{3}}[1-9][0-9]*".encode())
FACE = re.compile(f"{COUNT}(?: {COUNT}){{3,}}".encode())


class Ok(NamedTuple):
    """An edit was done, and the source has this many lines now."""

    lines: int

    def __bytes__(self) -> bytes:
        return b"ok %d\n" % self.lines


class Refused(NamedTuple):
    """A command was refused, and changed nothing."""

    word: str

    def __bytes__(self) -> bytes:
        return b"refused %b\n" % self.word.encode()


class Text(NamedTuple):
    """The lines of a source, as they are shown."""

    lines: tuple[bytes, ...]

    def __bytes__(self) -> bytes:
        return b"text %d\n" % len(self.lines) + b"".join(it + b"\n" for it in self.lines)


class Solid(NamedTuple):
    """A solid: its 4OFF text, and how many vertices and faces that has. The empty solid has none of either."""

    vertices: int
    faces: int
    text: bytes

    def __bytes__(self) -> bytes:
        return b"solid %d\n" % self.text.count(b"\n") + self.text


class Fault(NamedTuple):
    """The first fault of a source: its line, its byte in that line, both from 1, and its kind."""

    line: int
    column: int
    word: str

    def __bytes__(self) -> bytes:
        return b"fault %d:%d %b\n" % (self.line, self.column, self.word.encode())


class Complex(NamedTuple):
    """A limit that a solid passes: `solid` or `sum` at a node, or `facets`, `corners` or `vertices`, which name no node."""

    kind: str
    node: int | None = None

    def __bytes__(self) -> bytes:
        return b"complex %b" % self.kind.encode() + (b"\n" if self.node is None else b" %d\n" % self.node)


class NoMemory:
    """Memory ran out at a command, which counts as not given: after an edit the source is not the one that was meant."""

    def __eq__(self, other: object) -> bool:
        return isinstance(other, NoMemory)

    def __hash__(self) -> int:
        return hash(NoMemory)

    def __bytes__(self) -> bytes:
        return b"nomem\n"


Reply = Union[Ok, Refused, Text, Solid, Fault, Complex, NoMemory]
Answers = dict[str, list[Reply]]


class Rule(NamedTuple):
    """A command of a session: its name, how the rest is written, the words by which it is refused, in order, and what it does
    to a session, with its reply. The reply None stands for one that the source decides."""

    name: bytes
    rest: re.Pattern[bytes]
    refusals: Sequence[tuple[str, Callable[[Session, Sequence[bytes]], bool]]]
    done: Callable[[Session, Sequence[bytes]], Reply | None]


class Session:
    """The lines of a client's source and its counts, as the server keeps them."""

    def __init__(self) -> None:
        self.lines: list[bytes] = []
        self.shows = self.exports = 0

    def answer(self, command: bytes) -> Reply | None:
        """Does a command and gives its reply, as it is unless memory runs out. None stands for one that the source decides."""
        name = _NAME.match(command)
        rule = next((it for it in RULES if name and it.name == name[0]), None)
        words = rule.rest.fullmatch(command, len(rule.name)) if rule else None
        if rule is None or words is None:
            return Refused("BadCommand")
        given = words.groups(b"")
        refusal = next((word for word, is_refused in rule.refusals if is_refused(self, given)), None)
        return rule.done(self, given) if refusal is None else Refused(refusal)

    def put(self, given: Sequence[bytes]) -> Reply:
        """Puts a line before that of a number, or behind the last one."""
        self.lines.insert(int(given[0]) - 1, given[1])
        return Ok(len(self.lines))

    def set(self, given: Sequence[bytes]) -> Reply:
        """Gives a line another text."""
        self.lines[int(given[0]) - 1] = given[1]
        return Ok(len(self.lines))

    def cut(self, given: Sequence[bytes]) -> Reply:
        """Takes lines out."""
        del self.lines[int(given[0]) - 1 : int(given[1])]
        return Ok(len(self.lines))

    def show(self, _: Sequence[bytes]) -> Reply:
        """Shows the lines."""
        self.shows += 1
        return Text(tuple(self.lines))

    def export(self, _: Sequence[bytes]) -> None:
        """Exports the source, which decides the reply."""
        self.exports += 1


_NAME = re.compile(rb"[a-z]+")
_PLACE = re.compile(rb" ([0-9]{1,7})(?: (.*))?", re.DOTALL)
_RANGE = re.compile(rb" ([0-9]{1,7}) ([0-9]{1,7})")
_NOTHING = re.compile(b"")


def _is_no_gap(session: Session, given: Sequence[bytes]) -> bool:
    return not 1 <= int(given[0]) <= len(session.lines) + 1


def _is_no_line(session: Session, given: Sequence[bytes]) -> bool:
    return not 1 <= int(given[0]) <= len(session.lines)


def _is_no_range(session: Session, given: Sequence[bytes]) -> bool:
    return not 1 <= int(given[0]) <= int(given[1]) <= len(session.lines)


#: The commands, as docs/SPECIFICATION.md has them under Sessions. A test compares the table with the cases of the server.
RULES: Sequence[Rule] = (
    Rule(
        b"put",
        _PLACE,
        (("NoSuchLine", _is_no_gap), ("TooManyLines", lambda session, _: len(session.lines) == SOURCE_LINES)),
        Session.put,
    ),
    Rule(b"set", _PLACE, (("NoSuchLine", _is_no_line),), Session.set),
    Rule(b"cut", _RANGE, (("NoSuchLine", _is_no_range),), Session.cut),
    Rule(b"show", _NOTHING, (("TooManyShows", lambda session, _: session.shows == ANSWERED),), Session.show),
    Rule(b"export", _NOTHING, (("TooManyExports", lambda session, _: session.exports == ANSWERED),), Session.export),
)


def commands_of(script: bytes) -> dict[bytes, list[bytes]]:
    """The commands of each client of a script that is within its limits, by name, in the order of first appearance."""
    lines = script.split(b"\n")
    clients: dict[bytes, list[bytes]] = {}
    for line in lines if lines[-1] else lines[:-1]:
        name, _, command = line[: len(line) - line.endswith(b"\r")].partition(b" ")
        clients.setdefault(name, []).append(command)
    return clients


class _Output:
    """The lines of an output that are not read yet."""

    def __init__(self, output: bytes) -> None:
        *self._lines, rest = output.split(b"\n")
        self._at = 0
        if rest:
            raise Malformed("the last line of the output has no end")

    def take(self, count: int = 1) -> list[bytes]:
        """The next lines. Raises Malformed where fewer are left."""
        taken = self._lines[self._at : self._at + count]
        if len(taken) < count:
            raise Malformed("the output ends too early")
        self._at += count
        return taken

    def is_read(self) -> bool:
        return self._at == len(self._lines)


def read(script: bytes, output: bytes) -> Answers:
    """The replies to each client's commands, in their order, of an output without a tally. Raises Malformed."""
    left = _Output(output)
    answers: Answers = {}
    for name, commands in commands_of(script).items():
        if left.take() != [b"== " + name]:
            raise Malformed(f"the output does not go on with client {name.decode()}")
        session = Session()
        answers[name.decode()] = [
            _reply(session, number, command, left) for number, command in enumerate(commands, 1)
        ]
    if not left.is_read():
        raise Malformed("the output goes on after the last reply")
    return answers


def printed(answers: Answers) -> bytes:
    """The output that has these replies."""
    return b"".join(
        b"== %b\n" % name.encode() + b"".join(b"%d %b" % it for it in enumerate(map(bytes, replies), 1))
        for name, replies in answers.items()
    )


def _reply(session: Session, number: int, command: bytes, left: _Output) -> Reply:
    """The reply of this number, which a session's next command is given."""
    [line] = left.take()
    start, _, words = line.partition(b" ")
    match = REPLY.fullmatch(words)
    if start != b"%d" % number or match is None:
        raise Malformed(f"reply {number} is not a reply: {line!r}")
    reply = _as_type(match, left)
    if isinstance(reply, NoMemory):
        return reply
    wanted = session.answer(command)
    if reply != wanted and not (wanted is None and isinstance(reply, (Solid, Fault, Complex))):
        raise Malformed(f"reply {number} can't be one to its command: {line!r}")
    return reply


def _as_type(match: re.Match[bytes], left: _Output) -> Reply:
    """The reply that a first line says, with the lines that follow it."""
    if match["ok"]:
        return Ok(int(match["ok"]))
    if match["refused"]:
        return Refused(match["refused"].decode())
    if match["fault"]:
        return Fault(int(match["line"]), int(match["column"]), match["fault"].decode())
    if match["text"]:
        return Text(tuple(left.take(int(match["text"]))))
    if match["solid"]:
        return _solid(left.take(int(match["solid"])))
    if match["kind"]:
        return Complex(match["kind"].decode(), int(match["node"]))
    return Complex(match["count"].decode()) if match["count"] else NoMemory()


def _solid(lines: list[bytes]) -> Solid:
    """The solid of a 4OFF text in its one spelling, in which vertices are numbered as the faces first have them."""
    header = HEADER.fullmatch(lines[1]) if len(lines) > 1 and lines[0] == b"4OFF" else None
    if header is None:
        raise Malformed("a solid does not begin as a 4OFF text")
    vertices, faces = int(header[1]), int(header[2])
    if len(lines) != 2 + vertices + faces:
        raise Malformed("a 4OFF text has other counts than lines")
    if not all(map(VERTEX.fullmatch, lines[2 : 2 + vertices])):
        raise Malformed("a 4OFF text has a line that is not a vertex")
    met = 0
    for line in lines[2 + vertices :]:
        count, *corners = map(int, line.split(b" ")) if FACE.fullmatch(line) else [1]
        if count != len(corners):
            raise Malformed("a 4OFF text has a line that is not a face")
        for corner in corners:
            if corner > met:
                raise Malformed("the faces of a 4OFF text have other corners than its vertices, in order")
            met = max(met, corner + 1)
    if met != vertices:
        raise Malformed("a 4OFF text has vertices that no face has")
    return Solid(vertices, faces, b"".join(it + b"\n" for it in lines))
