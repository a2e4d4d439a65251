"""Sources: the lines that the server is sent of a file, and where each of them stands."""

from __future__ import annotations

from fractions import Fraction
from typing import Callable, NamedTuple, Optional, Sequence

from ..server.replies import Solid

#: What makes a solid of a large source: it is handed the words of a server, how many parts side by side, and the time.
Maker = Callable[[Sequence[str], Optional[int], Optional[float]], Solid]


class Spot(NamedTuple):
    """Where a fault is told: a file by its name in messages, a line and a byte of it, both from 1, and that line. Its
    bytes are None at the end of a source; the file is `-D NAME=VALUE` where the fault is in such a definition. The column is 0
    where it isn't known, and so is the line."""

    file: str
    line: int
    column: int
    text: bytes | None

    def place(self) -> str:
        """What is said of it, in the form that editors read."""
        return ":".join([self.file, *(str(it) for it in (self.line, self.column) if it)])


class Origin(NamedTuple):
    """Where a file is included or used, and where the file is in which that stands; none for the file of a call."""

    spot: Spot
    word: str
    around: Origin | None

    def around_it(self) -> list[Origin]:
        """It and those around it, from the inner to the outer."""
        return [self] + (self.around.around_it() if self.around is not None else [])


class Edit(NamedTuple):
    """Bytes of a line that are others than in the file: the first of them as it is sent, and how many here and there."""

    start: int
    sent: int
    own: int


class Line(NamedTuple):
    """A line of a source as it is sent, and as it stands in which line of which file, by its name in messages."""

    sent: bytes
    text: bytes
    file: str
    number: int
    origin: Origin | None = None
    edits: tuple[Edit, ...] = ()

    def is_used(self) -> bool:
        """Whether it stands in a file that is used, or in one that such a file includes."""
        return self.origin is not None and any(it.word == "use" for it in self.origin.around_it())

    def spot(self, column: int) -> Spot:
        """Where a byte of what is sent stands, from 1."""
        shift = 0
        for start, sent, own in self.edits:
            if column > start + sent:
                shift += own - sent
            elif column > start:
                return Spot(self.file, self.number, start + shift + 1, self.text)
        return Spot(self.file, self.number, column + shift, self.text)


class Source:
    """A source as it is sent: its name in messages, its lines, those of what it includes and uses too, the NAME=VALUE
    that are assigned behind them, what each of these is called there, and how many lines the file itself has."""

    def __init__(
        self,
        name: str,
        lines: list[Line],
        definitions: Sequence[str] = (),
        own_lines: int = 0,
        unit: Fraction | None = None,
        step: Fraction = Fraction(1),
    ) -> None:
        self.name, self.lines, self.definitions, self.own_lines = name, lines, definitions, own_lines
        #: How many millimetres a length of the file is, by an option or a comment; None where nothing says it, or nobody asked.
        self.unit = unit
        #: How many lengths of the file a length of what is sent is: the step of the grid, where OpenSCAD evaluated the file.
        self.step = step

    def bare(self) -> Source:
        """The same source with nothing assigned behind it."""
        return Source(self.name, self.lines, (), self.own_lines, self.unit, self.step)

    def sent(self) -> list[bytes]:
        """The lines that the server is sent."""
        return [it.sent for it in self.lines] + [it.encode("utf-8", "surrogateescape") + b";" for it in self.definitions]

    def is_at_end(self, line: int) -> bool:
        """Whether a line of what is sent, from 1, is behind all lines of files."""
        return line > len(self.lines)

    def spot(self, line: int, column: int) -> Spot:
        """Where a byte of what is sent stands."""
        if not self.is_at_end(line):
            return self.lines[line - 1].spot(column)
        if self.definitions:
            at = min(line - len(self.lines), len(self.definitions))
            sent = self.sent()
            return Spot(f"-D {self.definitions[at - 1]}", 1, column, sent[line - 1] if line <= len(sent) else None)
        return Spot(self.name, self.own_lines + 1, column, None)

    def origin(self, line: int) -> Origin | None:
        """Where the file of a line of what is sent is included or used."""
        return None if self.is_at_end(line) else self.lines[line - 1].origin


class LargeSource(Source):
    """A source that isn't sent, since its design passes a limit: it has comments alone. Its solid is put together of parts,
    which are made by a server, that its words start, this many of them side by side, until a time at which these are ended."""

    def __init__(self, name: str, lines: list[Line], unit: Fraction | None, step: Fraction, make: Maker) -> None:
        super().__init__(name, lines, (), len(lines), unit, step)
        self._make = make

    def solid(self, server: Sequence[str], jobs: int | None = None, until: float | None = None) -> Solid:
        """Its solid. Raises Refused, Malformed, and what `run` of `server` raises."""
        return self._make(server, jobs, until)


class Refused(Exception):
    """A source that is not sent, since it has a fault that shows before: its place, what it is, and its cure."""

    def __init__(self, spot: Spot, word: str, said: str, cure: str, origin: Origin | None = None) -> None:
        super().__init__(f"{spot.file}:{spot.line}:{spot.column}: {word}: {said}")
        self.spot, self.word, self.said, self.cure, self.origin = spot, word, said, cure, origin
