"""Exports of many sources in few runs of the server: 16 clients at once, each of which exports 16 sources one by one."""

from __future__ import annotations

from typing import Iterator, NamedTuple, Sequence

from .scripts import Answers, Client, NoMemory, Ok, Reply, Script

NAMES = "abcdefghijklmnop"

Source = Sequence[bytes]  # (its lines)


class Export(NamedTuple):
    """Where the replies to a source of this many lines are: its client, and the places of its edits and of its export."""

    source: int
    lines: int
    client: str
    edits: range
    at: int


class Batch:
    """Sources that are exported in one run."""

    def __init__(self, half: bool) -> None:
        self.script = Script(half)
        self._clients: dict[str, Client] = {}
        self._exports: list[Export] = []

    def __len__(self) -> int:
        return len(self._exports)

    def add(self, number: int, source: Source) -> bool:
        """Adds a source to a client that has room for it, by turns; tells whether there is one."""
        turn = len(self) % len(NAMES)
        for name in NAMES[turn:] + NAMES[:turn]:
            client = self._clients.get(name) or self.script.client(name)
            self._clients[name] = client
            if client.has_room(source):
                edits = client.source(source)
                self._exports.append(Export(number, len(source), name, edits, client.export()))
                return True
        return False

    def replies(self, answers: Answers) -> Iterator[tuple[int, Reply]]:
        """The number of each source, and what its export is answered: NoMemory too where an edit for it was not done, since
        what is exported then is another source."""
        for number, lines, name, edits, at in self._exports:
            replies = answers[name]
            wanted = [Ok(it) for it in range(lines + 1 - len(edits), lines + 1)]
            yield number, replies[at] if [replies[it] for it in edits] == wanted else NoMemory()


def batches(sources: Sequence[Source], half: bool) -> Iterator[Batch]:
    """The runs that export these sources. Raises ValueError where one is past the limits of a source."""
    batch = Batch(half)
    for number, source in enumerate(sources):
        if batch.add(number, source):
            continue
        if batch:
            yield batch
        batch = Batch(half)
        if not batch.add(number, source):
            raise ValueError("a source is past the limits of a source")
    if batch:
        yield batch
