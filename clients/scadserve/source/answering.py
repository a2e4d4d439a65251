"""What sources are answered: many of them in few runs of the server, each as it would be alone."""

from __future__ import annotations

from typing import Iterator, Sequence

from ..server.batches import batches
from ..server.processes import SERVER, Started
from ..server.scripts import Fault, Reply, run
from .sources import Source


def answered(
    sources: Sequence[Source],
    half: bool = False,
    server: Sequence[str] = SERVER,
    workers: int | None = None,
    memo: int | None = None,
    until: float | None = None,
    started: Started | None = None,
) -> Iterator[tuple[Source, Reply]]:
    """The sources, in order, each with what its export is answered. All are within the limits of a source.

    The server, its workers, its memo, its time and what is handed its processes are those of `run` of `server`, and so is
    what is raised.
    """
    for batch in batches([it.sent() for it in sources], half):
        [answers] = run([batch.script], server, workers, memo, until, started)
        pairs = [(sources[number], reply) for number, reply in batch.replies(answers)]
        # A file that ends in the middle of a statement has its fault in the definitions behind it: such files are
        # exported once more alone, and told their own fault.
        alone = [source.bare() for source, reply in pairs if _is_behind(source, reply)]
        own = answered(alone, half, server, workers, memo, until, started)
        for source, reply in pairs:
            bare, bare_reply = next(own) if _is_behind(source, reply) else (source, reply)
            yield (bare, bare_reply) if _is_at_end(bare, bare_reply) else (source, reply)


def _is_behind(source: Source, reply: Reply) -> bool:
    """Whether a fault is in the definitions behind a file, or behind them."""
    return bool(source.definitions) and _is_at_end(source, reply)


def _is_at_end(source: Source, reply: Reply) -> bool:
    """Whether a fault stands behind all lines of files."""
    return isinstance(reply, Fault) and source.is_at_end(reply.line)
