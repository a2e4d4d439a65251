"""Makes the solid of a design of any size: cuts it into tiles, has each made by the server, and puts them together."""

from __future__ import annotations

from dataclasses import dataclass
from typing import Callable, Sequence

from ..openscad.grid import Grid
from ..server.batches import batches
from ..server.failures import Malformed
from ..server.replies import Complex, Fault, NoMemory, Reply
from ..server.replies import Solid as ToldSolid
from ..server.scripts import OutOfMemory, run
from ..solid import fouroff
from ..solid.surface import Surface
from .cutting import Limits, Tile
from .dividing import facets_of, halves, pieces, sources
from .gluing import Part, glued, part_of
from .side_by_side import done, processors

# Limits of the server that a smaller tile may be within.
_OF_SIZE = ("TooManyPlanes", "TooManyParts", "TooManyLines", "TooLarge")


@dataclass(frozen=True)
class Made:
    """The solid of a design, and of how many tiles it is put together."""

    surface: Surface
    tiles: int


def made(
    grid: Grid,
    server: Sequence[str],
    jobs: int | None = None,
    limits: Limits = Limits(),
    progress: Callable[[int, float], None] = lambda tiles, share: None,
    until: float | None = None,
    steps: int = 1,
) -> Made:
    """The solid of a design on a grid, with the given number of steps to a unit. `progress` is told how many tiles are done,
    and which share that is. At `until`, a time of `time.monotonic`, the runs of the server are ended.

    Raises CsgFault where a tile can't be halved, NotClosed where what is put together isn't closed, and what `run` of `server`
    raises.
    """
    found = pieces(grid, limits, steps)
    sizes = [facets_of(it, 10**9) for it in found]
    solver = Solver(server, limits, until)
    parts: list[list[Part]] = [[] for _ in found]
    tiles = finished = 0
    for number, of_piece in done(solver, found, jobs or processors()):
        parts[number] = of_piece
        tiles += len(of_piece)
        finished += sizes[number]
        progress(tiles, finished / max(1, sum(sizes)))
    return Made(glued(it for of_piece in parts for it in of_piece), tiles)


class Solver:
    """Makes the parts of a boundary that are in a piece of a design."""

    def __init__(self, server: Sequence[str], limits: Limits, until: float | None) -> None:
        self._server, self._limits, self._until = server, limits, until

    def __call__(self, piece: Tile) -> list[Part]:
        """The part of each tile of a piece."""
        found = []
        waiting = list(sources([piece], self._limits))
        while waiting:
            again = []
            for it, reply in zip(waiting, self._replies([it.lines for it in waiting])):
                if isinstance(reply, ToldSolid):
                    part = part_of(*fouroff.numbers_of(reply.text), it.box(), it.planes)
                    found.append(part.moved(it.origin, it.tile.steps))
                elif isinstance(reply, Complex) or (isinstance(reply, Fault) and reply.word in _OF_SIZE):
                    again += halves(it.tile)
                elif isinstance(reply, NoMemory):
                    raise OutOfMemory("memory ran out in the server", 6)
                else:
                    raise Malformed(f"a tile is answered {bytes(reply).decode().strip()}")
            waiting = list(sources(again, self._limits))
        return found

    def _replies(self, of_tiles: list[list[bytes]]) -> list[Reply]:
        found: dict[int, Reply] = {}
        for batch in batches(of_tiles, False):
            [answers] = run([batch.script], self._server, 1, until=self._until)
            found.update(batch.replies(answers))
        return [found[it] for it in range(len(of_tiles))]
