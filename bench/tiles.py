#!/usr/bin/env python3
"""Designs by tiles: that they are the solids they should be, and what they take.

    bench/tiles.py chance [--count N] [--seed N] [--least N] [--most N]   # designs by chance, each in three ways if that can be
    bench/tiles.py growth [--least N] [--most N]                          # rows of balls with bores, at one density
    bench/tiles.py sizes [--planes N ..]                                  # two designs by tiles of several sizes

Each takes `--jobs N` too, the number of runs of the server side by side.

`chance` makes designs of the test's own kind (`clients/tests/chance.py`) of between this many planes, by two sizes of tiles,
and as one source where that is within the limits of the server. All have to have the same areas on the same planes, exactly.
A line is printed for each, and the last one counts them; the status is 1 where one differs.

`growth` prints for designs of more and more planes how many tiles they have and how many seconds of processors they take: to
cut the design into pieces, to make the tiles of the pieces by the server, and to join them. `sizes` prints the same for two
designs, by tiles with the numbers of planes that are given. SCADSERVE in the environment names the program.
"""

from __future__ import annotations

import argparse
import os
import sys
from random import Random
from resource import RUSAGE_CHILDREN, getrusage
from time import monotonic, process_time

sys.path.insert(0, os.path.join(os.path.dirname(os.path.dirname(os.path.realpath(__file__))), "clients"))

from scadserve.openscad.grid import Grid, moved_hull  # noqa: E402
from scadserve.openscad.reader import CsgFault  # noqa: E402
from scadserve.openscad.tree import DIFFERENCE, UNION, Join  # noqa: E402
from scadserve.server.processes import server_of_environment  # noqa: E402
from scadserve.solid import fouroff  # noqa: E402
from scadserve.solid.surface import NotClosed  # noqa: E402
from scadserve.solving import Solid, solve  # noqa: E402
from scadserve.tiles.cutting import Limits, near_leaves, whole_tree  # noqa: E402
from scadserve.tiles.dividing import pieces  # noqa: E402
from scadserve.tiles.gluing import NotOfTile, glued  # noqa: E402
from scadserve.tiles.joined import text_of  # noqa: E402
from scadserve.tiles.making import Solver, made  # noqa: E402
from scadserve.tiles.side_by_side import done, processors  # noqa: E402
from tests import chance  # noqa: E402

SMALLER = Limits(planes=200, facets=400, shapes=80)


def planes_of(grid: Grid) -> int:
    """How many different planes a design has."""
    planes = {it for near in near_leaves(whole_tree(grid)) for it in near.leaf.planes}
    return len({it if it[:3] > (0, 0, 0) else tuple(-n for n in it) for it in planes})


def areas_by_tiles(grid: Grid, limits: Limits, jobs: int | None) -> tuple[object, int]:
    """The areas on the planes of a design by tiles, and how many tiles there are."""
    found = made(grid, server_of_environment(), jobs, limits)
    return chance.areas(fouroff.read(text_of(found.surface).text)), found.tiles


def by_chance(asked: argparse.Namespace) -> int:
    differing = alone = refused = 0
    for number in range(asked.count):
        rolled = Random(asked.seed + number)
        grid = chance.design(rolled, round(asked.least * (asked.most / asked.least) ** rolled.random()), size=1000)
        began = monotonic()
        said = []
        try:
            one, tiles = areas_by_tiles(grid, Limits(), asked.jobs)
            other, smaller = areas_by_tiles(grid, SMALLER, asked.jobs)
            same = one == other
            [as_one] = solve([chance.one_source(grid)])
            if isinstance(as_one, Solid):
                alone += 1
                said.append("as one source too")
                same = same and one == chance.areas(fouroff.read(as_one.text))
            said.insert(0, f"{tiles} and {smaller} tiles, {'the same' if same else 'DIFFERENT'}")
            differing += not same
        except CsgFault as fault:
            refused += 1
            said.append(f"refused: {fault.said}")
        except (NotClosed, NotOfTile) as fault:
            differing += 1
            said.append(f"DIFFERENT: {fault}")
        print(f"{asked.seed + number}: {planes_of(grid)} planes, {', '.join(said)}, {monotonic() - began:.1f} s", flush=True)
    same = asked.count - differing - refused
    print(f"{same} of {asked.count} are the same, {alone} of them as one source too; {refused} are refused")
    return 1 if differing else 0


def row_of_balls(count: int, moved: int = 0, fragments: int = 40) -> Grid:
    """Balls with bores, in rows of a square, each moved along each axis by at most so much, by chance.

    In even rows all walls of tiles go between balls for some numbers of them, and through balls for others.
    """
    side = round(count**0.5 + 0.499)
    rolled = Random(count)
    balls = [chance.ball((0, 0, 0), 70 + it, fragments).hull for it in range(min(count, 7))]
    bore = chance.cone((0, 0, -100), 25, 25, 200, 24).hull
    parts: list[Grid] = []
    for at in range(count):
        x, y, z = (rolled.randint(-moved, moved) for _ in range(3))
        place = (at % side * 150 - 75 * side + x, at // side * 150 - 75 * side + y, z)
        bodies = [chance.Body(moved_hull(it, place), chance.NODE) for it in (balls[at % 7], bore)]
        parts.append(Join(DIFFERENCE, bodies))
    return Join(UNION, parts) if count > 1 else parts[0]


def spent() -> float:
    """The processor seconds of this process and of all others that it started and that have ended."""
    return process_time() + sum(getrusage(RUSAGE_CHILDREN)[:2])


def row_of(grid: Grid, jobs: int | None, limits: Limits) -> str:
    """What a design by tiles takes, as cells of a table."""
    began = spent()
    found = pieces(grid, limits)
    cut = spent()
    of_pieces = dict(done(Solver(server_of_environment(), limits, None), found, jobs or processors()))
    parts = [part for at in range(len(found)) for part in of_pieces[at]]
    made_ones = spent()
    glued(parts)
    ended = spent()
    steps = [cut - began, made_ones - cut, ended - made_ones]
    planes = planes_of(grid)
    cells = [str(planes), str(len(parts)), *(f"{it:.3f}" for it in steps), f"{ended - began:.2f}"]
    return " | ".join([*cells, f"{(ended - began) / planes * 1e6:.0f}"])


HEADS = "Planes | Tiles | Cutting, s | Tiles, s | Joining, s | All, s of processors | microseconds a plane |"


def growth(asked: argparse.Namespace) -> int:
    print(f"| {HEADS}\n{'|---' * 7}|", flush=True)
    for count in (2, 5, 10, 20, 50, 100):
        grid = row_of_balls(count, moved=30)
        if asked.least <= planes_of(grid) <= asked.most:
            print(f"| {row_of(grid, asked.jobs, Limits())} |", flush=True)
    return 0


def sizes(asked: argparse.Namespace) -> int:
    print(f"| Planes of a tile | {HEADS}\n{'|---' * 8}|", flush=True)
    for grid in (row_of_balls(8), chance.design(Random(5), 8000, size=1000)):
        for most in asked.planes:
            limits = Limits(planes=most, facets=4 * most, shapes=most * 4 // 5)
            print(f"| {most} | {row_of(grid, asked.jobs, limits)} |", flush=True)
    return 0


def main() -> int:
    words = argparse.ArgumentParser(description="Designs by tiles.", allow_abbrev=False)
    kinds = words.add_subparsers(dest="kind", required=True)
    of_chance = kinds.add_parser("chance", allow_abbrev=False)
    for name, default in (("count", 200), ("seed", 1), ("least", 1000), ("most", 20_000)):
        of_chance.add_argument(f"--{name}", type=int, default=default)
    of_growth = kinds.add_parser("growth", allow_abbrev=False)
    for name, default in (("least", 0), ("most", 110_000)):
        of_growth.add_argument(f"--{name}", type=int, default=default)
    of_sizes = kinds.add_parser("sizes", allow_abbrev=False)
    of_sizes.add_argument("--planes", type=int, nargs="+", default=[150, 300, 450, 600])
    for it in (of_chance, of_growth, of_sizes):
        it.add_argument("--jobs", type=int, metavar="N")
    asked = words.parse_args()
    return {"chance": by_chance, "growth": growth, "sizes": sizes}[asked.kind](asked)


if __name__ == "__main__":
    sys.exit(main())
