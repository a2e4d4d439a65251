#!/usr/bin/env python3
"""Compares the program with model/, the meaning that is run from its definitions, on sources made by chance.

    tools/differ.py SECONDS SEED [--jobs N] [--batches N] [--each SECONDS] [--server PROGRAM]

It ends after this many seconds, or after this many batches of 256. A fault is compared by its word and place. Of a solid
some faces are tested to be where the model's tree begins or ends, and points by chance to be inside or outside both; one that
passes a limit of solids is only counted. What differs is made smaller and printed. Each minute, or after as many seconds as
--each says, a line on standard error says how many agreed so far. The last line says how many sources there were, also where
SIGINT or SIGTERM ends the run. The status is 1 where something differs, nothing was compared, or a signal ended it."""

from __future__ import annotations

import argparse
import gc
import itertools
import math
import os
import re
import signal
import sys
import time
from collections import Counter
from fractions import Fraction
from multiprocessing import Pool
from random import Random
from typing import Iterable, Iterator, NamedTuple, Sequence

TOP = os.path.dirname(os.path.dirname(os.path.realpath(__file__)))
sys.path[:0] = [TOP, os.path.join(TOP, "clients")]

from model import chance as made_by  # noqa: E402
from model.csg_tree import Tree, holds, is_boundary_at, is_on_one_face_plane, nothing, planes_of, sides_of  # noqa: E402
from model.plane_predicate import Coefficients, Coordinates, in_steps, opposite_of, value  # noqa: E402
from model.primitives import distinct_planes  # noqa: E402
from model.script_server import means, with_deep_stack  # noqa: E402
from model.text_place import Fault as ModelFault  # noqa: E402
from scadserve import server  # noqa: E402
from scadserve.server.processes import server_of_environment  # noqa: E402
from scadserve.solid import fouroff  # noqa: E402
from scadserve.solid.crossings import IN, ON, Crossings, NoBoundary  # noqa: E402

CLIENTS, EXPORTS = 16, 16
FACES, POINTS = 8, 6
PIECES = re.compile(rb"\w+|\s+|.", re.DOTALL)


class Difference(NamedTuple):
    half: bool
    source: bytes
    said: str


class Ended(NamedTuple):
    """In the place of a reply, how the program ended over a source."""

    said: str

    def __bytes__(self) -> bytes:
        return self.said.encode() + b"\n"


def replies(program: Sequence[str], half: bool, sources: Sequence[bytes]) -> list[server.Reply | Ended]:
    """What the program answers to each of at most 256 sources, in one run; where it fails, in several."""
    try:
        return answered(program, half, sources)
    except server.ServerFailed as failed:
        if len(sources) == 1:
            return [Ended(str(failed))]
        middle = len(sources) // 2
        return replies(program, half, sources[:middle]) + replies(program, half, sources[middle:])


def answered(program: Sequence[str], half: bool, sources: Sequence[bytes]) -> list[server.Reply | Ended]:
    """What the program answers to each of at most 256 sources, in one run."""
    script = server.Script(half)
    asked: list[tuple[str, int]] = []
    for name, first in zip("abcdefghijklmnop", range(0, len(sources), EXPORTS)):
        client = script.client(name)
        for source in sources[first:first + EXPORTS]:
            client.source(source.split(b"\n")[:-1])
            asked.append((name, client.export()))
    [answers] = server.run([script], program)
    return [answers[name][at] for name, at in asked]


Planes = Sequence[Coefficients]


def in_general_position(planes: Planes, chance: Random, low: Sequence[float], high: Sequence[float]) -> Coordinates:
    """A point by chance in a box that is on none of these planes."""
    while True:
        w = chance.choice((997, 1009, 1013, 1019))
        x, y, z = (chance.randrange(math.floor(a * w), math.ceil(b * w) + 1) for a, b in zip(low, high))
        point = Coordinates(x, y, z, w)
        if all(value(m, point) != 0 for m in planes):
            return point


def face_point(boundary: fouroff.Boundary, face: Sequence[int], chance: Random) -> Coordinates:
    """A point inside a face by chance, in units."""
    corners = [boundary.corners[corner] for corner in face]
    weights = [chance.randrange(1, 1000) for _ in face]
    below = math.lcm(*(it[3] for it in corners))
    x, y, z = (sum(weight * it[i] * (below // it[3]) for weight, it in zip(weights, corners)) for i in range(3))
    return Coordinates(x, y, z, below * sum(weights))


def wrong_face(tree: Tree, planes: Planes, half: bool, boundary: fouroff.Boundary, at: int, chance: Random) -> str | None:
    """Why a face is not where the tree ends: it is tested at a point that is on exactly one plane of the tree, where one is
    found."""
    for _ in range(4):
        point = in_steps(half, face_point(boundary, boundary.faces[at], chance))
        on = [m for m in planes if value(m, point) == 0]
        if not on:
            return f"face {at} is on no plane of the tree"
        outwards = sum(a * b for a, b in zip(on[0][:3], boundary.planes[at][:3])) > 0
        n = on[0] if outwards else opposite_of(on[0])
        if is_on_one_face_plane(tree, n, point):
            return None if is_boundary_at(tree, n, point) else f"face {at} is not a boundary of the tree at {tuple(point)}"
    return None


def wrong_point(tree: Tree, planes: Planes, half: bool, boundary: fouroff.Boundary, crossings: Crossings,
                chance: Random) -> str | None:
    """Why a point by chance is inside the one and outside the other: near a corner of the text or a plane of the tree, or
    anywhere in a box round the text."""
    steps = 2 if half else 1
    centre = [chance.randrange(-8, 9) for _ in range(3)]
    if boundary.corners:
        *xyz, w = chance.choice(boundary.corners)
        centre = [steps * n // w for n in xyz]
    reach = chance.choice((1, 1, 3, 10))
    point = in_general_position(planes, chance, [it - reach for it in centre], [it + reach for it in centre])
    told = crossings.place([Fraction(n, point.w * steps) for n in point[:3]])
    if told == ON:
        return f"{tuple(point)} is on a face and on no plane of the tree"
    return None if (told == IN) == holds(tree, sides_of(point)) else f"{tuple(point)} is {told} of the text alone"


def wrong_solid(tree: Tree, half: bool, solid: server.Solid, chance: Random) -> str | None:
    """What differs between a tree and the text of its boundary."""
    boundary = fouroff.read(solid.text)
    if tree is nothing:
        return None if not boundary.faces else "the text has faces, and the tree is nothing"
    crossings, planes = Crossings(boundary), distinct_planes(planes_of(tree))
    faces = chance.sample(range(len(boundary.faces)), min(FACES, len(boundary.faces)))
    try:
        found = [wrong_face(tree, planes, half, boundary, at, chance) for at in faces]
        found += [wrong_point(tree, planes, half, boundary, crossings, chance) for _ in range(POINTS)]
    except NoBoundary as fault:
        return str(fault)
    return next((it for it in found if it is not None), None)


def difference(half: bool, source: bytes, reply: server.Reply | Ended, counts: Counter[str]) -> str | None:
    """What the model and the program say of a source, where they part. What they agree on is counted."""
    meaning = means(half, source)
    if isinstance(meaning, ModelFault):
        model = f"fault {meaning.at.line}:{meaning.at.column} {meaning.kind}"
        counts[meaning.kind] += 1
        return None if bytes(reply) == model.encode() + b"\n" else f"model {model}; program {_first_line(reply)}"
    if isinstance(reply, server.Complex):
        counts["complex"] += 1
        return None
    if not isinstance(reply, server.Solid):
        return f"model solid; program {_first_line(reply)}"
    counts["solid" if reply.faces else "empty"] += 1
    wrong = wrong_solid(meaning, half, reply, Random(len(source)))
    return None if wrong is None else f"solid: {wrong}"


def _first_line(reply: server.Reply | Ended) -> str:
    return bytes(reply).partition(b"\n")[0].decode()


def differences(program: Sequence[str], half: bool, sources: Sequence[bytes], counts: Counter[str]) -> Iterator[Difference]:
    for source, reply in zip(sources, replies(program, half, sources)):
        said = difference(half, source, reply, counts)
        if said is not None:
            yield Difference(half, source, said)


def shorter(source: bytes) -> Iterable[bytes]:
    """The source without some of its words, more of them first."""
    pieces = PIECES.findall(source[:-1])
    size = len(pieces) // 2
    while size:
        for at in range(0, len(pieces), size):
            yield b"".join(pieces[:at] + pieces[at + size:]) + b"\n"
        size //= 2


def smallest(program: Sequence[str], found: Difference) -> Difference:
    """A short source at which they part, from one at which they do."""
    while True:
        candidates = list(dict.fromkeys(it for it in shorter(found.source) if len(it) < len(found.source)))
        for at in range(0, len(candidates), EXPORTS):
            left = next(differences(program, found.half, candidates[at:at + EXPORTS], Counter()), None)
            if left is not None:
                found = left
                break
        else:
            return found


def batch(work: tuple[Sequence[str], int, int]) -> tuple[Counter[str], list[Difference]]:
    """What is counted of 256 sources of a seed and the number of a batch, and the first differences among them."""
    program, seed, number = work
    chance = Random(seed * 1_000_003 + number)
    half = chance.random() < 0.2
    sources = [made_by.source(chance) for _ in range(CLIENTS * EXPORTS)]
    counts: Counter[str] = Counter()
    gc.disable()
    found = with_deep_stack(lambda: list(differences(program, half, sources, counts)))
    smaller = [with_deep_stack(lambda: smallest(program, it)) for it in found[:3]]
    gc.collect()
    return counts, smaller


def tell(found: Sequence[Difference]) -> None:
    for it in found:
        print(f"{'half ' if it.half else ''}{it.said}\n{it.source.decode('utf-8', 'backslashreplace')}", flush=True)


class Stopped(Exception):
    """A signal that ends the run."""


def stop(number: int, _: object) -> None:
    """Ends the run at its first signal; what comes behind it is left out."""
    for it in (signal.SIGINT, signal.SIGTERM):
        signal.signal(it, signal.SIG_IGN)
    raise Stopped(signal.Signals(number).name)


def leave_to_parent() -> None:
    """A worker ends with the run, which ends it: a terminal gives Ctrl-C to both."""
    signal.signal(signal.SIGINT, signal.SIG_IGN)
    signal.signal(signal.SIGTERM, signal.SIG_DFL)


class Tally:
    """What agreed so far, by its kind, and how many sources differ."""

    def __init__(self, seed: int) -> None:
        self.seed = seed
        self.counts: Counter[str] = Counter()
        self.differing = 0

    def line(self) -> str:
        return f"{sum(self.counts.values())} sources that agree, seed {self.seed}; {self.differing} that differ"


def each_batch(asked: argparse.Namespace) -> Iterator[tuple[Counter[str], list[Difference]]]:
    """What is found in batches, until the time is over or there are no more."""
    until = time.monotonic() + asked.seconds
    numbers = itertools.count() if asked.batches is None else iter(range(asked.batches))
    with Pool(asked.jobs, leave_to_parent) as workers:
        while time.monotonic() < until:
            work = [(asked.server, asked.seed, number) for number in itertools.islice(numbers, asked.jobs * 4)]
            if not work:
                break
            yield from workers.imap_unordered(batch, work)


def compared(asked: argparse.Namespace, tally: Tally) -> None:
    """Compares, and counts in a tally, which is told from time to time."""
    then = time.monotonic() + asked.each
    for counted, found in each_batch(asked):
        tally.counts += counted
        tally.differing += len(found)
        tell(found)
        if time.monotonic() >= then:
            print(tally.line(), file=sys.stderr, flush=True)
            then = time.monotonic() + asked.each


def main(words: Sequence[str] | None = None) -> int:
    parser = argparse.ArgumentParser(description=__doc__.partition("\n")[0])
    parser.add_argument("seconds", type=float)
    parser.add_argument("seed", type=int)
    parser.add_argument("--jobs", type=int, default=os.cpu_count() or 1)
    parser.add_argument("--batches", type=int, help="at most this many, of 256 sources each")
    parser.add_argument("--each", type=float, default=60, help="tell the count after this many seconds, again and again")
    parser.add_argument("--server", nargs=1, default=server_of_environment())
    asked = parser.parse_args(words)
    tally, ended = Tally(asked.seed), ""
    for it in (signal.SIGINT, signal.SIGTERM):
        signal.signal(it, stop)
    try:
        compared(asked, tally)
    except Stopped as by:
        ended = f"; ended by {by}"
    print(", ".join(f"{count} {kind}" for kind, count in tally.counts.most_common()))
    print(tally.line() + ended)
    return 1 if tally.differing or not tally.counts or ended else 0


if __name__ == "__main__":
    sys.exit(main())
