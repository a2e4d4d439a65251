"""What a program does that uses the package, for a checker of types: test_types.py has `mypy --strict` read it, and runs it."""

from __future__ import annotations

import sys
from fractions import Fraction
from pathlib import Path
from typing import Mapping, Sequence

import scadserve
from scadserve import Fault, Note, OutOfTime, Point, ServerFailed, Solid, Source, solve
from scadserve.server import Answers, Client, Limit, Reply, Script, run


def solids(sources: Sequence[Source], values: Mapping[str, object]) -> list[Solid]:
    """The solids of those sources that have one; each fault is told."""
    found: list[Solid] = []
    for it in solve(sources, definitions=values, folders=["lib"], workers=2, memo=1_000, time=60.0):
        if isinstance(it, Solid):
            found.append(it)
        else:
            print(it.word, it.file, it.line or 0, it.column or 0, it.message, file=sys.stderr)
    return found


def measures(solid: Solid) -> tuple[Fraction, Point, Point]:
    """The volume, and the corners of the box."""
    box = solid.box
    assert box is not None
    low, high = box
    assert solid.place([0, Fraction(1, 2), 0]) in ("in", "out", "on")
    assert all(len(triangle) == 3 for triangle in solid.triangles)
    return solid.volume, low, high


def noted(solid: Solid) -> list[str]:
    """The lines of notes."""
    notes: tuple[Note, ...] = solid.notes
    return [f"{it.file}:{it.line}:{it.column}: {it.text}" for it in notes]


def written(solid: Solid, path: Path) -> int:
    """How many bytes a file of it has."""
    return path.write_bytes(solid.mesh("3mf", unit=Fraction(1, 10), name="part"))


def answered(lines: list[bytes]) -> Reply:
    """The reply to an export of lines."""
    script = Script(half=True)
    client: Client = script.client("part")
    try:
        client.source(lines)
    except Limit as limit:
        raise SystemExit(limit.word) from None
    at = client.export()
    answers: list[Answers] = run([script])
    return answers[0]["part"][at]


def main(path: Path) -> None:
    """Solves a text, bytes and a file."""
    path.write_text("cube(w);")
    sources: list[Source] = ["cube([1, 2, w]);", b"cube(2.5);", path]
    try:
        for it in solids(sources, {"w": 3}):
            volume, _, (_, _, high) = measures(it)
            print(volume, high, noted(it), written(it, path.with_suffix(".3mf")) > 0)
    except OutOfTime as late:
        print(late.status)
    except (ServerFailed, scadserve.Malformed) as failed:
        print(failed)
    fault = solve(["cube(2.5);"])[0]
    print(fault.word if isinstance(fault, Fault) else fault.text, type(answered([b"cube(1);"])).__name__)


if __name__ == "__main__":
    main(Path(sys.argv[1]))
