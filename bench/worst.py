"""What worst.sh prints; its first word is the program. Sources that are made to cost much, in families of growing size.

    worst.py PROGRAM [--limit SECONDS] [--largest] [FAMILY ..]

A family is worth a look where its largest source takes more than some seconds, or where it grows faster than its text times
the turns that it takes: the growth is the exponent by which the time grows with the family's number.
"""

from __future__ import annotations

import argparse
import math
import subprocess
import sys
import time
from typing import Callable, NamedTuple, Sequence

#: A line of a source has at most this many bytes, so that its command fits a line of a script, and a script this many.
LINE, SCRIPT = 1000, 1_048_576
TETRAHEDRON = "F = [[0, 1, 2], [0, 3, 1], [1, 3, 2], [2, 3, 0]];"


class Family(NamedTuple):
    """What a family is for, its source by a number, and the numbers that are tried."""

    what: str
    source: Callable[[int], str]
    numbers: tuple[int, ...]


class Run(NamedTuple):
    """The seconds that a run took, None where it was ended, and the reply to the export."""

    seconds: float | None
    answer: str


def repeated(text: str, count: int, separator: str = " ") -> str:
    """A text this many times."""
    return separator.join([text] * count)


def numbered(text: str, count: int, separator: str = " ") -> str:
    """A text with each number from 0 in place of its `#`."""
    return separator.join(text.replace("#", str(it)) for it in range(count))


def entered(body: str, count: int) -> str:
    """A module with such a body that is entered this many times."""
    return f"module b() {{ {body} }} for (i = [1:{count}]) b();"


def zeros(count: int) -> str:
    """A list of this many zeros."""
    return f"[{repeated('0', count, ', ')}]"


def hulls(points: Sequence[tuple[int, int, int]], count: int) -> str:
    """This many hulls of points, of which the first four are a tetrahedron, one above another."""
    listed = ", ".join(f"[{x}, {y}, {z}]" for x, y, z in points)
    return f"P = [{listed}];\n{TETRAHEDRON}\nfor (i = [1:{count}]) translate([0, 0, 2 * i]) hull() polyhedron(P, F);"


def flat_points() -> list[tuple[int, int, int]]:
    """128 points, of which all but one lie on one plane."""
    return [(0, 0, 0), (200, 0, 0), (0, 200, 0), (50, 50, 1), *((it % 12, it // 12, 0) for it in range(1, 125))]


def round_points() -> list[tuple[int, int, int]]:
    """128 points of which few lie on one plane."""
    return [(0, 0, 0), (2, 0, 0), (0, 2, 0), (0, 0, 2), *((it, it**2 % 311, it**3 % 509) for it in range(1, 125))]


def grid_hulls(count: int) -> str:
    """This many hulls of 16 cubes each, which touch."""
    cubes = "for (i = [0:3], j = [0:3]) translate([i, j, 0]) cube(1);"
    return "\n".join(f"translate([0, 0, {3 * it}]) hull() {{ {cubes} }}" for it in range(count))


def spheres(count: int) -> str:
    """This many hulls of 16 cubes on a sphere."""
    found = []
    for number in range(count):
        cubes = []
        for ring in range(16):
            down, around = 0.2 + 0.17 * ring, 2.4 * ring + number
            x, y, z = math.cos(around) * math.sin(down), math.sin(around) * math.sin(down), math.cos(down)
            cubes.append(f"translate([{round(200 * x)}, {round(200 * y)}, {round(200 * z)}]) cube(1);")
        found.append(f"translate([{900 * (number % 4)}, 0, 0]) hull() {{ {' '.join(cubes)} }}")
    return "\n".join(found)


def crossing_prisms(count: int) -> str:
    """A block without this many slanted bars."""
    bars = []
    for it in range(count):
        x, y = 200 + 37 * it % 1500, 200 + 59 * it % 1500
        slant = f"multmatrix([[1, 0, {it % 5 - 2}, 0], [0, 1, {it % 7 - 3}, 0], [0, 0, 1, 0]])"
        bars.append(f"translate([{x}, {y}, -1]) {slant} cube([7, 7, 602]);")
    return f"difference() {{ cube([2000, 2000, 600]); {' '.join(bars)} }}"


def slanted_chain(count: int) -> str:
    """The union of this many slanted boxes."""
    boxes = []
    for it in range(count):
        rows = [
            [it % 5 + 2, it % 3, 1, 9 * it % 200],
            [1, it % 4 + 3, 2, 7 * it % 150],
            [2, 1, it % 6 + 2, 5 * it % 100],
        ]
        boxes.append(f"multmatrix({rows}) cube([30, 20, 10], false);")
    return f"union() {{ {' '.join(boxes)} }}"


def slabs(count: int) -> str:
    """The intersection of this many cubes."""
    cubes = [f"translate([{it}, {2 * it % 97}, {3 * it % 89}]) cube(2000);" for it in range(count)]
    return f"intersection() {{ {' '.join(cubes)} }}"


def holes(count: int) -> str:
    """A plate with the square of this many holes."""
    hole = f"for (i = [0:{count - 1}], j = [0:{count - 1}]) translate([9 * i + 2, 9 * j + 2, -1]) cube([4, 4, 3]);"
    return f"difference() {{ cube([4000, 4000, 1]); {hole} }}"


def grooves(count: int) -> str:
    """A cube with this many slits across each axis, which meet."""
    slits = [
        "translate([2 * i + 1, -1, -1]) cube([1, 602, 602]);",
        "translate([-1, 2 * i + 1, -1]) cube([602, 1, 602]);",
        "translate([-1, -1, 2 * i + 1]) cube([602, 602, 1]);",
    ]
    return f"difference() {{ cube([600, 600, 600]); for (i = [0:{count - 1}]) {{ {' '.join(slits)} }} }}"


def thrice(count: int) -> str:
    """A module that calls its children three times at each of this many depths."""
    body = "if (n > 0) m(n - 1) { children(); children(); children(); } else children();"
    return f"module m(n) {{ {body} }} m({count});"


def each_child(count: int) -> str:
    """A call of a module that asks for each of this many children by its index."""
    return f"module m() {{ for (i = [0:$children - 1]) children(i); }} m() {{ {repeated('if (false) ;', count)} }}"


def named_arguments(count: int) -> str:
    """This many calls with this many arguments by name."""
    parameters, arguments = numbered("p#", count, ", "), numbered("p#=0", count, ", ")
    return f"module m({parameters}) {{}} for (i = [1:{count}]) m({arguments});"


def outward_names(count: int) -> str:
    """This many assignments of a name from a thousand scopes outward."""
    return f"x = 1; for ({numbered('i# = [0:0]', 1000, ', ')}) {{ {numbered('a#=x;', count)} }}"


def loop_variables(count: int) -> str:
    """A loop of this many variables, each of which looks a name up from outside them all."""
    return f"x = 0; for ({numbered('i#=[x:x]', count, ', ')}) cube(1);"


def called_sum(count: int) -> str:
    """A function that is a long sum, and a tenth as many calls of it."""
    return f"function f() = {repeated('1', count, ' + ')}; for (i = [1:{count // 10}]) {{ a = f(); }}"


def carried_lists(count: int) -> str:
    """This many recursive calls that carry a long list."""
    return f"a = {zeros(4000)}; function f(n, v) = n == 0 ? v : f(n - 1, v); {numbered('x#=f(50, a);', count)}"


def deep_children(count: int) -> str:
    """This many calls whose children are called from 30 depths."""
    return f"module m(n) {{ if (n > 0) m(n - 1) children(); else children(); }} for (i = [1:{count}]) m(30) ;"


FAMILIES = {
    "children-idle": Family("`children` three times at each depth", thrice, (8, 10, 12)),
    "children-index": Family("`children(i)` for each child", each_child, (5000, 10000, 20000)),
    "block-entries": Family(
        "a module with n definitions, n times", lambda n: entered(numbered("function f#() = 0;", n), n), (5000, 10000, 20000)
    ),
    "block-empties": Family(
        "a module with n empty statements, n times", lambda n: entered(repeated(";", n), n), (10000, 20000, 40000)
    ),
    "block-skipped": Family(
        "a module with n marks `*`, n times", lambda n: entered(repeated("*cube();", n), n), (10000, 20000, 40000)
    ),
    "assigns": Family("n assignments, n / 4 times", lambda n: entered(numbered("v#=0;", n), n // 4), (2500, 5000, 10000)),
    "same-name": Family("n assignments of one name", lambda n: numbered("x=#;", n), (20000, 40000, 80000)),
    "names-outward": Family("names from a thousand scopes outward", outward_names, (5000, 10000, 20000)),
    "loop-variables": Family("a loop of n variables, a name outside each", loop_variables, (5000, 10000, 20000)),
    "sum": Family("a sum of n ones", lambda n: f"x = {repeated('1', n, ' + ')};", (50000, 100000, 200000)),
    "sum-called": Family("a sum of n ones, n / 10 times", called_sum, (5000, 10000, 20000)),
    "list-equal": Family(
        "n comparisons of a list of 4,000",
        lambda n: f"a = {zeros(4000)}; b = {repeated('a==a', n, ' && ')};",
        (5000, 10000, 20000),
    ),
    "list-add": Family("a sum of n such lists", lambda n: f"a = {zeros(4000)}; b = {repeated('a', n, ' + ')};", (6, 12, 24)),
    "list-carry": Family("such a list as an argument, 50 n times", carried_lists, (250, 500, 1000)),
    "text": Family(
        "n comparisons of a text of 900 bytes",
        lambda n: f"a = \"{'x' * 900}\"; {numbered('b#=a==a;', n)}",
        (10000, 20000, 40000),
    ),
    "named-args": Family("n arguments by name, n times", named_arguments, (500, 1000, 2000)),
    "deep-children": Family("children from 30 depths, n times", deep_children, (750, 1500, 3000)),
    "hull-plane": Family("n hulls of 128 points, 127 on one plane", lambda n: hulls(flat_points(), n), (1, 2, 4, 8, 128, 512)),
    "hull-round": Family("n hulls of 128 points, few on one plane", lambda n: hulls(round_points(), n), (1, 2, 4, 8, 128, 512)),
    "hull-grid": Family("n hulls of 16 cubes that touch", grid_hulls, (16, 32, 64)),
    "hull-sphere": Family("n hulls of 16 cubes on a sphere", spheres, (2, 4, 8)),
    "prisms-cross": Family("a block without n slanted bars", crossing_prisms, (40, 80, 160)),
    "slant-chain": Family("n slanted boxes", slanted_chain, (20, 40, 80)),
    "slabs": Family("the intersection of n cubes", slabs, (100, 200, 300)),
    "grid-holes": Family("a plate with n times n holes", holes, (10, 20, 31)),
    "thirds": Family("a cube with n slits across each axis", grooves, (8, 16, 32)),
}


def wrapped(text: str) -> list[str]:
    """A line as lines of a source that are short enough, broken at spaces."""
    found = []
    while len(text) > LINE:
        at = text.rindex(" ", 0, LINE)
        found.append(text[:at])
        text = text[at + 1 :]
    return [*found, text]


def script(source: str) -> str:
    """The script of one client that puts a source and exports it."""
    lines = [it for line in source.split("\n") for it in wrapped(line)]
    return "".join(f"a put {number} {line}\n" for number, line in enumerate(lines, 1)) + "a export\n"


def run(program: str, text: str, limit: float) -> Run:
    """What one worker makes of a script, within this many seconds."""
    began = time.monotonic()
    try:
        done = subprocess.run(
            [program, "run", "--workers", "1"], input=text.encode(), capture_output=True, timeout=limit, check=False
        )
    except subprocess.TimeoutExpired:
        return Run(None, f"more than {limit:g} s")
    return Run(time.monotonic() - began, answer(done.stdout, text.count("\n")) or f"status {done.returncode}")


def answer(replies: bytes, number: int) -> str:
    """The first words of the reply to the client's command of this number; "" where there is none."""
    for line in replies.split(b"\n"):
        words = line.decode("latin-1").split(" ")
        if words[0] == str(number) and len(words) > 1:
            return " ".join(words[1:5])
    return ""


def rows(program: str, name: str, limit: float) -> list[str]:
    """The rows of a family without its name, up to the first source that takes longer than the limit."""
    family, found = FAMILIES[name], []
    before: tuple[int, float] | None = None
    for number in family.numbers:
        text = script(family.source(number))
        done = run(program, text, limit)
        growth = ""
        if before and done.seconds:
            growth = f"{math.log(done.seconds / before[1]) / math.log(number / before[0]):.1f}"
        seconds = "" if done.seconds is None else f"{done.seconds:.2f}"
        found.append(f"{number} | {len(text)} | {seconds} | {growth} | {done.answer} |")
        if done.seconds is None:
            break
        before = number, max(done.seconds, 1e-4)
    return found


def main() -> int:
    """Prints the rows of the families that the words name, or of all."""
    parser = argparse.ArgumentParser(prog="worst", allow_abbrev=False)
    parser.add_argument("program")
    parser.add_argument("--limit", type=float, default=60.0, metavar="SECONDS")
    parser.add_argument("--largest", action="store_true")
    parser.add_argument("families", nargs="*", metavar="FAMILY")
    asked = parser.parse_intermixed_args()
    unknown = [it for it in asked.families if it not in FAMILIES]
    if unknown:
        parser.error(f"{unknown[0]} is not a family; there are {', '.join(FAMILIES)}")
    print("| Family | n | Bytes | s | Growth | Answer |\n|---|---|---|---|---|---|", flush=True)
    for name in asked.families or FAMILIES:
        for number, row in enumerate(rows(asked.program, name, asked.limit)[-1 if asked.largest else 0 :]):
            print(f"| {'' if number else f'`{name}`: {FAMILIES[name].what}'} | {row}", flush=True)
    return 0


if __name__ == "__main__":
    sys.exit(main())
