"""Points of the server's own solids: what off2in tells, beside the formulas of their sources and beside values by hand.

The sources are boxes and cylinders with four fragments, moved by whole numbers and joined by the three operations. A shape is
here a list of values of a point, one for each plane: all are above 0 inside, and none is 0 off all planes. So no shape, face or
way of the program or of the package is used to tell what is inside.
"""

import os
import random
import subprocess
import sys
import unittest
from fractions import Fraction
from itertools import product
from typing import NamedTuple

from scadserve import Solid, solve
from scadserve.solid.crossings import IN, ON, OUT
from tests import tool_case
from tests.calls import PROGRAM, TOP, needs_program

HALF, THIRD = Fraction(1, 2), Fraction(1, 3)


class Box(NamedTuple):
    """The points between two corners."""

    low: tuple[int, ...]
    high: tuple[int, ...]

    @property
    def around(self):
        return list(zip(self.low, self.high))

    @property
    def source(self):
        sides = [high - low for low, high in zip(self.low, self.high)]
        return f"translate({[*self.low]}) cube({sides});"

    def values(self, point):
        return [it for at, low, high in zip(point, self.low, self.high) for it in (at - low, high - at)]


class Cylinder(NamedTuple):
    """The points above the middle of the low end with |x| + |y| below the radius at their height, from low to high."""

    middle: tuple[int, ...]
    height: int
    low: int
    high: int

    @property
    def around(self):
        x, y, z = self.middle
        radius = max(self.low, self.high)
        return [(x - radius, x + radius), (y - radius, y + radius), (z, z + self.height)]

    @property
    def source(self):
        return f"translate({[*self.middle]}) cylinder(h={self.height}, r1={self.low}, r2={self.high}, $fn=4);"

    def values(self, point):
        x, y, z = (at - middle for at, middle in zip(point, self.middle))
        radius = self.low * (self.height - z) + self.high * z
        sides = [radius - self.height * (across * x + up * y) for across, up in product((-1, 1), repeat=2)]
        return [z, self.height - z, *sides]


class Join(NamedTuple):
    """Shapes or joins, joined by an operation."""

    operation: str
    parts: tuple

    @property
    def source(self):
        return f"{self.operation}() {{ {' '.join(it.source for it in self.parts)} }}"

    def values(self, point):
        return [value for it in self.parts for value in it.values(point)]


def is_inside(design, point):
    """Whether a point that is off all planes is inside, by the formula."""
    if not isinstance(design, Join):
        return min(design.values(point)) > 0
    found = [is_inside(it, point) for it in design.parts]
    if design.operation == "difference":
        return found[0] and not any(found[1:])
    return all(found) if design.operation == "intersection" else any(found)


def some_shape(rolled):
    """A box or a cylinder within 8 units of the origin, that has points near it."""
    if rolled.random() < 0.5:
        low = tuple(rolled.randrange(-3, 1) for _ in range(3))
        return Box(low, tuple(at + rolled.randrange(2, 7) for at in low))
    radii = rolled.choice([(2, 2), (4, 4), (2, 4), (5, 3), (5, 0), (0, 6)])
    return Cylinder((*(rolled.randrange(-1, 3) for _ in range(2)), rolled.randrange(-3, 1)), rolled.randrange(2, 7), *radii)


def some_design(rolled, depth=2):
    """A shape, or a join of designs."""
    if depth == 0 or rolled.random() < 0.2:
        return some_shape(rolled)
    operation = rolled.choice(["union", "union", "union", "difference", "difference", "intersection"])
    return Join(operation, tuple(some_design(rolled, depth - 1) for _ in range(rolled.randrange(2, 4))))


def shapes_of(design):
    """The shapes of a design."""
    return [shape for it in design.parts for shape in shapes_of(it)] if isinstance(design, Join) else [design]


def some_points(rolled, design, count):
    """Points in the boxes round the shapes of a design, and a little outside, that are off all planes."""
    found = []
    while len(found) < count:
        below = rolled.choice([2, 3, 5, 7, 12, 97])
        around = rolled.choice(shapes_of(design)).around
        point = tuple(Fraction(rolled.randrange(low * below - 3, high * below + 4), below) for low, high in around)
        if all(design.values(point)):
            found.append(point)
    return found


def solids(sources, **how):
    """The solids of sources, by the program."""
    found = solve(sources, server=(PROGRAM,), **how)
    for source, it in zip(sources, found):
        assert isinstance(it, Solid), (source, it)
    return found


# Sources, and points in the solid, on a face and out of it. A radius is that at the height of the point.
BY_HAND = [
    (
        "cylinder(h=4, r=3, $fn=4);",
        [(1, 1, 1), (3 * HALF, 1 + THIRD, 2), (-1, Fraction(-19, 10), 3)],  # |x| + |y| = 2, 17/6, 29/10
        [(3 * HALF, 3 * HALF, 2), (1, 1, 4), (0, 0, 0), (-3, 0, 1)],
        [(2, 2, 1), (1, 1, 5), (-2, 1 + Fraction(1, 100), 1)],
    ),
    (
        "cylinder(h=6, r1=3, r2=0, $fn=4);",  # (the radius is 3 - z/2)
        [(1, 0, 3), (0, 0, 5), (Fraction(7, 10), Fraction(7, 10), 3)],
        [(HALF, HALF, 4), (0, 0, 6), (3 * HALF, 0, 3)],
        [(1, 1, 3), (0, 0, 7), (THIRD, THIRD, 5)],
    ),
    (
        "difference() { cube(4); translate([2, 2, 0]) cylinder(h=4, r=1, $fn=4); }",
        [(HALF, HALF, 1), (2 + Fraction(3, 5), 2 + Fraction(3, 5), 1), (2, 1 - Fraction(1, 100), 3)],
        [(2 + HALF, 2 + HALF, 1), (1, 2, 3), (2 + Fraction(3, 5), 2 + Fraction(3, 5), 4), (0, 2, 2)],
        [(2, 2, 1), (2, 2, 4), (2, 2, 0), (2 + Fraction(2, 5), 2 - Fraction(2, 5), 3)],  # (nothing closes the hole)
    ),
    (
        "cube(2); translate([2, 2, 0]) cube(2);",  # (the edge from (2, 2, 0) to (2, 2, 2) is of both)
        [(1, 1, 1), (3, 3, 1), (2 - Fraction(1, 100), 2 - Fraction(1, 100), 1)],
        [(2, 2, 1), (2, 1, 1), (3, 2, 1), (2, 2, 2)],
        [(1, 3, 1), (3, 1, 1), (2 + Fraction(1, 100), 2 - Fraction(1, 100), 1)],
    ),
    (
        "cube(2); translate([1, 0, 0]) cube(2);",  # (no face is on the planes of x = 1 and x = 2)
        [(1, 1, 1), (2, 1, 1), (3 * HALF, HALF, THIRD)],
        [(3, 1, 1), (0, 1, 1), (2, 1, 2)],
        [(3 + THIRD, 1, 1), (1, 1, 3), (-1, 1, 1)],
    ),
    (
        "intersection() { cube(3); translate([3, 3, 0]) cylinder(h=3, r=3, $fn=4); }",
        [(2, 2, 1), (5 * HALF, 1, 1)],  # |x - 3| + |y - 3| = 2, 5/2
        [(3 * HALF, 3 * HALF, 1), (3, 1, 1)],
        [(1, 1, 1), (2, HALF, 1)],
    ),
    (
        "difference() { cube(6); translate([1, 1, 1]) cube(4); } translate([2, 2, 2]) cube(2);",
        [(HALF, 3, 3), (3, 3, 3), (5 + HALF, 5 + HALF, HALF)],
        [(1, 3, 3), (2, 3, 3), (6, 6, 6)],
        [(3 * HALF, 3, 3), (4 + HALF, 4 + HALF, 4 + HALF), (7, 3, 3)],
    ),
]


@needs_program
class ByHand(unittest.TestCase):
    def test_worked_values(self):
        for (source, *groups), solid in zip(BY_HAND, solids([it[0] for it in BY_HAND])):
            for place, points in zip((IN, ON, OUT), groups):
                self.assertEqual([solid.place(it) for it in points], [place] * len(points), f"{source} {place}")

    def test_worked_values_in_half_units(self):
        # (from -3/2 to 3/2, and the radius at the height z is 3/2 + z/3)
        [solid] = solids(["cylinder(h=3, r1=1, r2=2, center=true, $fn=4);"], half=True)
        points = [(x, y, z) for x, y in ((1, HALF), (1, 3 * HALF / 2), (1, 1)) for z in (3 * HALF / 2, 3 * HALF, -3 * HALF)]
        self.assertEqual([solid.place(it) for it in points], [IN, ON, OUT, ON, ON, OUT, OUT, ON, OUT])


@needs_program
class ByFormulas(tool_case.Case):
    def test_designs_by_chance(self):
        rolled = random.Random(19)
        designs = [some_design(rolled) for _ in range(48)]
        told = {IN: 0, OUT: 0}
        for design, solid in zip(designs, solids([it.source for it in designs])):
            for point in some_points(rolled, design, 40):
                place = IN if is_inside(design, point) else OUT
                self.assertEqual(solid.place(point), place, f"{design.source} {[*map(str, point)]}")
                told[place] += 1
        self.assertGreater(min(told.values()), 200, "so that both are told often")

    def test_the_tool_tells_the_same(self):
        rolled = random.Random(23)
        designs = [some_design(rolled) for _ in range(6)]
        for design, solid in zip(designs, solids([it.source for it in designs])):
            points = some_points(rolled, design, 30)
            words = [",".join(map(str, it)) for it in points]
            call = [sys.executable, "-S", os.path.join(TOP, "bin", "off2in"), self.file("a.4off", solid.text), *words]
            done = subprocess.run(call, capture_output=True, check=False)
            self.assertEqual((done.returncode, done.stderr), (0, b""), design.source)
            lines = [f"{word} {IN if is_inside(design, it) else OUT}" for word, it in zip(words, points)]
            self.assertEqual(done.stdout.decode().splitlines(), lines, design.source)


class Formulas(unittest.TestCase):
    """The formulas themselves, by hand."""

    def test_shapes(self):
        box = Box((-1, 0, 2), (1, 4, 3))
        self.assertEqual(box.source, "translate([-1, 0, 2]) cube([2, 4, 1]);")
        self.assertEqual(box.values((0, 1, 2 + HALF)), [1, 1, 1, 3, HALF, HALF])
        self.assertEqual(
            [is_inside(box, it) for it in ((HALF, 3, 2 + THIRD), (HALF, 3, 4), (2, 1, 2 + HALF))], [True, False, False]
        )
        cone = Cylinder((1, 1, 0), 6, 3, 0)
        self.assertEqual(cone.source, "translate([1, 1, 0]) cylinder(h=6, r1=3, r2=0, $fn=4);")
        # (six times: the radius at the height 3 is 3/2, and |x| and |y| are 1/2 and 1/3)
        self.assertEqual(sorted(cone.values((1 + HALF, 1 + THIRD, 3))), [3, 3, 4, 8, 10, 14])
        self.assertEqual(
            [is_inside(cone, it) for it in ((2, 1, 3), (2, 2, 3), (1, 1, 5), (1, 1, 7))], [True, False, True, False]
        )

    def test_joins(self):
        one, two = Box((0, 0, 0), (2, 2, 2)), Box((1, 0, 0), (3, 2, 2))
        points = [(x, 1, 1) for x in (HALF, 3 * HALF, 5 * HALF, 7 * HALF)]
        for operation, expected in (
            ("union", [True, True, True, False]),
            ("difference", [True, False, False, False]),
            ("intersection", [False, True, False, False]),
        ):
            join = Join(operation, (one, two))
            self.assertEqual([is_inside(join, it) for it in points], expected)
        self.assertEqual(Join("union", (one, two)).source, f"union() {{ {one.source} {two.source} }}")


if __name__ == "__main__":
    unittest.main()
