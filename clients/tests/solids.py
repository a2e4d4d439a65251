"""Solids for tests: 4OFF texts made of faces, boxes, the texts in `examples/` and `gallery/`, and small slow checks."""

import glob
import os
import re
from fractions import Fraction
from math import lcm

from tests.calls import TOP

#: The empty solid.
EMPTY = b"4OFF\n0 0 0\n"

#: A cube of side 1 of which a corner is cut off, as the server prints it: two corners have thirds.
CUT_CUBE = b"""4OFF
9 7 0
0 0 0 1
0 1 0 1
1 1 0 1
1 0 0 1
1 0 1 1
0 0 1 1
0 1 1 1
3 1 3 3
3 3 1 3
4 0 1 2 3
4 0 3 4 5
4 0 5 6 1
3 6 7 8
5 3 2 8 7 4
4 1 6 8 2
4 5 4 7 6
"""


def off(faces):
    """The 4OFF text of faces, each a list of points of whole numbers or fractions."""
    vertices = {}
    lines = []
    for face in faces:
        numbers = [vertices.setdefault(point, len(vertices)) for point in face]
        lines.append(" ".join(map(str, [len(face), *numbers])))
    points = []
    for point in vertices:
        below = lcm(*(part.denominator for part in point))
        points.append(" ".join(str(part * below) for part in point) + f" {below}")
    return ("\n".join(["4OFF", f"{len(vertices)} {len(faces)} 0", *points, *lines]) + "\n").encode()


def box(low, high):
    """The six faces of a box: low x, high x, low y, high y, low z, high z."""
    (a, b, c), (x, y, z) = low, high
    return [
        [(a, b, c), (a, b, z), (a, y, z), (a, y, c)],
        [(x, b, c), (x, y, c), (x, y, z), (x, b, z)],
        [(a, b, c), (x, b, c), (x, b, z), (a, b, z)],
        [(a, y, c), (a, y, z), (x, y, z), (x, y, c)],
        [(a, b, c), (a, y, c), (x, y, c), (x, b, c)],
        [(a, b, z), (x, b, z), (x, y, z), (a, y, z)],
    ]


def split_box():
    """A box 2 x 1 x 1 whose top is two faces, so that two sides have a corner of the top inside an edge."""
    return box((0, 0, 0), (2, 1, 1))[:5] + [
        [(0, 0, 1), (1, 0, 1), (1, 1, 1), (0, 1, 1)],
        [(1, 0, 1), (2, 0, 1), (2, 1, 1), (1, 1, 1)],
    ]


def comb(teeth, y=0):
    """A bar from y to y + 3 with this many teeth, which begin at 0, 2, 4 and so on: 5 faces, and 6 for each tooth."""
    faces = box((0, y, 0), (2 * teeth, y + 3, 1))[:5]
    for left in range(0, 2 * teeth, 2):
        tooth = box((left, y, 1), (left + 1, y + 3, 3))
        faces += tooth[:4] + tooth[5:] + [box((left + 1, y, 0), (left + 2, y + 3, 1))[5]]
    return faces


def examples():
    """The 4OFF texts in the outputs of `examples/`, by the name of the file and the place in it."""
    texts = {}
    for path in sorted(glob.glob(os.path.join(TOP, "examples", "*.output"))):
        with open(path, "rb") as file:
            lines = file.read().split(b"\n")
        for at, line in enumerate(lines):
            reply = re.fullmatch(rb"[0-9]+ solid ([0-9]+)", line)
            if reply:
                texts[f"{os.path.basename(path)}:{at + 1}"] = b"\n".join(lines[at + 1 : at + 1 + int(reply[1])]) + b"\n"
    return texts


def gallery():
    """The 4OFF texts in `gallery/`, by the names of the parts."""
    texts = {}
    for path in sorted(glob.glob(os.path.join(TOP, "gallery", "*.4off"))):
        with open(path, "rb") as file:
            texts[os.path.basename(path)[: -len(".4off")]] = file.read()
    return texts


def point(corner):
    """A corner as three whole numbers or fractions."""
    x, y, z, w = corner
    return (x, y, z) if w == 1 else (Fraction(x, w), Fraction(y, w), Fraction(z, w))


def doubled_area(p, q, r):
    """Twice the area of a triangle of three points, as a vector that points to where it goes counterclockwise."""
    u = [b - a for a, b in zip(p, q)]
    v = [b - a for a, b in zip(p, r)]
    return (u[1] * v[2] - u[2] * v[1], u[2] * v[0] - u[0] * v[2], u[0] * v[1] - u[1] * v[0])


def is_inside_edge(p, q, x):
    """Whether the point x lies on the line from p to q, and strictly between them."""
    before, behind = [b - a for a, b in zip(p, x)], [b - a for a, b in zip(x, q)]
    return sum(a * b for a, b in zip(before, behind)) > 0 and not any(doubled_area(p, q, x))
