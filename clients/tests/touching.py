"""Solids for tests that touch themselves at edges and corners: chess boards, and tetrahedra of a grid put together by chance.
"""

from itertools import combinations, product

from tests.solids import box, off

#: A chess board, alone, on a plate and between two; its eight boxes are 10 x 10 x 5, and each plate is 40 x 40 x 2.
BOARD = "for (x=[0:3], y=[0:3]) if ((x+y) % 2 == 0) translate([10*x,10*y,0]) cube([10,10,5]);"
PLATE = "translate([0, 0, -2]) cube([40, 40, 2]);"
LID = "translate([0, 0, 5]) cube([40, 40, 2]);"


def board(plate=False, lid=False):
    """The 4OFF text of a chess board, on a plate, under a lid: faces of unit cells where solid ends."""

    def is_solid(x, y, z):
        inside = 0 <= x < 4 and 0 <= y < 4
        return inside and ((z == 1 and (x + y) % 2 == 0) or (plate and z == 0) or (lid and z == 2))

    heights = (-2, 0, 5, 7)
    faces = []
    for x, y, z in product(range(4), range(4), range(3)):
        if is_solid(x, y, z):
            sides = box((10 * x, 10 * y, heights[z]), (10 * x + 10, 10 * y + 10, heights[z + 1]))
            ways = [(-1, 0, 0), (1, 0, 0), (0, -1, 0), (0, 1, 0), (0, 0, -1), (0, 0, 1)]
            faces += [side for side, (a, b, c) in zip(sides, ways) if not is_solid(x + a, y + b, z + c)]
    return off(faces)


def tetrahedra(low, high):
    """The tetrahedra of the cells from low to high, whose sides are 2: 24 in each, that have its middle and two corners of
    an edge of it in common with a side's middle."""
    found = []
    for cell in product(*(range(first, end) for first, end in zip(low, high))):
        middle = tuple(2 * at + 1 for at in cell)
        for axis, step in product(range(3), (-1, 1)):
            side = tuple(at + step * (i == axis) for i, at in enumerate(middle))
            u, v = (i for i in range(3) if i != axis)
            rim = []
            for across, up in ((-1, -1), (1, -1), (1, 1), (-1, 1)):
                rim.append(tuple(at + across * (i == u) + up * (i == v) for i, at in enumerate(side)))
            found += [turned((middle, side, rim[i - 1], rim[i])) for i in range(4)]
    return found


def turned(corners):
    """The corners of a tetrahedron, from the first of which the others go clockwise."""
    p, q, r, s = corners
    u, v, w = ([b - a for a, b in zip(p, x)] for x in (q, r, s))
    volume = sum(u[i] * (v[(i + 1) % 3] * w[(i + 2) % 3] - v[(i + 2) % 3] * w[(i + 1) % 3]) for i in range(3))
    return (p, q, r, s) if volume > 0 else (p, r, q, s)


LOW, HIGH = (0, 0, 0), (2, 2, 1)


def some(rolled):
    """Some of the tetrahedra of four cells: single ones, or the four together that have a side's middle."""
    share = rolled.choice([0.15, 0.3, 0.5, 0.7])
    every = tetrahedra(LOW, HIGH)
    groups = [[it] for it in every] if rolled.random() < 0.4 else [every[at : at + 4] for at in range(0, len(every), 4)]
    return [it for group in groups if rolled.random() < share for it in group] or every[:1]


def faces_of(corners):
    """The faces of a tetrahedron, counterclockwise seen from outside."""
    p, q, r, s = corners
    return [(p, r, q), (p, q, s), (q, r, s), (r, p, s)]


def text_of(solid):
    """The 4OFF text of tetrahedra that have faces in common or none."""
    faces = {}
    for face in (face for it in solid for face in faces_of(it)):
        if frozenset(face) in faces:
            del faces[frozenset(face)]
        else:
            faces[frozenset(face)] = face
    return off(list(faces.values()))


def source_of(solid):
    """An OpenSCAD source of tetrahedra."""
    lines = []
    for it in solid:
        points = ", ".join(f"[{x}, {y}, {z}]" for x, y, z in it)
        lines.append(f"polyhedron([{points}], [[0, 1, 2], [0, 3, 1], [1, 3, 2], [2, 3, 0]]);\n")
    return "".join(lines)


def pieces(solid, common):
    """How many pieces tetrahedra make, of which those hang together that have this many corners in common."""
    above = list(range(len(solid)))

    def root(at):
        while above[at] != at:
            at = above[at]
        return at

    first = {}
    for at, it in enumerate(solid):
        for corners in combinations(sorted(it), common):
            above[root(at)] = root(first.setdefault(corners, at))
    return len({root(at) for at in range(len(solid))})


def around(solid):
    """The tetrahedra beside those of a solid, in it and round it."""
    kept = {frozenset(it) for it in solid}
    every = tetrahedra([at - 1 for at in LOW], [at + 1 for at in HIGH])
    return [it for it in every if frozenset(it) not in kept]


def parts_and_hollows(solid):
    """How many pieces a solid of tetrahedra has, and how many hollows are inside them. Where more than two of its faces meet
    in an edge, it is cut there, so the space around it hangs together there."""
    return pieces(solid, 3), pieces(around(solid), 2) - 1


def parts_and_spaces(solid):
    """How many pieces a solid of tetrahedra and the space around it have together, where none hangs together by an edge."""
    return pieces(solid, 3) + pieces(around(solid), 3)
