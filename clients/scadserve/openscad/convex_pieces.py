"""Shapes in the plane: convex hulls, outlines cut into few convex pieces, and outlines with fewer corners.

Coordinates are whole: a caller that has others takes them in millionths first. No cut makes a corner, so pieces that touch have
whole sides in common: however corners are rounded afterwards, no gap opens between them.
"""

from __future__ import annotations

from typing import Callable, Iterable, Sequence

#: A point with whole coordinates.
Flat = tuple[int, int]
#: A closed line, as points in order.
Loop = list[Flat]


class NotSimple(ValueError):
    """A closed line crosses or touches itself or another one."""


def turn(o: Flat, a: Flat, b: Flat) -> int:
    """Above 0 where the way from o over a to b turns left, below 0 where it turns right, and else 0."""
    return (a[0] - o[0]) * (b[1] - o[1]) - (a[1] - o[1]) * (b[0] - o[0])


def area2(loop: Sequence[Flat]) -> int:
    """Twice the area, above 0 where the loop goes counterclockwise."""
    return sum(p[0] * q[1] - q[0] * p[1] for p, q in zip(loop, [*loop[1:], *loop[:1]]))


def hull(points: Iterable[Flat]) -> Loop:
    """The corners of the convex hull, counterclockwise; fewer than three where all points lie on one line."""
    different = sorted(set(points))
    if len(different) < 3:
        return different

    def half(ordered: Iterable[Flat]) -> Loop:
        chain: Loop = []
        for it in ordered:
            while len(chain) > 1 and turn(chain[-2], chain[-1], it) <= 0:
                chain.pop()
            chain.append(it)
        return chain[:-1]

    return half(different) + half(reversed(different))


def cleaned(loop: Sequence[Flat]) -> Loop:
    """The loop without points that are no corners of it: repeated ones, and those inside a straight way or at its end."""
    kept = list(loop)
    at = 0
    while len(kept) > 2 and at < len(kept):
        if turn(kept[at - 1], kept[at], kept[(at + 1) % len(kept)]) == 0:
            kept.pop(at)
            at = max(0, at - 2)
        else:
            at += 1
    return kept if len(kept) > 2 else []


def check_simple(loops: Sequence[Sequence[Flat]]) -> None:
    """Raises NotSimple where sides meet, but neighbours at their common corner; two loops may touch at corners of both."""
    sides = sorted(
        (min(p, q), max(p, q), number, at)
        for number, loop in enumerate(loops)
        for at, (p, q) in enumerate(zip(loop, [*loop[1:], *loop[:1]]))
    )
    open_sides: list[tuple[Flat, Flat, int, int]] = []
    for p, q, number, at in sides:
        open_sides = [it for it in open_sides if it[1][0] >= p[0]]
        low, high = min(p[1], q[1]), max(p[1], q[1])
        for r, s, other, place in open_sides:
            if max(r[1], s[1]) < low or min(r[1], s[1]) > high:
                continue
            size = len(loops[number])
            if _meet(p, q, r, s, other != number or (at - place) % size in (1, size - 1)):
                raise NotSimple
        open_sides.append((p, q, number, at))


def _meet(p: Flat, q: Flat, r: Flat, s: Flat, may_touch: bool) -> bool:
    """Whether two sides have a point in common, but for one end, where they may touch there."""
    common = {p, q} & {r, s}
    if common:
        at = min(common)
        a, b = (q if at == p else p), (s if at == r else r)
        ahead = (a[0] - at[0]) * (b[0] - at[0]) + (a[1] - at[1]) * (b[1] - at[1]) > 0
        return len(common) == 2 or not may_touch or (turn(at, a, b) == 0 and ahead)
    one, two, three, four = turn(p, q, r), turn(p, q, s), turn(r, s, p), turn(r, s, q)
    if one == two == three == four == 0:
        return max(min(p, q), min(r, s)) <= min(max(p, q), max(r, s))
    return min(one, two) <= 0 <= max(one, two) and min(three, four) <= 0 <= max(three, four)


def contains(loop: Sequence[Flat], point: Flat) -> bool | None:
    """Whether a point is inside a loop; None where it is on it."""
    inside = False
    for p, q in zip(loop, [*loop[1:], *loop[:1]]):
        side = turn(p, q, point)
        if side == 0 and min(p, q) <= point <= max(p, q) and min(p[1], q[1]) <= point[1] <= max(p[1], q[1]):
            return None
        if (p[1] > point[1]) != (q[1] > point[1]) and (side > 0) == (q[1] > p[1]):
            inside = not inside
    return inside


def nested(loops: Sequence[Loop]) -> list[tuple[Loop, list[Loop]]]:
    """Outlines with their holes, of loops that don't cross: what an odd number of loops encloses is inside."""
    ordered = sorted(loops, key=lambda it: -abs(area2(it)))
    depths: list[int] = []
    parents: list[int | None] = []
    for at, loop in enumerate(ordered):
        around = [other for other in range(at) if _is_within(loop, ordered[other])]
        depths.append(len(around))
        parents.append(around[-1] if around else None)
    found: dict[int, tuple[Loop, list[Loop]]] = {at: (loop, []) for at, loop in enumerate(ordered) if depths[at] % 2 == 0}
    for at, loop in enumerate(ordered):
        parent = parents[at]
        if depths[at] % 2 and parent is not None:
            found[parent][1].append(loop)
    return list(found.values())


def _is_within(loop: Loop, other: Loop) -> bool:
    """Whether a loop lies in another, which it doesn't cross."""
    for it in loop:
        inside = contains(other, it)
        if inside is not None:
            return inside
    # (all corners are on it: a point inside the loop decides)
    middles = [((p[0] + q[0]) // 2, (p[1] + q[1]) // 2) for p, q in zip(loop, loop[2:])]
    return any(contains(other, it) for it in middles)


def pieces(loop: Sequence[Flat], accepts: Callable[[Sequence[Flat]], bool] | None = None, are_wide: bool = False) -> list[Loop]:
    """Polygons, counterclockwise, that fill a simple loop without overlap: convex ones, or such as `accepts` tells; none where
    it has no area. They come of triangles that are as wide as can be where that is asked. Raises NotSimple where it can't be
    cut."""
    ring = cleaned(loop)
    if not ring:
        return []
    if area2(ring) < 0:
        ring.reverse()
    accepts = accepts or is_convex
    if accepts(ring):
        return [ring]
    cut = widened(ring, triangles(ring)) if are_wide else triangles(ring)
    parts = [[ring[it] for it in piece] for piece in _merged(ring, cut, accepts)]
    return [cleaned(it) for it in parts] if accepts is not is_convex else parts


def is_convex(ring: Sequence[Flat]) -> bool:
    """Whether a ring, counterclockwise, never turns right and goes round once."""
    return all(turn(ring[at - 2], ring[at - 1], ring[at]) >= 0 for at in range(len(ring))) and _goes_once(ring)


def goes_up_once(ring: Sequence[Flat]) -> bool:
    """Whether a ring goes up in one stretch and down in one."""
    ups = [q[1] > p[1] for p, q in zip(ring, [*ring[1:], *ring[:1]]) if q[1] != p[1]]
    return sum(1 for at in range(len(ups)) if ups[at] and not ups[at - 1]) == 1


def sides(ring: Sequence[Flat]) -> tuple[Loop, Loop]:
    """The right and the left side, from below up, of a ring, counterclockwise, that goes up once and down once."""
    size = len(ring)
    low, high = min(it[1] for it in ring), max(it[1] for it in ring)
    right = max((it for it in range(size) if ring[it][1] == low), key=lambda it: ring[it][0])
    top = max((it for it in range(size) if ring[it][1] == high), key=lambda it: ring[it][0])
    left = min((it for it in range(size) if ring[it][1] == high), key=lambda it: ring[it][0])
    end = min((it for it in range(size) if ring[it][1] == low), key=lambda it: ring[it][0])

    def way(first: int, last: int) -> Loop:
        return [ring[(first + it) % size] for it in range((last - first) % size + 1)]

    return way(right, top), way(left, end)[::-1]


def _goes_once(ring: Sequence[Flat]) -> bool:
    """Whether a ring that always turns left goes round once: its x falls in one stretch alone."""
    falls = [ring[at - 1][0] > ring[at][0] or (ring[at - 1][0] == ring[at][0] and ring[at - 1][1] > ring[at][1])
             for at in range(len(ring))]
    return sum(1 for at in range(len(ring)) if falls[at] and not falls[at - 1]) == 1


def triangles(ring: Sequence[Flat]) -> list[list[int]]:
    """Triangles of a simple ring, counterclockwise, by its corners' numbers, as ears are cut off. Raises NotSimple."""
    left = list(range(len(ring)))
    cut: list[list[int]] = []
    at = 0
    misses = 0
    while len(left) > 3:
        size = len(left)
        i, j, k = left[at - 1], left[at % size], left[(at + 1) % size]
        if turn(ring[i], ring[j], ring[k]) > 0 and not _holds(ring, left, i, j, k):
            cut.append([i, j, k])
            left.pop(at % size)
            at, misses = at % len(left), 0
            at = (at + 1) % len(left)  # (every second ear, which leaves triangles less thin)
        else:
            at, misses = (at + 1) % size, misses + 1
            if misses > size:
                raise NotSimple
    return [*cut, left]


def widened(ring: Sequence[Flat], parts: Sequence[list[int]]) -> list[list[int]]:
    """Triangles that fill the same as these: each two side by side have the other common side where one's circle has the
    other's corner inside it, so that they are as wide as can be (Lawson)."""
    found = [list(it) for it in parts]
    owner = {way: number for number, it in enumerate(found) for way in zip(it, it[1:] + it[:1])}
    waiting = list(owner)
    while waiting:
        u, v = waiting.pop()
        if (u, v) not in owner or (v, u) not in owner:
            continue
        one, two = owner[u, v], owner[v, u]
        a, b = (next(it for it in found[number] if it not in (u, v)) for number in (one, two))
        if _in_circle(*(ring[it] for it in (u, v, a, b))):
            found[one], found[two] = [u, b, a], [b, v, a]
            del owner[u, v], owner[v, u]
            for number in (one, two):
                it = found[number]
                owner.update((way, number) for way in zip(it, it[1:] + it[:1]))
            waiting += [(u, b), (b, v), (v, a), (a, u)]
    return found


def _in_circle(a: Flat, b: Flat, c: Flat, point: Flat) -> bool:
    """Whether a point is inside the circle of a triangle, which goes counterclockwise."""
    (ax, ay), (bx, by), (cx, cy) = ((it[0] - point[0], it[1] - point[1]) for it in (a, b, c))
    p, q, r = ax * ax + ay * ay, bx * bx + by * by, cx * cx + cy * cy
    return p * (bx * cy - by * cx) - q * (ax * cy - ay * cx) + r * (ax * by - ay * bx) > 0


def _holds(ring: Sequence[Flat], left: Sequence[int], i: int, j: int, k: int) -> bool:
    """Whether a triangle has another corner in it or on it."""
    a, b, c = ring[i], ring[j], ring[k]
    low_x, high_x = min(a[0], b[0], c[0]), max(a[0], b[0], c[0])
    for it in left:
        p = ring[it]
        if low_x <= p[0] <= high_x and it not in (i, j, k) and p not in (a, b, c):
            if turn(a, b, p) >= 0 and turn(b, c, p) >= 0 and turn(c, a, p) >= 0:
                return True
    return False


def _merged(
    ring: Sequence[Flat], parts: list[list[int]], accepts: Callable[[Sequence[Flat]], bool]
) -> list[list[int]]:
    """Joins pieces over their common sides, the longest first, where that leaves one that is accepted (Hertel and Mehlhorn)."""
    owner = {way: number for number, part in enumerate(parts) for way in zip(part, part[1:] + part[:1])}
    inner = [way for way in owner if way[0] < way[1] and way[::-1] in owner]

    def length(way: tuple[int, int]) -> int:
        p, q = ring[way[0]], ring[way[1]]
        return (p[0] - q[0]) ** 2 + (p[1] - q[1]) ** 2

    for u, v in sorted(inner, key=length, reverse=True):
        one, two = owner[u, v], owner[v, u]
        first, second = _from(parts[one], v), _from(parts[two], u)
        # (the first ends with u, the second with v)
        joined = first + second[1:-1]
        if accepts([ring[it] for it in joined]):
            parts[one], parts[two] = joined, []
            owner.update((way, one) for way in zip(joined, joined[1:] + joined[:1]))
    return [it for it in parts if it]


def _from(part: list[int], first: int) -> list[int]:
    at = part.index(first)
    return part[at:] + part[:at]


def simplified(loop: Sequence[Flat], most: float) -> tuple[Loop, float]:
    """The loop with fewer corners, each of its own, and how far those that are left out are at most, up to `most`.

    The corners that are farthest to the four sides stay (Douglas and Peucker's method, between these).
    """
    size = len(loop)
    if size <= 8 or most <= 0:
        return list(loop), 0.0
    numbers = range(size)
    kept = {pick(numbers, key=lambda it: (loop[it][axis], it)) for axis in (0, 1) for pick in (min, max)}
    waiting = list(zip(sorted(kept), [*sorted(kept)[1:], min(kept) + size]))
    off = 0.0
    while waiting:
        first, last = waiting.pop()
        ends = loop[first % size], loop[last % size]
        distance, far = max(((_distance(loop[it % size], *ends), it) for it in range(first + 1, last)), default=(0.0, first))
        if distance > most:
            kept.add(far % size)
            waiting += [(first, far), (far, last)]
        else:
            off = max(off, distance)
    return [loop[it] for it in sorted(kept)], off


def _distance(point: Flat, first: Flat, last: Flat) -> float:
    """How far a point is from the way between two others."""
    along, away = (last[0] - first[0], last[1] - first[1]), (point[0] - first[0], point[1] - first[1])
    square = along[0] ** 2 + along[1] ** 2
    part = min(1.0, max(0.0, (along[0] * away[0] + along[1] * away[1]) / square)) if square else 0.0
    return float(((away[0] - part * along[0]) ** 2 + (away[1] - part * along[1]) ** 2) ** 0.5)
