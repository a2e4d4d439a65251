"""Boxes, polygons, extrusions and polyhedra, with what can be wrong with them: the crate `primitives`."""

from __future__ import annotations

from collections import Counter
from typing import NamedTuple, Sequence

from .int_transform import Affine, coordinate_list, image
from .plane_predicate import (
    Coefficients, Coordinates, are_collinear, grid_steps_per_unit, in_steps, inner_product, minor, opposite_of, plane_of_points,
    point_at, reduced, value)

Points = Sequence[Sequence[int]]
Faces = Sequence[Sequence[int]]


class Mesh(NamedTuple):
    """Points, and faces as lists of numbers of points, from 0."""

    points: Points
    faces: Faces


def triangle_in(points: Sequence[Coordinates]) -> tuple[Coordinates, Coordinates, Coordinates] | None:
    """Three points that are not on one line, where there are some: then there is a third for the first two different ones."""
    different = [p for p in points if p != points[0]]
    apart = next((r for r in different if not are_collinear(points[0], different[0], r)), None)
    return None if apart is None else (points[0], different[0], apart)


def points_of_faces(mesh: Mesh) -> list[Coordinates]:
    """The points that some face has."""
    return [point_at(mesh.points[i]) for i in sorted({i for face in mesh.faces for i in face})]


def has_none_ahead(m: Coefficients, points: Sequence[Coordinates]) -> bool:
    a, b, c, d = m
    for x, y, z, w in points:
        if a * x + b * y + c * z > d * w:
            return False
    return True


def plane_of_face(mesh: Mesh, face: Sequence[int], points: Sequence[Coordinates]) -> Coefficients | None:
    """The reduced plane that goes through the face's points and is turned so that none of these points is ahead of it."""
    corners = [point_at(mesh.points[i]) for i in face]
    triangle = triangle_in(corners)
    if triangle is None:
        return None
    m = reduced(plane_of_points(*triangle))
    turned = next((n for n in (m, opposite_of(m)) if has_none_ahead(n, points)), None)
    return turned if all(value(m, p) == 0 for p in corners) else None


def is_point_in_range(p: Sequence[int]) -> bool:
    """Coordinates at most 65,535 in size."""
    return max(map(abs, p)) <= 65535


def are_on_one_plane(points: Sequence[Coordinates]) -> bool:
    triangle = triangle_in(points)
    return triangle is None or all(value(plane_of_points(*triangle), p) == 0 for p in points)


def moved_mesh(m: Affine, mesh: Mesh) -> Mesh:
    """The shape with its points moved."""
    return Mesh([coordinate_list(image(m, point_at(p))) for p in mesh.points], mesh.faces)


def distinct_planes(planes: Sequence[Coefficients]) -> list[Coefficients]:
    """Of equal planes the first stays."""
    return list(dict.fromkeys(planes))


def planes_of(mesh: Mesh) -> list[Coefficients]:
    """The planes of the faces in order, of equal ones the first."""
    points = points_of_faces(mesh)
    planes = [plane_of_face(mesh, face, points) for face in mesh.faces]
    return distinct_planes([m for m in planes if m is not None])


def length_in_grid_steps(half: bool, side: int) -> int:
    return grid_steps_per_unit(half) * side


def is_even(half: bool, side: int) -> bool:
    """A side or height that has an even number of grid steps."""
    return length_in_grid_steps(half, side) % 2 == 0


def size_fault(half: bool, center: bool, sides: Sequence[int]) -> str | None:
    """The first fault of sides and heights: one is below 1; else one is centred and has an odd number of grid steps; else
    one has more than 2^53 - 1 grid steps."""
    if any(side < 1 for side in sides):
        return "BadSize"
    if center and not all(is_even(half, side) for side in sides):
        return "NotOnGrid"
    return "TooLarge" if any(length_in_grid_steps(half, side) > 9007199254740991 for side in sides) else None


def low_end(half: bool, center: bool, side: int) -> int:
    """Where a side or height begins, in grid steps: at 0, or where centred at minus one half of them."""
    return -(length_in_grid_steps(half, side) // 2) if center else 0


def high_end(half: bool, center: bool, side: int) -> int:
    return low_end(half, center, side) + length_in_grid_steps(half, side)


DirectedEdge = tuple[tuple[int, ...], tuple[int, ...]]


def edges_of_mesh_face(points: Points, face: Sequence[int]) -> list[DirectedEdge]:
    """The edges of a face, once round: none between equal points."""
    corners = [tuple(points[i]) for i in face]
    return [(p, q) for p, q in zip(corners, corners[1:] + corners[:1]) if p != q]


def all_edges(points: Points, faces: Faces) -> list[DirectedEdge]:
    return [edge for face in faces for edge in edges_of_mesh_face(points, face)]


def are_met_both_ways(edges: Sequence[DirectedEdge]) -> bool:
    """Each of some edges is met exactly once in its direction and exactly once in the other."""
    met = Counter(edges)
    return all(met[p, q] == 1 and met[q, p] == 1 for p, q in edges)


def is_clockwise(points: Points, face: Sequence[int], m: Coefficients) -> bool:
    """As seen from ahead of a plane no corner of a face is strictly to the left of an edge."""
    return all(inner_product(m, plane_of_points(point_at(p), point_at(q), point_at(points[i]))) <= 0
               for p, q in edges_of_mesh_face(points, face) for i in face)


def is_within_limits(points: Points, faces: Faces) -> bool:
    """At most 128 points, and at most 64 faces of at most 64 corners each."""
    return len(points) <= 128 and len(faces) <= 64 and all(len(face) <= 64 for face in faces)


def has_enough_corners(faces: Faces) -> bool:
    return len(faces) >= 4 and all(len(face) >= 3 for face in faces)


def are_corners_there(points: int, faces: Faces) -> bool:
    return all(i < points for face in faces for i in face)


def is_flat_face(points: Points, face: Sequence[int]) -> bool:
    """A face whose corners don't lie on one line, but on one plane."""
    corners = [point_at(points[i]) for i in face]
    return triangle_in(corners) is not None and are_on_one_plane(corners)


def has_outer_plane(mesh: Mesh, face: Sequence[int], points: Sequence[Coordinates]) -> bool:
    """A plane through a face, from ahead of which the face goes round clockwise, with no point of a face ahead."""
    m = plane_of_face(mesh, face, points)
    return m is not None and is_clockwise(mesh.points, face, m)


def is_convex_mesh(mesh: Mesh) -> bool:
    points = points_of_faces(mesh)
    return not are_on_one_plane(points) and all(has_outer_plane(mesh, face, points) for face in mesh.faces)


def polyhedron_of(half: bool, points: Points, faces: Faces) -> Mesh:
    """The points in grid steps, and the faces as they are listed."""
    return Mesh([coordinate_list(in_steps(half, point_at(list(p)))) for p in points], faces)


def polyhedron_fault(half: bool, points: Points, faces: Faces) -> str | None:
    """The fault of the first check that fails."""
    if not is_within_limits(points, faces):
        return "LongList"
    if not has_enough_corners(faces):
        return "FewPoints"
    if not are_corners_there(len(points), faces):
        return "BadPoint"
    if not all(map(is_point_in_range, points)):
        return "OutOfRange"
    mesh = polyhedron_of(half, points, faces)
    if not all(is_flat_face(mesh.points, face) for face in faces):
        return "NotFlat"
    if not are_met_both_ways(all_edges(mesh.points, faces)):
        return "NotClosed"
    return None if is_convex_mesh(mesh) else "NotConvex"


def orientation(p: Sequence[int], q: Sequence[int], r: Sequence[int]) -> int:
    """Above 0 where r lies strictly to the left of the way from p to q, and below 0 where it lies strictly to the right."""
    return minor(q[0] - p[0], q[1] - p[1], r[0] - p[0], r[1] - p[1])


def has_corner(points: Points) -> bool:
    """Three points that are not on one line."""
    different = [p for p in points if p != points[0]]
    return any(orientation(points[0], different[0], r) != 0 for r in different)


def goes_left(points: Points) -> bool:
    """No point lies strictly to the right of a way from a point to the next."""
    ways = [(x, y, u - x, v - y) for (x, y), (u, v) in zip(points, [*points[1:], points[0]])]
    return all(u * (b - y) >= v * (a - x) for x, y, u, v in ways for a, b in points)


def is_convex_polygon(points: Points) -> bool:
    return (goes_left(points) or goes_left(points[::-1])) and has_corner(points)


def square_of(half: bool, center: bool, size: Sequence[int]) -> Points:
    """The rectangle with these two sides, counterclockwise from the lowest corner on."""
    (a, c), (b, d) = ([end(half, center, side) for side in size] for end in (low_end, high_end))
    return [[a, c], [b, c], [b, d], [a, d]]


def polygon_of(half: bool, points: Points) -> Points:
    """Written points in grid steps."""
    return [[length_in_grid_steps(half, x), length_in_grid_steps(half, y)] for x, y in points]


def polygon_fault(half: bool, points: Points) -> str | None:
    """The first fault of written points: there are more than 64; else fewer than 3; else a coordinate is past 65535 in size;
    else they make no convex polygon."""
    if len(points) > 64:
        return "LongList"
    if len(points) < 3:
        return "FewPoints"
    if not all(map(is_point_in_range, points)):
        return "OutOfRange"
    return None if is_convex_polygon(polygon_of(half, points)) else "NotConvex"


def at_height(z: int, p: Sequence[int]) -> list[int]:
    return [p[0], p[1], z]


def prism_faces(points: Points) -> Faces:
    """The sides over the ways from a point to the next different one, then the low and the high end."""
    n = len(points)
    ways = [(i, (i + 1) % n) for i in range(n)]
    sides = [[i, j, n + j, n + i] for i, j in ways if points[i] != points[j]]
    return [*sides, list(range(n)), list(range(n, 2 * n))]


def prism_of(points: Points, low: int, high: int) -> Mesh:
    """The polygon moved along z between two heights: the points at the low end, then those at the high end."""
    return Mesh([at_height(z, p) for z in (low, high) for p in points], prism_faces(points))


def extrusion_of(half: bool, center: bool, points: Points, height: int) -> Mesh:
    return prism_of(points, low_end(half, center, height), high_end(half, center, height))


# The faces of a box by the corners round them: low x, high x, low y, high y, low z, high z.
box_faces = ((0, 2, 6, 4), (1, 3, 7, 5), (0, 4, 5, 1), (2, 6, 7, 3), (0, 1, 3, 2), (4, 5, 7, 6))


def cube_of(half: bool, center: bool, size: Sequence[int]) -> Mesh:
    """The box with these three sides: x changes first, then y, then z."""
    x, y, z = ((low_end(half, center, side), high_end(half, center, side)) for side in size)
    return Mesh([[a, b, c] for c in z for b in y for a in x], box_faces)
