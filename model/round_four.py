"""Circles and cylinders with four fragments: the crate `round_four`."""

from __future__ import annotations

from .primitives import Faces, Mesh, Points, at_height, high_end, is_even, length_in_grid_steps, low_end


def circle_points(r: int) -> Points:
    """The corners of a circle with four fragments about the origin, counterclockwise from the x axis on."""
    return [[r, 0], [0, r], [-r, 0], [0, -r]]


def circle_of(half: bool, radius: int) -> Points:
    return circle_points(length_in_grid_steps(half, radius))


def circle_fault(half: bool, radius: int) -> str | None:
    """The first fault of the radius of a circle: it is below 1; else it is past 65535 grid steps."""
    if radius < 1:
        return "BadSize"
    return "OutOfRange" if length_in_grid_steps(half, radius) > 65535 else None


def end_points(r: int, z: int) -> Points:
    """The corners of one end of a cylinder: those of its circle, or one apex where the radius is 0."""
    return [[0, 0, z]] if r == 0 else [at_height(z, p) for p in circle_points(r)]


# The faces between two circles: the sides over corners 0 to 1, 1 to 2, 2 to 3 and 3 to 0, then the low and the high end.
faces_of_two = ((0, 1, 5, 4), (1, 2, 6, 5), (2, 3, 7, 6), (3, 0, 4, 7), (0, 1, 2, 3), (4, 5, 6, 7))
# Those from a circle up to an apex: the sides in the same order, then the low end.
faces_to_apex = ((0, 1, 4), (1, 2, 4), (2, 3, 4), (3, 0, 4), (0, 1, 2, 3))
# Those from an apex up to a circle: the sides in the same order, then the high end.
faces_from_apex = ((0, 2, 1), (0, 3, 2), (0, 4, 3), (0, 1, 4), (1, 2, 3, 4))


def cylinder_faces(a: int, b: int) -> Faces:
    """The faces of a cylinder whose ends have the radii a and b: an end whose radius is 0 is not a face."""
    return faces_from_apex if a == 0 else faces_to_apex if b == 0 else faces_of_two


def cylinder_of(half: bool, center: bool, height: int, low: int, high: int) -> Mesh:
    """The cylinder with this height and these two radii in units."""
    a, b = length_in_grid_steps(half, low), length_in_grid_steps(half, high)
    ends = [*end_points(a, low_end(half, center, height)), *end_points(b, high_end(half, center, height))]
    return Mesh(ends, cylinder_faces(a, b))


def has_body(height: int, low: int, high: int) -> bool:
    """A height of at least 1, radii of at least 0, and not both of them 0."""
    return height >= 1 and low >= 0 and high >= 0 and (low, high) != (0, 0)


def cylinder_fault(half: bool, center: bool, height: int, low: int, high: int) -> str | None:
    """The first fault of a cylinder's sizes: they make no body; else the height is centred and odd in grid steps; else a
    radius or the height of an end is past 65535 grid steps in size."""
    if not has_body(height, low, high):
        return "BadSize"
    if center and not is_even(half, height):
        return "NotOnGrid"
    radii = [length_in_grid_steps(half, radius) for radius in (low, high)]
    sizes = [*radii, low_end(half, center, height), high_end(half, center, height)]
    return "OutOfRange" if max(map(abs, sizes)) > 65535 else None
