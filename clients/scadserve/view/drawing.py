"""A solid as a drawing in SVG, with shaded faces and the solid's edges.

The solid is seen from far away, in parallel. Faces that look to the viewer are painted from the back to the front in an
exact order (`painter`), each plane's as one shape, so there are no lines between neighbours on one plane. Numbers
become floats when they are drawn, in tenths of a pixel.
"""

from __future__ import annotations

from html import escape
from math import cos, radians, sin
from typing import Callable, Sequence

from ..solid.closing import Ring
from ..solid.fouroff import Boundary, Corner, Plane
from ..solid.measures import direction
from .painter import Step, outline, painted, patches, visible

#: The view where none is asked for, in degrees.
VIEW = (30.0, 30.0)
# The view is this long, in whole numbers, so that the order of painting is exact.
_LENGTH = 1000000
_MARGIN = 12
_LINE, _SEAM = "#1d2b3a", 5
_LINE_WIDTH = 11
_DARK, _BRIGHT = (58, 96, 140), (226, 238, 250)
# To the left of the viewer and above: right, up and towards the viewer.
_LIGHT = (-0.36, 0.72, 0.59)

Direction = tuple[float, float, float]


class Camera:
    """Where the viewer is: `azimuth` degrees to the right of the front (from -y towards x), `elevation` degrees up."""

    def __init__(self, azimuth: float, elevation: float) -> None:
        across, up = radians(azimuth), radians(elevation)
        view = (sin(across) * cos(up), -cos(across) * cos(up), sin(up))
        #: To the viewer, in whole numbers.
        self.view = (round(view[0] * _LENGTH), round(view[1] * _LENGTH), round(view[2] * _LENGTH))
        self._towards = direction(self.view)
        self._right = direction((round(cos(across) * _LENGTH), round(sin(across) * _LENGTH), 0))
        self._up = _cross(self._towards, self._right)

    def project(self, point: Corner) -> tuple[float, float]:
        """How far a point is to the right and up, in units."""
        place = (point[0] / point[3], point[1] / point[3], point[2] / point[3])
        return _dot(place, self._right), _dot(place, self._up)

    def color(self, plane: Plane) -> str:
        """The colour of the faces on a plane, brighter the more they look to the light."""
        ahead = direction(plane)
        seen = (_dot(ahead, self._right), _dot(ahead, self._up), _dot(ahead, self._towards))
        light = min(1.0, max(0.0, 0.5 + 0.5 * _dot(seen, _LIGHT)))
        return "#" + "".join(f"{round(dark + (bright - dark) * light):02x}" for dark, bright in zip(_DARK, _BRIGHT))


def _dot(p: Direction, q: Direction) -> float:
    return p[0] * q[0] + p[1] * q[1] + p[2] * q[2]


def _cross(p: Direction, q: Direction) -> Direction:
    return (p[1] * q[2] - p[2] * q[1], p[2] * q[0] - p[0] * q[2], p[0] * q[1] - p[1] * q[0])


def drawing(boundary: Boundary, rings: Sequence[Ring], camera: Camera, width: int, title: str) -> str:
    """The drawing of a solid, whose faces go round these closed rings, as the text of an SVG file.

    It is this many pixels wide, and at most twice as tall.
    """
    order = painted(visible(patches(boundary, rings), camera.view), camera.view)
    places = [camera.project(corner) for corner in boundary.corners]
    left, right = min(x for x, _ in places), max(x for x, _ in places)
    low, high = min(y for _, y in places), max(y for _, y in places)
    scale = (10 * width - 2 * _MARGIN) / (max(right - left, (high - low) / 2) or 1.0)

    def pixel(corner: Corner) -> tuple[int, int]:
        """Where a corner is drawn, in tenths of a pixel."""
        x, y = camera.project(corner)
        return round(5 * width + (x - (left + right) / 2) * scale), round(_MARGIN + (high - y) * scale)

    tall = round((high - low) * scale) + 2 * _MARGIN
    lines = [
        f'<svg xmlns="http://www.w3.org/2000/svg" width="{width}" height="{-(-tall // 10)}" viewBox="0 0 {10 * width} {tall}">',
        f"<title>{escape(title)}</title>",
        f'<g fill="none" stroke="{_LINE}" stroke-width="{_LINE_WIDTH}" stroke-linejoin="round" stroke-linecap="round">',
    ]
    for patch in order:
        lines += paths(outline(patch), camera.color(patch.plane), pixel)
    return "\n".join(lines + ["</g>", "</svg>"]) + "\n"


def paths(loops: list[list[Step]], color: str, pixel: Callable[[Corner], tuple[int, int]]) -> list[str]:
    """The elements that paint the loops round the faces of one plane, without a line where a cut is."""
    filled = "".join(_path([pixel(corner) for corner, _ in loop]) + "z" for loop in loops)
    if not any(is_cut for loop in loops for _, is_cut in loop):
        return [f'<path fill="{color}" d="{filled}"/>']
    # A thin line in the same colour closes the seam to what was cut off.
    elements = [f'<path fill="{color}" stroke="{color}" stroke-width="{_SEAM}" d="{filled}"/>']
    drawn = "".join(_path([pixel(corner) for corner in line]) for loop in loops for line in _uncut(loop))
    return elements + ([f'<path d="{drawn}"/>'] if drawn else [])


def _uncut(loop: list[Step]) -> list[list[Corner]]:
    """The lines of a loop between its cuts."""
    start = next((i + 1 for i, (_, is_cut) in enumerate(loop) if is_cut), 0) % len(loop)
    lines: list[list[Corner]] = []
    on_line = False
    for corner, is_cut in loop[start:] + loop[:start] + loop[start : start + 1]:
        if on_line:
            lines[-1].append(corner)
        elif not is_cut:
            lines.append([corner])
        on_line = not is_cut
    return [line for line in lines if len(line) > 1]


def _path(pixels: list[tuple[int, int]]) -> str:
    """The way along these points as path data: the first as it is, and each other one from the one before."""
    text = f"M{pixels[0][0]} {pixels[0][1]}l"
    for (x, y), (ahead_x, ahead_y) in zip(pixels, pixels[1:]):
        text += f" {ahead_x - x} {ahead_y - y}"
    return text.replace("l ", "l").replace(" -", "-")
