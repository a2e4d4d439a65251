"""The formats in which a solid is had, by name: the ending of a file, and what it is called for the web."""

from __future__ import annotations

from typing import NamedTuple


class Format(NamedTuple):
    """A format: its ending and its media type."""

    ending: str
    media: str


#: `downloads` writes each of them. (It is loaded at the first download, so that the page is there the sooner.)
FORMATS = {
    "4off": Format(".4off", "model/vnd.4off"),
    "stl": Format(".stl", "model/stl"),
    "binstl": Format(".stl", "model/stl"),
    "off": Format(".off", "model/vnd.off"),
    "obj": Format(".obj", "model/obj"),
    "3mf": Format(".3mf", "model/3mf"),
    "svg": Format(".svg", "image/svg+xml"),
    "html": Format(".html", "text/html; charset=utf-8"),
}
