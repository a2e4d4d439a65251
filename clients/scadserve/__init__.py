"""Solids of OpenSCAD sources, exactly. docs/PYTHON.md says all of it.

    from scadserve import Fault, Solid, solve

    for it in solve(["cube([1, 2, 3]);", "cube(2.5);"]):
        print(it.volume if isinstance(it, Solid) else it)

`scadserve.server` writes scripts of edits, shows and exports of several clients, and reads what they are answered.
"""

from __future__ import annotations

from typing import TYPE_CHECKING

if TYPE_CHECKING:
    from .server.failures import BadScript, BadWords, Malformed, NotStarted, OutOfMemory, OutOfTime, ReadFault
    from .server.failures import ServerFailed, WriteFault
    from .solving import Fault, Point, Solid, Source, solve
    from .source.notes import Note

__all__ = ["solve", "Solid", "Fault", "Note", "Point", "Source"]
__all__ += [
    "ServerFailed", "NotStarted", "BadWords", "BadScript", "ReadFault", "WriteFault", "OutOfMemory", "OutOfTime", "Malformed"
]


def __getattr__(name: str) -> object:
    """What `solving` has, and how servers fail, loaded only where it is asked for: the tools are quicker to start without."""
    if name not in __all__:
        raise AttributeError(f"module {__name__!r} has no attribute {name!r}")
    from . import solving
    from .server import failures

    return getattr(solving if hasattr(solving, name) else failures, name)
