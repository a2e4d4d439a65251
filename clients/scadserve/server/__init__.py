"""The server's client: scripts, their runs, and the replies. docs/PYTHON.md has its public names."""

from __future__ import annotations

from importlib import import_module
from typing import TYPE_CHECKING

if TYPE_CHECKING:
    from .scripts import *  # noqa: F401,F403


def __getattr__(name: str) -> object:
    """What `scripts` has, which is loaded only where it is asked for: a server is begun without."""
    scripts = import_module(".scripts", __name__)
    if name != "__all__" and name not in scripts.__all__:
        raise AttributeError(f"module {__name__!r} has no attribute {name!r}")
    found: object = getattr(scripts, name)
    return found
