"""Changes on disk: one thread looks at the folder while somebody listens, and wakes each listener at a change."""

from __future__ import annotations

import threading
from typing import NamedTuple, Sequence

from .folder import Folder, stamps

# Seconds between two looks.
_PAUSE = 0.25


class State(NamedTuple):
    """The marks of the folder's sources, and how often a library beside them has changed."""

    files: dict[str, str]
    libraries: int


class Watch:
    """What the folder and the libraries hold, as it was when it was last looked at."""

    def __init__(self, folder: Folder, libraries: Sequence[str]) -> None:
        self._folder, self._libraries = folder, list(libraries)
        self._changed = threading.Condition()
        self._listeners = 0
        self._state = State({}, 0)
        self._stamps: object = None
        threading.Thread(target=self._look_on, daemon=True).start()

    def __enter__(self) -> Watch:
        """Listens, from a look at the folder on."""
        self._look()
        with self._changed:
            self._listeners += 1
            self._changed.notify_all()
        return self

    def __exit__(self, *_: object) -> None:
        with self._changed:
            self._listeners -= 1

    def next_state(self, known: State | None, seconds: float) -> State:
        """What there is, once that is another state than the one that is known, or after this many seconds."""
        with self._changed:
            self._changed.wait_for(lambda: self._state != known, seconds)
            return self._state

    def _look_on(self) -> None:
        while True:
            with self._changed:
                self._changed.wait_for(lambda: self._listeners > 0)
            self._look()
            threading.Event().wait(_PAUSE)

    def _look(self) -> None:
        files, found = self._folder.files(), stamps(self._libraries)
        with self._changed:
            is_other = self._stamps is not None and found != self._stamps
            self._stamps = found
            state = State(files, self._state.libraries + is_other)
            if state != self._state:
                self._state = state
                self._changed.notify_all()
