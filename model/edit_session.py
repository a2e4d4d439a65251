"""A client's session: its lines of source, and what each command does: the crate `edit_session`."""

from __future__ import annotations

from .script_reader import Bad, Command, Cut, Export, Put, Set, Show


class State:
    """The lines, how many shows were answered with a text, and how many exports were answered."""

    def __init__(self) -> None:
        self.lines: list[bytes] = []
        self.shows = 0
        self.exports = 0


def source_of(s: State) -> bytes:
    """The source of a session: its lines, each followed by a newline."""
    return b"".join(line + b"\n" for line in s.lines)


def refusal(s: State, command: Command) -> str | None:
    """Why a state refuses a command, if it does: the first of its reasons."""
    if isinstance(command, Put):
        if not 1 <= command.line <= len(s.lines) + 1:
            return "NoSuchLine"
        return "TooManyLines" if len(s.lines) == 4096 else None
    if isinstance(command, Set):
        return None if 1 <= command.line <= len(s.lines) else "NoSuchLine"
    if isinstance(command, Cut):
        return None if 1 <= command.start <= command.upto <= len(s.lines) else "NoSuchLine"
    if isinstance(command, Show):
        return "TooManyShows" if s.shows == 16 else None
    if isinstance(command, Export):
        return "TooManyExports" if s.exports == 16 else None
    assert isinstance(command, Bad)
    return "BadCommand"


def accept(s: State, command: Command) -> None:
    """The state after a command that is not refused."""
    if isinstance(command, Put):
        s.lines.insert(command.line - 1, command.text)
    elif isinstance(command, Set):
        s.lines[command.line - 1] = command.text
    elif isinstance(command, Cut):
        del s.lines[command.start - 1:command.upto]
    elif isinstance(command, Show):
        s.shows += 1
    elif isinstance(command, Export):
        s.exports += 1
