"""How a run of the server fails."""

from __future__ import annotations


class ServerFailed(Exception):
    """The server ended with a status other than 0, after this output. 128 and a number stand for the signal that ended it."""

    def __init__(self, said: str, status: int, output: bytes = b"") -> None:
        super().__init__(said)
        self.status, self.output = status, output

    def __reduce__(self) -> tuple[object, ...]:
        return type(self), (str(self), self.status, self.output)


class NotStarted(ServerFailed):
    """The server could not be started."""


class BadWords(ServerFailed):
    """The words are none that the program knows."""


class BadScript(ServerFailed):
    """The bytes are no script; the output is the line of their first fault."""


class ReadFault(ServerFailed):
    """The server could not read its script."""


class WriteFault(ServerFailed):
    """The server could not write its output, which is not whole."""


class OutOfMemory(ServerFailed):
    """Memory ran out, and the output is not whole."""


class OutOfTime(ServerFailed):
    """The time was over, and the server was ended."""


class Malformed(Exception):
    """An output that can't be what the script is answered."""


#: What a status of the server stands for.
STATUSES = {2: BadWords, 3: BadScript, 4: ReadFault, 5: WriteFault, 6: OutOfMemory}
