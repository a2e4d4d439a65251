"""What the tools that ask a server have in common, while nothing else of them is loaded."""

from __future__ import annotations

from argparse import Namespace
from typing import Callable

from ..ending import BAD_CALL, BadCall
from ..files import say
from ..server.failures import Malformed, ServerFailed
from ..server.processes import begin, end_begun, server_of_environment
from .words import say_bad

NO_ANSWER = 125


def told(tool: str, work: Callable[[], int]) -> int:
    """The status of a tool's work, with what is wrong with the whole call told."""
    try:
        return work()
    except BadCall as bad:
        say_bad(tool, bad)
        return BAD_CALL
    except ServerFailed as failed:
        from ..source.faults import STATUSES

        say(f"{tool}: {failed}{STATUSES.get(failed.status, '')}\n")
        return failed.status
    except Malformed as malformed:
        say(f"{tool}: the server's output is not an answer: {malformed}\n")
        return NO_ANSWER
    finally:
        # (one that was begun and then not asked)
        end_begun(server_of_environment())


def begin_server(asked: Namespace) -> None:
    """Begins the server that these words will ask, unless OpenSCAD is asked before."""
    if not asked.by_openscad:
        begin(server_of_environment(), ["--half"] * asked.half)
