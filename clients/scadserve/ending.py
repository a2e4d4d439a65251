"""How the tools end: the statuses that they have in common, and what ends them from outside."""

from __future__ import annotations

import os
import signal
import sys
from typing import Callable, NoReturn

from .files import say

PART_FAULT, BAD_CALL, NO_MEMORY, INTERRUPTED, PIPE_CLOSED = 1, 2, 6, 130, 141


class BadCall(Exception):
    """Words that are wrong, or files that can't be read or written: each argument is a line that is said."""


def ended(tool: Callable[[], int]) -> int:
    """The status of a tool, which ends as by an exception at a signal too, so that no file is left half written.

    A signal that is ignored, as that of a closed terminal behind nohup, stays ignored.
    """
    interrupts: list[int] = []

    def interrupt(number: int, _frame: object) -> NoReturn:
        interrupts.append(number)
        raise KeyboardInterrupt

    is_ended = signal.getsignal(signal.SIGINT) is signal.SIG_DFL
    try:
        if is_ended:
            signal.signal(signal.SIGINT, interrupt)
        for number in (signal.SIGTERM, signal.SIGHUP):
            if signal.getsignal(number) is not signal.SIG_IGN:
                signal.signal(number, _end)
        return tool()
    except BrokenPipeError:
        return PIPE_CLOSED
    except KeyboardInterrupt:
        return INTERRUPTED
    except MemoryError:
        say(f"{os.path.basename(sys.argv[0])}: memory ran out\n")
        return NO_MEMORY
    except Exception:
        # (what an interrupt cuts off may end by another exception, as argparse does)
        if interrupts:
            return INTERRUPTED
        raise
    finally:
        # (what is left to do takes no time, and is not cut off with a traceback)
        if is_ended:
            signal.signal(signal.SIGINT, signal.SIG_DFL)


def _end(number: int, _frame: object) -> NoReturn:
    sys.exit(128 + number)
