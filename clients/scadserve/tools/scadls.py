"""The tool scadls: a language server, which an editor starts and speaks with on standard input and output."""

from __future__ import annotations

import os
from typing import Sequence

from ..calls.asking import told
from ..calls.words import Words, reading_words, seconds_argument
from ..editor.checking import no_notes, notes
from ..editor.serving import Serving, Settings
from ..ending import ended
from ..server.processes import server_of_environment

TOOL = "scadls"
DESCRIPTION = (
    "Reports faults of OpenSCAD sources to an editor while you type, by the Language Server Protocol on standard input and "
    "output."
)
STATUSES = (
    "The status is 0 if the editor ended the conversation as the protocol requires, 1 if it broke off, and 2 if the words "
    "are wrong. SCADSERVE in the environment names a server to use in place of ./scadserve."
)


def parser() -> Words:
    """The words that there are."""
    words = Words(TOOL, DESCRIPTION, STATUSES)
    words.add_argument("--half", action="store_true", help="corners may lie at half units")
    reading_words(words)
    words.add_argument(
        "--seconds", type=seconds_argument, default=10.0, metavar="S", help="end an export after S seconds; default: 10"
    )
    words.add_argument(
        "--stdio", action="store_true", help="no effect; some editors give it to say that they use standard input and output"
    )
    return words


def main(words: Sequence[str]) -> int:
    """Does what the words of a call ask for, and gives its status."""
    return ended(lambda: told(TOOL, lambda: _do(words)))


def _do(words: Sequence[str]) -> int:
    asked = parser().parse_args(words)
    # Only the conversation has standard input and output: what else is printed is not a message.
    source, sink = open(os.dup(0), "rb"), open(os.dup(1), "wb")
    os.dup2(2, 1)
    folders = [os.path.abspath(it) for it in asked.folders]
    noted = no_notes if asked.no_notes else notes
    return Serving(source, sink, Settings(server_of_environment(), asked.half, asked.seconds, folders, noted)).run()
