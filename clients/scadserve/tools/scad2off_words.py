"""The words of a call of scad2off."""

from __future__ import annotations

from argparse import Namespace
from typing import Sequence

from ..calls.words import Words, front_end_words, source_words, test_front_end, test_outs
from ..ending import BadCall

DESCRIPTION = "Prints the 4OFF text of the solid that an OpenSCAD source describes, or its first fault."
STATUSES = (
    "The status is 0 if all went well, 1 if a part has a fault, 2 if the words are wrong or a file can't be read or "
    "written, 6 if memory ran out, 125 if the server gave no answer, 127 if it does not start, 130 after Ctrl-C, and "
    "otherwise that of the server. SCADSERVE in the environment names a server to use in place of ./scadserve."
)
# What a file of another ending is, which no 4OFF text has.
OTHERS = {
    **dict.fromkeys([".stl", ".3mf", ".obj", ".off"], "off2stl makes such a file of one"),
    ".svg": "off2svg makes such a file of one",
    ".png": "off2svg makes a picture of one, as SVG",
    ".scad": "that is the ending of a source",
}


def parser() -> Words:
    """The words that there are."""
    words = Words("scad2off", DESCRIPTION, STATUSES)
    source_words(words, "text", ".4off")
    front_end_words(words)
    words.add_argument(
        "--allow-empty", action="store_true", help="accept a source whose solid is empty, and write the text of the empty solid"
    )
    words.add_argument("--script", action="store_true", help="print the script that would be sent to the server")
    words.add_argument(
        "--explain", metavar="WORD", help="explain the word of a fault, or the form of a note, with an example"
    )
    return words


def options_of(words: Sequence[str]) -> Namespace:
    """What these words ask for. Raises BadCall where they ask for nothing that can be done."""
    asked = parser().of_files(words)
    if asked.explain is not None:
        if asked.files:
            raise BadCall("--explain takes no FILE")
        return asked
    test_outs(asked, "a 4OFF text", OTHERS)
    test_front_end(asked)
    if asked.script and asked.folder is not None:
        raise BadCall("--script prints one script, so -d can't be given with it")
    if len(asked.files) > 1 and asked.folder is None and not asked.script:
        raise BadCall("several FILEs need -d DIR")
    return asked
