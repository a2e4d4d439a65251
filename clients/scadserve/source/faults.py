"""What the words of the server's answers mean, each in a line, with a line of cure; docs/FAULTS.md says more of each."""

from __future__ import annotations

import os
import re
from codecs import BOM_UTF8, BOM_UTF16_BE, BOM_UTF16_LE
from fractions import Fraction

from ..top import TOP

BYTE_ORDER_MARK = "a byte order mark"
DOCUMENT = os.path.join(TOP, "docs", "FAULTS.md")

PAGE = "docs/OPENSCAD.md says what there is, and what to write instead"

PARAMETERS_PAGE = "docs/LANGUAGE.md has the parameters of each module in order"
NO_TYPE = 'is_num, is_list and is_undef ask for it before; "4" is a text, and 4 a number'

# Of each kind of fault what is wrong, in which {} stands for the token at its place, and its cure.
FAULTS: dict[str, tuple[str, str]] = {
    "BadCharacter": (
        "{} can't stand here", "any byte may stand in comments; all else is plain ASCII, without a byte order mark"
    ),
    "OpenComment": ("this comment is not closed", "close it by */"),
    "OpenText": ("this text is not closed on its line", 'close it by " on the same line'),
    "NotWhole": ("{} is not a whole number", "write lengths in tenths, 25 for 2.5, and print by off2stl --unit 1/10"),
    "TooLarge": ("{} is past 2^53 - 1", "use smaller numbers: coordinates end at 4,095"),
    "TypeMismatch": ("a value of another type is expected at {}", PAGE),
    "ZeroDivisor": ("a division by 0", "test the divisor first: b == 0 ? 0 : a / b"),
    "BadSize": (
        "a side, a height or a radius is below 1", "leave out shapes without a size, as in if (w > 2 * t) cube(w - 2 * t);"
    ),
    "NotOnGrid": ("corners of a centred shape would lie between whole numbers", "make its sides even, or use --half"),
    "OutOfRange": (
        "a coordinate of {} is past 4,095, or with --half past 2,047",
        "move it to the middle, or make several parts of it: this is the room to each side of the origin",
    ),
    "FewPoints": ("too few points or faces", "a polygon has 3 points at least, and a polyhedron 4 faces of 3 corners"),
    "BadPoint": ("a face names a point that is not there", "points are numbered from 0"),
    "NotFlat": ("the points of a face lie on one line, or not on one plane", "divide that face into triangles"),
    "NotConvex": (
        "this shape is not convex, or its faces are turned inside out",
        "join convex shapes by union; corners of a polyhedron's faces go clockwise as seen from outside",
    ),
    "NotClosed": ("these faces do not close a body", "each edge belongs to two faces, once in each direction"),
    "Expected": ("{} can't follow what stands before it", "look before it: often a ; or a closing bracket is missing there"),
    "Nested": ("brackets, bodies and signs are nested more than 64 deep", "give inner parts names, as variables or modules"),
    "UnknownName": ("{} has no value here", "assign it before this place, in the same scope or in one around it"),
    "UnknownFunction": ("there is no function {}", PAGE),
    "UnknownModule": ("there is no module {}", PAGE),
    "BadArgument": ("an argument is surplus, unknown, given twice or missing", PAGE),
    "TooDeep": (
        "calls are nested more than 64 deep, or evaluations more than 512",
        "let the recursion end sooner, or use a for loop",
    ),
    "TooManyTurns": ("loops, calls and lists take more than 100,000 turns", "make several parts of it, or shorter ranges"),
    "RangeOrder": ("this range ends before it starts, or its step is 0", "write the step: [5 : -1 : 1]"),
    "AssertFailed": ("this assertion does not hold", "its condition says what the part needs"),
    "NotInProfile": ("{} is left out of this profile of OpenSCAD", PAGE),
    "WrongDimension": (
        "a flat shape stands where a solid is wanted, or a solid where a flat shape is",
        "linear_extrude(1) makes a solid of flat shapes, and takes only flat shapes",
    ),
    "NotQuarter": ("the angle is not a multiple of 90", "turn by quarters, or by a multmatrix of whole numbers"),
    "Singular": ("this transform would flatten space", "no factor may be 0, nor a matrix's determinant"),
    "TooManyParts": ("more than 1,024 shapes", "make several parts of it"),
    "TooManyPlanes": ("the part has more than 1,024 distinct planes", "make several parts of it"),
    "LongList": ("a list is too long, or lists are nested too deep", "docs/FAULTS.md has each list's limits"),
}

# What is wrong where the profile has a word in other forms alone, and the cures.
OTHER_FORM = "this form of {} is left out of this profile of OpenSCAD"
ROUND = "give r, and $fn = 4 for a square on its corner; docs/OPENSCAD.md has a prism with twelve corners"
FORMS: dict[str, str] = {
    **dict.fromkeys(["circle", "cylinder"], ROUND),
    **dict.fromkeys(["for", "function", "linear_extrude", "mirror", "polygon", "rotate"], PAGE),
    "hull": "a hull takes only unions: make its cuts outside it, as in difference() { hull() .. }",
}
# A number of a `multmatrix` is this at most; the modules that move points; and those that have lengths.
MOST_FACTOR = 65_535
MOVES = {"translate", "scale", "rotate", "mirror"}
SHAPES = {"cube", "cylinder", "square", "circle", "polygon", "polyhedron", "linear_extrude"}
# The cures of a division that does not come out even, and of a number with an exponent.
EVEN = "count in tenths, 70 / 2 for 7 / 2, or drop the rest: (w - w % 2) / 2"
PLAIN = "write numbers without an exponent, 10 for 1e1"

# The cures of a number that makes shapes overlap, and of what an editor writes before the first line.
OVERLAP = "leave it out: touching faces are exact, and need no overlap"
NO_MARK = "save without it, as plain text in UTF-8"

# The cure of a letter behind a number, as in 0x10 and 3d_part.
NAMED = "names begin with a letter or _, and numbers have only decimal digits"

# Of the limits that are tested before a source is sent, and of what a session or a script is told.
LIMITS: dict[str, tuple[str, str]] = {
    "TooLong": ("a line of a source has at most 1,016 bytes", "break the line, at any blank"),
    "TooManyLines": ("a source has at most 4,096 lines", "join lines, or make several parts of it"),
    "TooLarge": ("the source fills more than a script's 1 MiB", "make several parts of it"),
    "NoSuchLine": ("the source has no such line", "lines are numbered from 1"),
    "TooManyShows": ("a client's lines are shown at most 16 times", "use another client"),
    "TooManyExports": ("a client exports 16 times at most", "use another client"),
    "BadCommand": ("this is not a command", "docs/SPECIFICATION.md has the commands"),
    "NoName": ("a line begins with no client's name", "names have 1 to 16 of a to z and 0 to 9"),
    "TooManyClients": ("a script has at most 16 clients", "use several scripts"),
    "TooManyCommands": ("a client has at most 8,192 commands", "use several clients"),
}

# Of the files that sources include and use.
FILES: dict[str, tuple[str, str]] = {
    "NoFile": ("there is no such file", "it is looked for in the folder of its source, in those of -I and of OPENSCADPATH"),
    "Ring": ("this file is being read already", "put what both files need into a third one"),
    "TooManyFiles": ("more than 1,024 files, or files nested more than 64 deep", "join some of them"),
    "TooLarge": ("with this file the source is more than a script's 1 MiB", "make several parts of it"),
    "OpenComment": FAULTS["OpenComment"],
    "BadUnit": (
        "{} is not a number above 0 like 2, 25.4 or 1/10", "write // unit: 1/10 once, in millimetres, or call with --unit 1/10"
    ),
}

# Of solids that pass a limit, by its kind.
CUTS = "make several parts of it, or let fewer cuts cross all of it: one bar makes one cut, many boxes make many"
FACES = "make several parts of it, or let fewer shapes cross one another"
COMPLEX: dict[str, tuple[str, str]] = {
    "solid": ("one of its unions, differences or intersections grows past 50,000 pieces and their edges", CUTS),
    "sum": ("its unions, differences and intersections grow past 500,000 pieces and their edges together", CUTS),
    "facets": ("it has more than 20,000 faces", FACES),
    "corners": ("its faces have more than 200,000 corners", FACES),
    "vertices": ("it has more than 60,000 vertices", FACES),
}

# Of statuses with which the server fails.
STATUSES: dict[int, str] = {
    2: ", since it does not know these words",
    3: ", since what it was sent is not a script",
    4: ", since it could not read what it was sent",
    5: ", since it could not write its output",
    6: ", since memory ran out: convert fewer files at once",
    125: ", without an answer",
}

NO_MEMORY = ("memory ran out", "convert fewer files at once")
EMPTY = (
    "this source makes no solid at all",
    "look for a * or %, an if, or a difference that leaves nothing; or use --allow-empty",
)

TOKEN = re.compile(
    rb"(?:[0-9]+\.?[0-9]*|\.[0-9]+)(?:[eE][+-]?[0-9]+)?"  # a numeral
    rb"|\$?[A-Za-z_][A-Za-z0-9_]*"  # a name
    rb'|"(?:\\.|[^"\\])*"?'  # a text
    rb"|[<>=!]=|&&|\|\||[\x80-\xff]+|.",  # a symbol, or what is none
    re.DOTALL,
)


def cure_by_openscad(word: str, cure: str) -> str:
    """The cure of a fault, with the way that OpenSCAD's front end is where the profile's limits are the cause."""
    return f"{cure}; or let OpenSCAD evaluate it: --by-openscad" if word in (
        "NotWhole", "NotInProfile", "UnknownFunction"
    ) else cure


def what_is_wrong(word: str, line: bytes | None, column: int) -> tuple[str, str]:
    """What a fault of this kind says is wrong at a byte of a source's line, from 1, and its cure. No line: at the end."""
    said, cure = FAULTS.get(word, (word, PAGE))
    if line is None:
        return "the source ends in the middle of a statement" if word == "Expected" else said.format("the end"), cure
    shown = _token(line, column)
    if word == "NotInProfile" and shown in FORMS:
        return OTHER_FORM.format(shown), FORMS[shown]
    if word == "TooLarge" and not re.match(r"[0-9.]", shown):
        return _too_large(shown, line[column:]), cure
    if word == "NotWhole" and not re.match(r"[0-9.]", shown):
        return said.format(f"what {shown} gives"), EVEN
    if word == "NotWhole" and "e" in shown.lower():
        return said.format(shown), PLAIN
    if word == "NotWhole" and Fraction(shown) < Fraction(1, 10):
        return said.format(shown), OVERLAP
    if word == "BadCharacter" and shown == BYTE_ORDER_MARK:
        return said.format(shown), NO_MARK
    if word == "BadCharacter" and re.match(r"[A-Za-z_]", shown):
        return said.format(shown), NAMED
    return said.format(shown), cure


def _too_large(shown: str, behind: bytes) -> str:
    """What is said of a number that is too large at a token which is none, with what stands behind that on its line."""
    if shown == "multmatrix":
        number = next((it.decode() for it in re.findall(rb"-?[0-9]+", behind) if abs(int(it)) > MOST_FACTOR), None)
        what = f"{number} in multmatrix" if number else "a factor of multmatrix"
        return f"{what} is past {MOST_FACTOR:,}" + ("" if number else ", or a move past 2^53 - 1 grid steps")
    if shown in MOVES:
        return f"what {shown} moves a point to is past 2^53 - 1 grid steps"
    return f"a length of {shown} is past 2^53 - 1 grid steps" if shown in SHAPES else f"what {shown} gives is past 2^53 - 1"


def _token(line: bytes, column: int) -> str:
    """What a message calls the token at a byte of a line, from 1."""
    token = TOKEN.match(line, column - 1)
    if token is None:
        return "this"
    if token[0].startswith((BOM_UTF8, BOM_UTF16_LE, BOM_UTF16_BE)) and column == 1:
        return BYTE_ORDER_MARK
    return printable(token[0] if len(token[0]) <= 40 else token[0][:40] + b"..")


def printable(text: bytes) -> str:
    """A text as a terminal shows it: what is no UTF-8 and control characters but tabs as escapes."""
    shown = text.decode("utf-8", "backslashreplace")
    return "".join(it if it == "\t" or it.isprintable() else it.encode("unicode_escape").decode() for it in shown)


def excerpt(line: bytes, column: int) -> str:
    """The part of a line that is near to a byte of it, from 1, and a line with a caret below that byte; its beginning alone
    where the byte is 0, which is none."""
    if column == 0:
        return f"    {printable(line[:120].rstrip())}\n"
    first = max(0, column - 61)
    before, after = printable(line[first : column - 1]), printable(line[column - 1 : column + 59].rstrip(b"\r"))
    below = "".join(it if it == "\t" else " " for it in before)
    return f"    {before}{after}\n    {below}^\n"


def explanation(word: str, document: str = DOCUMENT) -> str | None:
    """The section of a document that has this word as its heading; None where there is none. Raises OSError."""
    with open(document, encoding="utf-8") as it:
        sections = re.split(r"^(?=## )", it.read(), flags=re.MULTILINE)
    for section in sections:
        heading, _, _ = section.partition("\n")
        if heading.startswith("## ") and heading[3:].strip().casefold() == word.casefold():
            return section.rstrip() + "\n"
    return None
