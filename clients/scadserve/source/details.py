"""Which one of its causes a fault has, found by reading the source at its place: BadArgument, TypeMismatch, AssertFailed."""

from __future__ import annotations

import difflib
import re
from typing import NamedTuple

from .faults import NO_TYPE, PARAMETERS_PAGE, printable
from .structure import FUNCTION, MODULE, Call, Span, Structure

#: The parameters of each built-in module, in order, as docs/LANGUAGE.md has them; `echo` takes any.
PARAMETERS: dict[bytes, list[bytes]] = {
    name.encode(): words.encode().split()
    for name, words in {
        "cube": "size center",
        "polyhedron": "points faces convexity",
        "cylinder": "h r1 r2 center r d d1 d2",
        "square": "size center",
        "polygon": "points paths convexity",
        "circle": "r d",
        "linear_extrude": "height center convexity twist scale slices",
        "translate": "v",
        "rotate": "a v",
        "mirror": "v",
        "scale": "v",
        "multmatrix": "m",
        **dict.fromkeys(["union", "difference", "intersection", "hull"], ""),
        "color": "c alpha",
        "render": "convexity",
        "assert": "condition message",
        "children": "index",
    }.items()
}
#: Those that must be given.
NEEDED: dict[bytes, list[bytes]] = {
    b"polyhedron": [b"points", b"faces"],
    b"polygon": [b"points"],
    b"linear_extrude": [b"height"],
    **{name: PARAMETERS[name][:1] for name in (b"translate", b"rotate", b"mirror", b"scale", b"multmatrix", b"assert")},
}
#: How many arguments each built-in function takes; None where that is one or more.
COUNTS: dict[bytes, int | None] = {
    **dict.fromkeys([b"abs", b"sign", b"floor", b"ceil", b"round", b"len"], 1),
    **dict.fromkeys([b"is_undef", b"is_num", b"is_bool", b"is_list"], 1),
    b"pow": 2,
    b"min": None,
    b"max": None,
}
#: Of which kind the values are that modules, functions and operators want.
WANTED: dict[str, str] = {
    "cube": "as size a number or a list of 3 numbers, and as center true or false",
    "square": "as size a number or a list of 2 numbers, and as center true or false",
    "cylinder": "as h, r, r1 and r2 numbers, as $fn too, and as center true or false",
    "circle": "as r a number, and as $fn too",
    "polyhedron": "as points lists of 3 numbers, and as faces lists of numbers of points",
    "polygon": "as points lists of 2 numbers",
    "linear_extrude": "as height a number, and as center true or false",
    "translate": "a list of 2 or 3 numbers",
    "mirror": "a list of 2 or 3 numbers",
    "rotate": "a number, or a list of 3 numbers",
    "scale": "a number, or a list of 2 or 3 numbers",
    "multmatrix": "3 rows of 4 numbers, or 4 of which the last is [0, 0, 0, 1]",
    "children": "a number, a range or a list of numbers",
    "for": "a list or a range for each variable",
    "intersection_for": "a list or a range for each variable",
    **dict.fromkeys(["abs", "sign", "floor", "ceil", "round"], "a number"),
    **dict.fromkeys(["min", "max"], "numbers, or one list of numbers that isn't empty"),
    "len": "a list or a text",
    "pow": "two numbers",
    "+": "two numbers, or two lists of one length",
    "-": "two numbers, or two lists of one length",
    "*": "two numbers, a number and a list, or two lists of numbers of one length above 0",
    "/": "two numbers, or a list and a number",
    **dict.fromkeys(["%", "<", "<=", ">", ">="], "two numbers"),
    ".": "a list or a text before it",
}
SIGN, RANGE = "wants a number or a list behind it", "a range wants numbers"
INDEX = "an index wants a list or a text before it, and a number in it"


class Cause(NamedTuple):
    """What is wrong, in a line, and its cure."""

    said: str
    cure: str


def cause(found: Structure, at: int, word: str) -> Cause | None:
    """Which cause a fault of this word has at a token of a source; None where that isn't known."""
    if word == "BadArgument":
        return _of_argument(found, at)
    if word == "TypeMismatch":
        return _of_type(found, at)
    return _of_assertion(found, at) if word == "AssertFailed" else None


def _of_argument(found: Structure, at: int) -> Cause | None:
    for call in found.calls:
        number = next((number for number, it in enumerate(call.arguments) if it.first == at), None)
        if number is not None and (told := _of_call(found, call, number)):
            return told
    of_name = next((it for it in found.calls if it.name == at), None)
    if of_name is None or found.defined_at(of_name) is not None:
        return None
    return _missing(found, of_name) if of_name.kind == MODULE else _of_count(found, of_name)


def _of_call(found: Structure, call: Call, number: int) -> Cause | None:
    """What is wrong with an argument of a call, from 0, behind others that are right."""
    name, defined = found.text(call.name), found.defined_at(call)
    taken = [found.text(it) for it in defined.parameters] if defined else PARAMETERS.get(name)
    given: set[bytes] = set()
    places = 0
    for it in call.arguments[: number + 1]:
        key = _key(found, it)
        argument = key
        if key is None and taken is not None:
            argument = taken[places] if places < len(taken) else None
            places += 1
        told = _of_one(printable(name), taken, key, argument, given)
        if told is not None:
            return told
        given.add(argument or b"")
    return None


def _key(found: Structure, argument: Span) -> bytes | None:
    """The name that an argument is given by."""
    return found.text(argument.first) if found.text(argument.first + 1) == b"=" and argument.last > argument.first else None


def _of_one(
    name: str, taken: list[bytes] | None, key: bytes | None, argument: bytes | None, given: set[bytes]
) -> Cause | None:
    """What is wrong with one argument of a call: it is surplus, unknown or given twice."""
    if argument is not None and argument in given and (taken is not None or argument.startswith(b"$")):
        return Cause(f"{printable(argument)} is given to {name} twice", "leave one of the two out")
    if taken is None or (key is not None and key.startswith(b"$")):
        return None
    takes = f"{name} takes {_listed([printable(it) for it in taken])}"
    if argument is None:
        return Cause(f"this argument is surplus: {takes}", "several numbers of one argument stand in a list: [2, 3, 4]")
    if argument not in taken:
        near = difflib.get_close_matches(printable(argument), [printable(it) for it in taken], 1)
        cure = f"write {near[0]}" if near else PARAMETERS_PAGE
        return Cause(f"{name} has no parameter {printable(argument)}: {takes}", cure)
    return None


def _listed(names: list[str]) -> str:
    if len(names) < 2:
        return names[0] + " alone" if names else "no argument"
    return f"{', '.join(names[:-1])} and {names[-1]}"


def _missing(found: Structure, call: Call) -> Cause | None:
    """What a call of a built-in module must be given, and isn't."""
    name = found.text(call.name)
    keys = [_key(found, it) for it in call.arguments]
    given = {*PARAMETERS.get(name, [])[: keys.count(None)], *filter(None, keys)}
    missing = [printable(it) for it in NEEDED.get(name, []) if it not in given]
    if missing:
        return Cause(f"{printable(name)} must be given its {' and its '.join(missing)}", PARAMETERS_PAGE)
    if name == b"cylinder" and b"r" in given:
        return Cause("r is given with r1 or r2", "give r alone, or r1 and r2")
    return None


def _of_count(found: Structure, call: Call) -> Cause | None:
    """What is wrong with the arguments of a built-in function."""
    name, count = found.text(call.name), len(call.arguments)
    named = next((key for key in (_key(found, it) for it in call.arguments) if key), None)
    if named is not None:
        return Cause(f"arguments of {printable(name)} have no names", f"leave out {printable(named)} =")
    if name not in COUNTS or count == COUNTS[name]:
        return None
    most = COUNTS[name]
    wanted = "one or more arguments" if most is None else f"{most} argument{'s' * (most != 1)}"
    return Cause(f"{printable(name)} takes {wanted}, and is given {count or 'none'}", PARAMETERS_PAGE)


def _of_type(found: Structure, at: int) -> Cause | None:
    text = found.text(at).decode("ascii", "replace")
    before = found.tokens[at - 1] if at else None
    is_behind_value = before is not None and (
        before.kind in ("numeral", "text")
        or before.text in (b")", b"]", b"true", b"false", b"undef")
        or (before.is_name() and found.roles.get(at - 1) is not FUNCTION)
    )
    if text == "[":
        said = INDEX if is_behind_value else RANGE
    elif text in ("+", "-") and not is_behind_value:
        said = f"{text} {SIGN}"
    elif text in WANTED:
        said = f"{text} wants {WANTED[text]}"
    else:
        return None
    return Cause(said, NO_TYPE)


def _of_assertion(found: Structure, at: int) -> Cause | None:
    """The message of an assertion, where it is a text."""
    call = next((it for it in found.calls if it.name == at), None)
    if call is None:
        return None
    keys = [_key(found, it) for it in call.arguments]
    spans = [it for it, key in zip(call.arguments, keys) if key is None]
    message = next((Span(it.first + 2, it.last) for it, key in zip(call.arguments, keys) if key == b"message"), None)
    message = message or (spans[1] if len(spans) > 1 else None)
    # (with a named condition, the first without a name is the condition still)
    if message is None or message.first != message.last or found.tokens[message.first].kind != "text":
        return None
    text = re.sub(rb"\\(.)", lambda it: it[1] if it[1] in b'"\\' else b" ", found.text(message.first)[1:-1])
    return Cause(f"this assertion does not hold: {printable(text)}", "its condition and its message say what the part needs")
