"""The rows of cases below crates/, and the forms in which they write tokens, programs, values and trees of the model."""

from __future__ import annotations

import re
import sys
from pathlib import Path
from typing import Iterator

from tests.calls import TOP

sys.path.insert(0, TOP)

from model import scad_ast as ast  # noqa: E402
from model.csg_tree import Leaf, Tree, TreeJoin  # noqa: E402
from model.scad_lexer import Token  # noqa: E402
from model.scad_value import RangeVal, Val, undef  # noqa: E402
from model.text_place import Fault, Place  # noqa: E402

ESCAPE = re.compile(rb"`(\d+)(?: (.*?))?`", re.DOTALL)


def spelled(text: bytes) -> bytes:
    """The bytes that a case writes: `10` in grave accents is a byte, and `3 ab` there is a part that stands three times."""
    return ESCAPE.sub(lambda found: bytes([int(found[1])]) if found[2] is None else found[2] * int(found[1]), text)


def rows(crate: str) -> Iterator[tuple[int, bytes, bytes]]:
    """Each case with the number of its line and its answer, as they are written."""
    lines = Path(TOP, "crates", crate, "stdout").read_bytes().split(b"\n")
    for number, line in enumerate(lines[:-1], 1):
        if lines[number].startswith(b"    "):
            yield number, line, lines[number][4:]


def fault_form(fault: Fault) -> str:
    return f"{fault.at.line}:{fault.at.column} {fault.kind}"


SYMBOLS = dict(zip(
    "( ) [ ] { } , ; = : ? . + - * / % < > <= >= == != && || ! # ^".split(),
    ("OpenParenthesis CloseParenthesis OpenBracket CloseBracket OpenBrace CloseBrace Comma Semicolon Assign Colon Question Dot "
     "Plus Minus Times Divide Remainder Less Greater LessEqual GreaterEqual Equal NotEqual And Or Not Hash Caret").split()))
CLASSES = {"NAME": "name", "SPECIAL": "special", "$children": "special", "TEXT": "text"}


def token_form(token: Token) -> str:
    """A token by its kind, with the codes of its bytes, and its place."""
    if token.kind in CLASSES:
        what = f"{CLASSES[token.kind]} {list(token.value)}"
    elif token.kind == "NUMERAL":
        what = str(token.value)
    elif token.kind == "END":
        what = "End"
    else:
        what = SYMBOLS.get(token.kind) or "".join(word.capitalize() for word in token.kind.split("_"))
    return f"{what} {token.at.line}:{token.at.column}"


def at(place: Place) -> str:
    return f"@{place.column}"


def args_form(args: list) -> str:
    """Arguments, those with a name as `NAME@1 = VALUE`."""
    found = ""
    for it in args:
        dollar = {ast.NamedTerm: "", ast.SpecialArgTerm: "$"}.get(type(it))
        found += term_form(it.value) if dollar is None else f"{dollar}{it.name.decode()}{at(it.at)} = {term_form(it.value)}"
    return found


def inside_form(it: ast.Term) -> str:
    """A form that has others, by its word and its place, with its parts behind them."""
    begin = {ast.ParenTerm: "paren", ast.ListTerm: "list", ast.RangeTerm: "range", ast.SteppedRangeTerm: "range",
             ast.PostfixTerm: "postfix", ast.ChainTerm: "chain", ast.ChoiceTerm: "choice", ast.CallTerm: "call"}
    parts = ""
    if isinstance(it, ast.UnaryTerm):
        return f"({ {'-': 'neg', '+': 'keep', '!': 'not'}[it.op] }{at(it.at)} {term_form(it.of)})"
    if isinstance(it, ast.CallTerm):
        return f"(call {it.name.decode()}{at(it.at)} {args_form(it.args)})"
    if isinstance(it, ast.ParenTerm):
        parts = term_form(it.inner)
    elif isinstance(it, ast.ListTerm):
        parts = "".join(map(term_form, it.items))
    elif isinstance(it, ast.RangeTerm):
        parts = term_form(it.start) + term_form(it.to)
    elif isinstance(it, ast.SteppedRangeTerm):
        parts = term_form(it.start) + term_form(it.step) + term_form(it.to)
    elif isinstance(it, ast.ChainTerm):
        parts = term_form(it.first) + "".join(f"{link.op}{at(link.at)} {term_form(link.right)}" for link in it.rest)
    elif isinstance(it, ast.ChoiceTerm):
        parts = f"{term_form(it.test)}?{at(it.mark)} {term_form(it.yes)}{term_form(it.no)}"
    elif isinstance(it, ast.PostfixTerm):
        parts = term_form(it.of)
        for suffix in it.rest:
            parts += (f"[]{at(suffix.at)} {term_form(suffix.number)}" if isinstance(suffix, ast.IndexTerm)
                      else f".{at(suffix.at)} {suffix.name.decode()}{at(suffix.name_at)} ")
    return f"({begin[type(it)]}{at(it.at)} {parts})"


def term_form(it: ast.Term) -> str:
    """An expression with its places; what has no parts is followed by a space."""
    whole = {
        ast.NumberTerm: lambda: str(it.n), ast.TextTerm: lambda: "'" + it.bytes.decode(),
        ast.TruthTerm: lambda: str(it.truth).lower(), ast.UndefTerm: lambda: "undef", ast.ChildCountTerm: lambda: "$children",
        ast.SpecialTerm: lambda: "$" + it.name.decode(), ast.NameTerm: lambda: it.name.decode()}
    return f"{whole[type(it)]()}{at(it.at)} " if type(it) in whole else inside_form(it)


def params_form(params: list) -> str:
    named = (f"{it.name.decode()}{at(it.at)} " + ("" if it.value is None else f"= {term_form(it.value)}") for it in params)
    return f"[{''.join(named)}]"


def body_form(body: ast.BodyTerm) -> str:
    """`;`, statements in braces, or an instance."""
    if body.form == ";":
        return f";{at(body.at)} "
    if body.form == "{":
        return f"body{at(body.at)} {program_form(body.statements)}"
    return statement_form(body.statements.items[0])


def core_form(it: ast.CoreTerm) -> str:
    if isinstance(it, ast.IfTerm):
        other = "" if it.other is None else f"else {body_form(it.other)}"
        return f"if{at(it.at)} {term_form(it.test)}{body_form(it.body)}{other}"
    if isinstance(it, ast.ForTerm):
        binders = "".join(f"{binder.name.decode()}{at(binder.at)} = {term_form(binder.values)}" for binder in it.binders)
        return f"{it.word}{at(it.at)} {binders}{body_form(it.body)}"
    return f"{it.name.decode()}{at(it.at)} ({args_form(it.args)}){body_form(it.body)}"


def statement_form(it: ast.StatementTerm) -> str:
    if isinstance(it, ast.EmptyStatement):
        return f";{at(it.at)} "
    if isinstance(it, ast.BlockStatement):
        return f"block{at(it.at)} {program_form(it.statements)}"
    if isinstance(it, (ast.AssignmentTerm, ast.SpecialAssignmentTerm)):
        dollar = "$" if isinstance(it, ast.SpecialAssignmentTerm) else ""
        return f"set {dollar}{it.name.decode()}{at(it.at)} {term_form(it.value)}"
    if isinstance(it, ast.InstanceTerm):
        marks = "".join(f"{mark.modifier}{at(mark.at)} " for mark in it.modifiers)
        return f"<{at(it.at)} {marks}{core_form(it.core)}>"
    word, last = ("module", body_form) if isinstance(it, ast.ModuleTerm) else ("function", term_form)
    what = last(it.body if isinstance(it, ast.ModuleTerm) else it.value)
    return f"{word}{at(it.at)} {it.name.decode()}{at(it.name_at)} {params_form(it.params)}{what}"


def program_form(statements: ast.StatementTerms) -> str:
    return "{" + "".join(map(statement_form, statements.items)) + "}"


def places_form(statements: ast.StatementTerms) -> str:
    """Where each statement stands, and of a choice its core and its bodies too."""
    found = []
    for it in statements.items:
        inside = ""
        if isinstance(it, ast.InstanceTerm) and isinstance(it.core, ast.IfTerm) and it.core.other is not None:
            places = (it.at, it.core.at, it.core.body.at, it.core.other.at)
            inside = "(" + " ".join(str(place.column) for place in places) + ")"
        found.append(f"{it.at.column}{inside}")
    return " ".join(found)


def value_form(v: Val) -> bytes:
    if type(v) is tuple:
        return b"[" + b"".join(value_form(item) + b" " for item in v) + b"]"
    if type(v) is bytes:
        return v
    if type(v) is RangeVal:
        return b"%d:%d:%d" % v
    return b"undef" if v is undef else str(v).lower().encode()


AXES = [((-1, 0, 0), (1, 0, 0)), ((0, -1, 0), (0, 1, 0)), ((0, 0, -1), (0, 0, 1))]


def leaf_form(leaf: Leaf) -> str:
    """A box by its ends, any other leaf by its planes."""
    ends = {tuple(m[:3]): m.d for m in leaf.planes}
    if len(leaf.planes) == 6 and set(ends) == {direction for pair in AXES for direction in pair}:
        return "[" + " ".join(f"{-ends[low]}..{ends[high]}" for low, high in AXES) + "]"
    return "[" + "".join(f"({m.a} {m.b} {m.c} {m.d})" for m in leaf.planes) + "]"


def tree_form(tree: Tree) -> str:
    if isinstance(tree, TreeJoin):
        op = {"union": "+", "intersection": "*", "difference": "-"}[tree.op]
        return f"({op} {tree_form(tree.left)} {tree_form(tree.right)})"
    return leaf_form(tree) if isinstance(tree, Leaf) else "nothing"
