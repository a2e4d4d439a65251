#!/usr/bin/env python3
"""Compares model/, the meaning that is run from its definitions, with what OpenSCAD evaluates of the same sources.

    tools/beside-openscad.py [--chance N] [--seed SEED] [--rows N] [--jobs N]

The sources are the rows of crates/language_cases and crates/server_cases, of which --rows takes each Nth (0 none), and N times
256 by chance. Of each that means a solid, points near the corners of both are asked of the model's tree and of OpenSCAD's
evaluated form; values are compared by `echo`; and where the model says AssertFailed, OpenSCAD has to end with that error. Rows
are given to OpenSCAD as they are. Sources by chance are bodies of modules, many in one file, each called once: it is these
programs that are compared. Where something differs, the source has to stand in a form of docs/differences.txt: else it is
printed, and the status is 1. It is 2 where OpenSCAD is missing.
"""

from __future__ import annotations

import argparse
import math
import os
import re
import shutil
import subprocess
import sys
import tempfile
from collections import Counter
from fractions import Fraction
from multiprocessing import Pool
from random import Random
from typing import Iterator, NamedTuple, Sequence, Union

TOP = os.path.dirname(os.path.dirname(os.path.realpath(__file__)))
sys.path[:0] = [TOP, os.path.join(TOP, "clients")]

from model import chance as made_by  # noqa: E402
from model.csg_tree import Tree, holds, planes_of, sides_of  # noqa: E402
from model.int_transform import image, map_of  # noqa: E402
from model.plane_predicate import Coordinates, in_steps, point_at, value  # noqa: E402
from model.scad_design import Placing  # noqa: E402
from model.scad_ast import BlockStatement, FunctionTerm, IfTerm, InstanceTerm, ModuleTerm, StatementTerms  # noqa: E402
from model.scad_func import Counts, most_evaluations  # noqa: E402
from model.scad_grammar import whole_program  # noqa: E402
from model.scad_lexer import lexes  # noqa: E402
from model.scad_meaning import Evaluator, each_assignment, leaves_of, program_context  # noqa: E402
from model.scad_value import RangeVal, Val, undef  # noqa: E402
from model.run_words import Run, chooses  # noqa: E402
from model.script_reader import ScriptFault, script_of  # noqa: E402
from model.script_server import client_text, means_design, with_deep_stack  # noqa: E402
from model.text_place import Fault  # noqa: E402
from scadserve.openscad.reader import CsgFault, Node, read  # noqa: E402
from scadserve.source.differing import Found  # noqa: E402
from scadserve.source.notes import notes_of  # noqa: E402
from scadserve.source.reading import source_of  # noqa: E402
from scadserve.source.structure import structure_of  # noqa: E402
from scadserve.source.tokens import tokens as tokens_of  # noqa: E402
from tests import csg_points  # noqa: E402
from tests.case_rows import rows, spelled  # noqa: E402

#: This many sources are given to OpenSCAD in one file, and this many points are asked of each.
TOGETHER, POINTS = 64, 24
LONGEST = 120
ERROR = re.compile(r"^ERROR: (.*)$", re.MULTILINE)


class Case(NamedTuple):
    """A source: its bytes, whether its value `x` is compared, whether it is the body of a module that is called once, and
    whether lengths may lie on half units."""

    source: bytes
    is_value: bool = False
    is_body: bool = False
    half: bool = False


class Told(NamedTuple):
    """What OpenSCAD makes of a source: its nodes, or its error, or why its nodes can't be read here; and what it echoes."""

    nodes: list[Node]
    error: str = ""
    echoed: str = ""
    not_read: str = ""


class Outcome(NamedTuple):
    """Of a source, how it came out: what was compared, or why nothing was; or what differs."""

    case: Case
    how: str
    differs: bool = False


class Design(NamedTuple):
    """What a source means: a tree, and the corners of its leaves in units."""

    half: bool
    tree: Tree
    corners: list[csg_points.Point]


class Echo(NamedTuple):
    """What the value of a source is, as echo prints it, and as a source writes it."""

    printed: str
    literal: bytes


Meant = Union[Design, Echo, Fault]


def meant(case: Case) -> Meant:
    """What the model makes of a source."""
    try:
        if case.is_value:
            value = value_in(case.source)
            return Echo(printed(value), literal(value))
        design = means_design(case.half, wrapped(case.source) if case.is_body else case.source)
        corners = [image(map_of(leaf.steps), point_at(p)) for leaf in leaves_of(design) for p in leaf.mesh.points]
        steps = 2 if case.half else 1
        return Design(case.half, Placing().design(design), [(x, y, z, w * steps) for x, y, z, w in corners])
    except Fault as fault:
        return fault


def told(text: bytes) -> Told:
    """What OpenSCAD makes of the text of a file."""
    with tempfile.TemporaryDirectory() as folder:
        file, out = os.path.join(folder, "part.scad"), os.path.join(folder, "part.csg")
        with open(file, "wb") as it:
            it.write(text)
        how = {"stdin": subprocess.DEVNULL, "stdout": subprocess.PIPE, "stderr": subprocess.STDOUT}
        try:
            said = subprocess.run(["openscad", "--render", "-o", out, file], timeout=LONGEST, check=False, **how).stdout
        except subprocess.TimeoutExpired:
            return Told([], not_read="it takes too long")
        lines = said.decode("utf-8", "replace")
        error = ERROR.search(lines)
        if error is not None or not os.path.exists(out):
            return Told([], error[1] if error else lines.strip()[-200:] or "it ended", lines)
        try:
            with open(out, encoding="utf-8", errors="surrogateescape") as form:
                return Told(read(form.read()), "", lines)
        except CsgFault as fault:
            return Told([], "", lines, fault.word)


def wrapped(source: bytes, name: bytes = b"s") -> bytes:
    """A source as the body of a module, and a call of it."""
    return b"module %b() {\n%b}\n%b();\n" % (name, source, name)


def given(case: Case, meaning: Meant, name: str = "s") -> bytes:
    """What OpenSCAD is given of a source: of a value also its echo, of a body the module of this name."""
    echo = b'echo("%b", x, x == %b);\n' % (name.encode(), meaning.literal) if isinstance(meaning, Echo) else b""
    return wrapped(case.source + echo, name.encode()) if case.is_body else case.source + echo


def value_in(source: bytes) -> Val:
    """The value of `x` in a program."""
    program = whole_program(lexes(source))
    return each_assignment(Evaluator(False, most_evaluations, Counts()), program_context(program), program).env.variables[b"x"]


def printed(value: Val) -> str:
    """A value as `echo` prints it: of numbers six digits."""
    if value is undef:
        return "undef"
    if isinstance(value, bool):
        return str(value).lower()
    if isinstance(value, int):
        return re.sub(r"e\+0*", "e+", f"{value:g}")
    if isinstance(value, bytes):
        return f'"{value.decode()}"'
    if isinstance(value, RangeVal):
        return "[" + " : ".join(map(printed, value)) + "]"
    return "[" + ", ".join(map(printed, value)) + "]"


escapes = {b'"': b'\\"', b"\\": b"\\\\", b"\n": b"\\n", b"\t": b"\\t", b"\r": b"\\r"}


def literal(value: Val) -> bytes:
    """A value as a source writes it."""
    if isinstance(value, bytes):
        return b'"%b"' % re.sub(rb'["\\\n\t\r]', lambda found: escapes[found[0]], value)
    if isinstance(value, RangeVal):
        return b"[%d : %d : %d]" % value
    if isinstance(value, tuple):
        return b"[" + b", ".join(map(literal, value)) + b"]"
    return b"%d" % value if type(value) is int else printed(value).encode()


def near(centre: csg_points.Point, chance: Random) -> Coordinates:
    """A point by chance near another one."""
    below, reach = chance.choice((997, 1009, 1013, 1019)), chance.choice((1, 1, 3))
    xyz = [Fraction(at) / centre[3] + Fraction(chance.randrange(-reach * below, reach * below), below) for at in centre[:3]]
    w = math.lcm(*(it.denominator for it in xyz))
    return Coordinates(*(int(it * w) for it in xyz), w)


def middle(p: csg_points.Point, q: csg_points.Point) -> csg_points.Point:
    x, y, z = (p[i] * q[3] + q[i] * p[3] for i in range(3))
    return x, y, z, 2 * p[3] * q[3]


def asked_points(own: Sequence[csg_points.Point], their: Sequence[csg_points.Point], chance: Random) -> Iterator[Coordinates]:
    """Points near corners of both, and near the middles between two corners of one."""
    for corners in (own, their):
        for _ in range(POINTS if corners else 0):
            p, q = chance.choice(corners), chance.choice(corners)
            yield near(chance.choice((p, middle(p, q))), chance)


def wrong_point(design: Design, nodes: Sequence[Node], chance: Random) -> str | None:
    """At which point by chance the model's tree and what OpenSCAD evaluates differ. (Points on planes tell nothing: another one
    near by is asked too.) Raises NotRead."""
    shown = [it for it in nodes if it.is_shown()]
    is_inside, planes = csg_points.union(shown), planes_of(design.tree)

    def parts(p: Coordinates) -> bool:
        q = in_steps(design.half, p)
        return all(value(m, q) for m in planes) and holds(design.tree, sides_of(q)) != is_inside(p)

    for p in asked_points(design.corners, list(csg_points.corners_of(shown)), chance):
        if parts(p) and parts(Coordinates(*(10**7 * p[i] + chance.randrange(1, p.w) for i in range(3)), 10**7 * p.w)):
            return f"{' '.join(f'{p[i] / p.w:.4g}' for i in range(3))} is {'outside' if is_inside(p) else 'inside'} here alone"
    return None


def compared(case: Case, meaning: Meant, there: Told, name: str = "s") -> Outcome:
    """How a case comes out, of what it means here and there."""
    if isinstance(meaning, Fault):
        if meaning.kind != "AssertFailed":
            return Outcome(case, f"no solid here: {meaning.kind}")
        differs = not there.error.startswith("Assertion")
        return Outcome(case, f"AssertFailed here, there {there.error or 'none'}" if differs else "assert", differs)
    if there.error or there.not_read:
        return Outcome(case, f"there {there.error}" if there.error else f"not read: {there.not_read}", bool(there.error))
    if isinstance(meaning, Echo):
        begin = f'ECHO: "{name}", '
        is_so = f"{begin}{meaning.printed}, true\n" in there.echoed
        echoes = [it for it in there.echoed.splitlines() if it.startswith(begin)]
        return Outcome(case, "value" if is_so else f"{meaning.printed} here, there {echoes}", not is_so)
    try:
        wrong = wrong_point(meaning, there.nodes, Random(len(case.source)))
    except (csg_points.NotRead, CsgFault) as why:
        return Outcome(case, f"not read: {why}")
    same = "solid" if meaning.corners else "empty"
    return Outcome(case, same if wrong is None else wrong, wrong is not None)


def alone(case: Case, meaning: Meant) -> Outcome:
    """How a case comes out in a run of OpenSCAD of its own."""
    if isinstance(meaning, Fault) and meaning.kind != "AssertFailed":
        return compared(case, meaning, Told([]))
    return compared(case, meaning, told(given(case, meaning)))


def together(cases: Sequence[tuple[Case, Meant]]) -> Iterator[Outcome]:
    """How cases of bodies come out in one run of OpenSCAD; where that has an error, in several. What differs is tried alone."""
    there = told(b"".join(given(case, meaning, f"s{at}") for at, (case, meaning) in enumerate(cases)))
    if len(there.nodes) != len(cases):
        if len(cases) == 1:
            yield alone(*cases[0])
            return
        for half in (cases[:len(cases) // 2], cases[len(cases) // 2:]):
            yield from together(half)
        return
    for at, (case, meaning) in enumerate(cases):
        outcome = compared(case, meaning, Told(there.nodes[at:at + 1], "", there.echoed), f"s{at}")
        yield alone(case, meaning) if outcome.differs else outcome


def may_be_marked(source: bytes, mark: str) -> bool:
    """Whether something in a source may be marked so: the symbol stands where no operator does."""
    kinds = [";", *(token.kind for token in lexes(source))]
    return any(b == mark and a in (";", "{", "}", ")", "else", *"*%#!") for a, b in zip(kinds, kinds[1:]))


def may_be_together(case: Case, meaning: Meant) -> bool:
    """Whether a source may stand in a file with others: a body that OpenSCAD reads, and that means something. Nothing in it may
    be marked `!`, which selects what is drawn of a whole file."""
    return (case.is_body and not isinstance(meaning, Fault) and not refused_forms(case.source)
            and not may_be_marked(case.source, "!"))


def of_rows(nth: int) -> list[Case]:
    """The sources of each nth row of the language, and of the exports of scripts."""
    cases: list[Case] = []
    for number, case, _ in rows("language_cases"):
        kind, _, source = case.partition(b" ")
        if kind == b"turns":
            source = source.partition(b" ")[2]
        if kind in (b"value", b"turns"):
            cases.append(Case(b"later = 7;\n" + spelled(source) + b"\n", is_value=True))
        elif kind in (b"tree", b"half", b"program", b"reads", b"places", b"tokens"):
            cases.append(Case(spelled(source) + b"\n", half=kind == b"half"))
    for number, case, _ in rows("server_cases"):
        before, _, script = case.partition(b" /")
        kind, *words = before.decode().split()
        if kind in ("serve", "head", "tail"):
            cases += exported(words[kind != "serve":], spelled(script[1:].replace(b"|", b"\n")))
    return list(dict.fromkeys(cases))[::nth] if nth else []


def exported(words: Sequence[str], script: bytes) -> list[Case]:
    """The sources that a script exports."""
    settings = chooses(words)
    if not isinstance(settings, Run):
        return []
    found: list[Case] = []

    def export(source: bytes) -> bytes:
        found.append(Case(source, half=settings.half))
        return b""

    try:
        for name, commands in script_of(script).items():
            client_text(export, name, commands)
    except ScriptFault:
        pass
    return found


def by_chance(seed: int, number: int) -> list[Case]:
    """Bodies by chance, every eighth of them of a value."""
    chance = Random(seed * 1_000_003 + number)
    cases = []
    for at in range(4 * TOGETHER):
        if at % 8:
            cases.append(Case(made_by.source(chance), is_body=True))
        else:
            maker = made_by.Maker(chance)
            maker.signed = True
            cases.append(Case(maker.program(f"x = {maker.anything()};").encode() + b"\n", is_value=True, is_body=True))
    return cases


def is_in_other_braces(statements: StatementTerms, may: bool = True) -> bool:
    """Whether a definition stands in the body of a call, a loop or an `if`."""
    for it in statements.items:
        bodies = []
        if isinstance(it, (ModuleTerm, FunctionTerm)) and not may:
            return True
        if isinstance(it, BlockStatement) and is_in_other_braces(it.statements, may):
            return True
        if isinstance(it, ModuleTerm) and is_in_other_braces(it.body.statements, it.body.form == "{"):
            return True
        if isinstance(it, InstanceTerm):
            bodies = [it.core.body, *([it.core.other] if isinstance(it.core, IfTerm) and it.core.other else [])]
        if any(is_in_other_braces(body.statements, False) for body in bodies):
            return True
    return False


def refused_forms(source: bytes) -> list[str]:
    """The forms of the list that OpenSCAD refuses as a syntax error, of those in which a program may stand."""
    tokens = lexes(source)
    pairs = list(zip(tokens, tokens[1:]))
    found = ["inner-definition"] * is_in_other_braces(whole_program(tokens))
    found += ["last-comma"] * any((a.kind, b.kind) == (",", ")") for a, b in pairs)
    checks = [(a.kind, b.kind) for a, b in pairs if a.value in (b"echo", b"assert")]
    defined = any(a.kind in ("module", "function") and b.value in (b"echo", b"assert") for a, b in pairs)
    return found + ["check-name"] * (defined or any(it != ("NAME", "(") for it in checks))


def evaluated_forms(source: bytes) -> list[str]:
    """The forms in which OpenSCAD evaluates what isn't evaluated here, and ends with an error where that has one."""
    kinds = [token.kind for token in lexes(source)]
    definitions = [at for at, kind in enumerate(kinds) if kind in ("module", "function")]
    has_default = any("=" in kinds[at:kinds.index(")", at)] for at in definitions)
    found = ["marked-background"] * may_be_marked(source, "%") + ["default-given"] * has_default
    return found + ["braces-unasked"] * assigns_in_braces(source)


def assigns_in_braces(source: bytes) -> bool:
    """Whether the braces of a call of a module of the source assign something."""
    found = Found(structure_of(tokens_of(source_of(source, "-").sent())))
    calls = (it for it in found.structure.instances if found.meant(it.call) is not None)
    return any(found.assignments_of(it.scope) for it in calls)


def forms_of(outcome: Outcome) -> list[str]:
    """The forms of docs/differences.txt that may be why a source differs."""
    source = wrapped(outcome.case.source) if outcome.case.is_body else outcome.case.source
    if "there Parser error" in outcome.how:
        return refused_forms(source)
    has_error = "there Recursion detected" in outcome.how or "there Assertion" in outcome.how
    noted = {it.form for it in notes_of(source_of(source, "-"))}
    return sorted(noted.union(evaluated_forms(source) if has_error else []))


def batch(cases: Sequence[Case]) -> list[tuple[Outcome, list[str]]]:
    """How cases come out, and of those that differ the forms in which they stand."""
    def all_of_them() -> list[tuple[Outcome, list[str]]]:
        known = [(case, meant(case)) for case in cases]
        bodies = [it for it in known if may_be_together(*it)]
        found = [alone(*it) for it in known if it not in bodies]
        for at in range(0, len(bodies), TOGETHER):
            found += together(bodies[at:at + TOGETHER])
        return [(it, forms_of(it) if it.differs else []) for it in found]
    return with_deep_stack(all_of_them)


def work(asked: argparse.Namespace) -> Iterator[list[Case]]:
    """The cases that are asked for, some at a time; those by chance without an end."""
    cases = of_rows(asked.rows)
    yield from (cases[at:at + 16] for at in range(0, len(cases), 16))
    yield from (by_chance(asked.seed, number) for number in range(asked.chance))


def main(words: Sequence[str] | None = None) -> int:
    parser = argparse.ArgumentParser(description=(__doc__ or "").partition("\n")[0])
    parser.add_argument("--chance", type=int, default=64, help=f"this many times {4 * TOGETHER} sources by chance")
    parser.add_argument("--seed", type=int, default=1)
    parser.add_argument("--rows", type=int, default=1, help="each N-th of the rows; 0 is none")
    parser.add_argument("--jobs", type=int, default=os.cpu_count() or 1)
    asked = parser.parse_args(words)
    if not shutil.which("openscad"):
        print("openscad is not installed", file=sys.stderr)
        return 2
    counts: Counter[str] = Counter()
    listed: Counter[str] = Counter()
    unlisted, seen = 0, set()
    with Pool(asked.jobs) as workers:
        for outcome, forms in (it for found in workers.imap_unordered(batch, work(asked)) for it in found):
            if outcome.case in seen:
                continue
            seen.add(outcome.case)
            counts["differ" if outcome.differs else outcome.how] += 1
            listed.update(forms)
            if outcome.differs and not forms:
                unlisted += 1
                told_source = outcome.case.source.decode("utf-8", "backslashreplace")
                print(f"{outcome.how}\n{told_source}", flush=True)
    print(", ".join(f"{count} {how}" for how, count in counts.most_common()))
    print(f"those that differ stand in: {', '.join(f'{form} ({count})' for form, count in listed.most_common())}")
    all_compared = sum(counts[it] for it in ("solid", "empty", "value", "assert", "differ"))
    print(f"{all_compared} sources compared, {counts['differ']} differ, {unlisted} of them in no form of docs/differences.txt")
    return 1 if unlisted or not all_compared else 0


if __name__ == "__main__":
    sys.exit(main())
