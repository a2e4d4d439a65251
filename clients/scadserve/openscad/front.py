"""OpenSCAD as a front end: it evaluates a source, and renders what its evaluated form can't hold.

`OPENSCAD` in the environment names another program than `openscad`.
"""

from __future__ import annotations

import os
import re
import shutil
import subprocess
import tempfile
from dataclasses import dataclass
from typing import Sequence

from ..top import LIBRARY
from .reader import CsgFault, Node, printed
from .tree import Vector

# What OpenSCAD says that a source's writer wants to read.
_TOLD = re.compile(r"^(?:ECHO|WARNING|ERROR|DEPRECATED|TRACE|EXPORT-ERROR|Can't)\b.*$", re.MULTILINE)
_TRACES = 8
_EMPTY = re.compile(r"^Current top level object is (?:empty|not a [23]D object)", re.MULTILINE)
_NUMBER = r"[-+0-9.eE]+"
_STEP = re.compile(rf"([MLz])\s*(?:({_NUMBER}),({_NUMBER}))?")
# An error or a warning: what it says, and where.
_SAID = re.compile(r"^(?P<kind>ERROR|WARNING): (?P<said>.*?)(?:,? in file (?P<file>.*), line (?P<line>\d+))?$", re.MULTILINE)
# The place in the text of a node that is rendered.
_OF_NODE = re.compile(r",? in file node\.csg, line \d+")


@dataclass(frozen=True)
class Told:
    """An error or a warning of OpenSCAD's: its text, and the file, as OpenSCAD names it, and the line, where it says them."""

    said: str
    file: str = ""
    line: int = 0


class NotThere(Exception):
    """OpenSCAD isn't installed, or doesn't start: what is wrong."""


class NotEvaluated(Exception):
    """OpenSCAD has an error in a source: what it has told, and the first of its errors."""

    def __init__(self, told: str, error: Told) -> None:
        super().__init__(told)
        self.error = error


def program() -> str | None:
    """The program, where it is installed."""
    return shutil.which(os.environ.get("OPENSCAD") or "openscad")


def evaluated(source: str, definitions: Sequence[str] = (), folders: Sequence[str] = ()) -> tuple[str, str]:
    """A source file's evaluated form, and what OpenSCAD told; it looks for what is included in these folders too.

    It is evaluated as for an export, in which `$preview` is false. Raises NotThere, or NotEvaluated with what OpenSCAD told.
    """
    with tempfile.TemporaryDirectory() as folder:
        out = os.path.join(folder, "part.csg")
        words = [word for it in definitions for word in ("-D", it)]
        said = _run([*words, "--render", "-o", out, os.path.abspath(source)], folders)
        lines = _TOLD.findall(said)
        traces = [it for it in lines if it.startswith("TRACE")][_TRACES:]
        told = "".join(f"{it}\n" for it in lines if it not in traces)
        # (at an assertion that fails, or a recursion without an end, it writes nothing or a part, and ends with status 0)
        errors = _said(said, "ERROR")
        if errors or not os.path.exists(out):
            raise NotEvaluated(told or said, errors[0] if errors else Told((said.splitlines() or ["it says nothing"])[0]))
        with open(out, encoding="utf-8", errors="surrogateescape") as file:
            return file.read(), told


def warned(told: str) -> list[Told]:
    """The warnings in what OpenSCAD told."""
    return _said(told, "WARNING")


def _said(told: str, kind: str) -> list[Told]:
    found = (it for it in _SAID.finditer(told) if it["kind"] == kind)
    return [Told(it["said"], it["file"] or "", int(it["line"] or 0)) for it in found]


class Front:
    """Renders nodes of an evaluated form, whose names of files are meant from a folder; each but once."""

    def __init__(self, folder: str, is_strict: bool = False) -> None:
        """With the folder, and whether what OpenSCAD warns of is a fault."""
        self._folder, self._is_strict = folder, is_strict
        self._loops: dict[str, list[list[tuple[float, float]]]] = {}
        self._bodies: dict[str, tuple[list[Vector], list[list[int]]]] = {}
        self.said: list[str] = []

    def flat(self, node: Node) -> list[list[tuple[float, float]]]:
        """The outlines of a node in the plane; none where it is empty. Raises CsgFault."""
        source = self._source(node)
        if source not in self._loops:
            self._loops[source] = _loops(self._rendered(node, source, "svg"))
        return self._loops[source]

    def solid(self, node: Node) -> tuple[list[Vector], list[list[int]]]:
        """The corners and faces of a node in space; none where it is empty. Raises CsgFault."""
        source = self._source(node)
        if source not in self._bodies:
            self._bodies[source] = _body(self._rendered(node, source, "off"))
        return self._bodies[source]

    def warnings(self) -> int:
        """Of how much OpenSCAD warned while it rendered."""
        return len(warned("\n".join(self.said)))

    def _source(self, node: Node) -> str:
        places: dict[str, str] = {}
        for it in node.all():
            file = it.arguments.get("file")
            # (OpenSCAD warns of an empty name, and makes nothing of it)
            if isinstance(file, str) and file:
                places[file] = os.path.abspath(os.path.join(self._folder, file))
                if os.path.exists(places[file]) and not os.path.isfile(places[file]):
                    raise it.fault("NoFile", f"{file} is not an ordinary file")
        return printed([node], places)

    def _rendered(self, node: Node, source: str, form: str) -> str:
        with tempfile.TemporaryDirectory() as folder:
            file, out = os.path.join(folder, "node.csg"), os.path.join(folder, f"node.{form}")
            with open(file, "w", encoding="utf-8", errors="surrogateescape") as it:
                it.write(source)
            try:
                said = _run(["-o", out, file])
            except NotThere as error:
                raise node.fault("NotInProfile", f"OpenSCAD alone can render this, and {error}") from None
            self._note(node, said)
            try:
                with open(out, encoding="utf-8") as it:
                    return it.read()
            except FileNotFoundError:
                if _EMPTY.search(said):
                    return ""
                first = (_TOLD.findall(said) or ["it says nothing"])[0]
                raise node.fault("NotInProfile", f"OpenSCAD doesn't render this: {first}") from None

    def _note(self, node: Node, said: str) -> None:
        """Notes what OpenSCAD said while it rendered a node. Raises CsgFault at an error, or at a warning where that is one."""
        errors, warnings = _said(said, "ERROR"), warned(said)
        if errors:
            raise node.fault("NotInProfile", f"OpenSCAD doesn't render this: {errors[0].said}")
        if warnings and self._is_strict:
            raise node.fault("Warned", warnings[0].said)
        lines = [f"{_OF_NODE.sub('', line)} ({node.called()})" for line in _TOLD.findall(said)]
        self.said += [line for line in lines if line not in self.said]


def _run(words: Sequence[str], folders: Sequence[str] = ()) -> str:
    """What OpenSCAD says. Raises NotThere."""
    # (OpenSCAD's own folder of the user goes before our library, which it knows nothing of)
    own = os.path.expanduser("~/.local/share/OpenSCAD/libraries")
    path = [*(os.path.abspath(it) for it in folders), *filter(None, [os.environ.get("OPENSCADPATH")]), own, LIBRARY]
    how = {**os.environ, "OPENSCADPATH": os.pathsep.join(path)}
    name = program()
    if name is None:
        raise NotThere("it is not installed (OPENSCAD in the environment may name it)")
    try:
        done = subprocess.run(
            [name, *words], stdin=subprocess.DEVNULL, stdout=subprocess.PIPE, stderr=subprocess.STDOUT, env=how, check=False
        )
    except OSError as error:
        raise NotThere(f"{name} doesn't start: {error.strerror}") from error
    return done.stdout.decode("utf-8", "surrogateescape")


def _loops(svg: str) -> list[list[tuple[float, float]]]:
    """The closed lines of the paths that OpenSCAD writes, in which y goes down."""
    loops: list[list[tuple[float, float]]] = []
    for path in re.findall(r'<path d="([^"]*)"', svg):
        for kind, x, y in _STEP.findall(path):
            if kind == "M":
                loops.append([])
            if kind != "z":
                loops[-1].append((float(x), -float(y)))
    return [it for it in loops if len(it) > 2]


def _body(off: str) -> tuple[list[Vector], list[list[int]]]:
    """The corners of an OFF text, and its faces, clockwise as seen from outside."""
    words = [line.split() for line in off.splitlines() if line.strip() and not line.startswith("#")]
    if not words:
        return [], []
    counts = words[0][1:] or words[1]
    rest = words[1:] if words[0][1:] else words[2:]
    vertices, faces = int(counts[0]), int(counts[1])
    corners = [(float(x), float(y), float(z)) for x, y, z in (it[:3] for it in rest[:vertices])]
    return corners, [[int(it) for it in line[1 : 1 + int(line[0])]][::-1] for line in rest[vertices : vertices + faces]]


__all__ = ["CsgFault", "Front", "NotEvaluated", "NotThere", "evaluated", "program"]
