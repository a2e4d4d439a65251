"""Sources by OpenSCAD's front end, in a process of their own, which is ended with the time of its run.

OpenSCAD reads whatever file a source names. So a source that isn't trusted is looked at before, as bytes: in whatever place it
names a file, also in a comment, that is one below the folders that are served, or one of OpenSCAD's own libraries.
"""

from __future__ import annotations

import contextlib
import os
import re
import signal
import subprocess
import sys
import tempfile
from dataclasses import dataclass
from fractions import Fraction
from time import monotonic
from typing import NamedTuple, Sequence

from ..ending import PART_FAULT, ended
from ..server.processes import server_of_environment
from ..server.scripts import OutOfTime, ServerFailed, Solid
from ..source.joining import MOST_BYTES
from ..source.sources import Refused, Source, Spot
from ..source.lengths import MILLIMETRE
from .exports import Process

# The folder in which the package stands.
_CLIENTS = os.path.dirname(os.path.dirname(os.path.dirname(os.path.realpath(__file__))))
_NAMES_FILE = re.compile(rb"\b(?:include|use)[ \t\r\n>]*<([^>]*)>?")
_READS_FILE = re.compile(rb"\b(?:import\w*|surface|dxf_\w+)\s*(?=\(|/[/*])|\bfile\s*(?==|/[/*])")
_MOST_FILES = 256


class Evaluated(NamedTuple):
    """What came of a source: its 4OFF text, its unit and the step of the text's grid, or its fault, and what else was said."""

    text: bytes | None
    unit: Fraction | None
    step: Fraction
    fault: str
    said: list[str]


@dataclass(frozen=True)
class Evaluation:
    """A source to be evaluated by OpenSCAD: work for a queue of exports."""

    text: bytes
    file: str
    definitions: Sequence[str]
    libraries: Sequence[str]
    server: Sequence[str]

    def __call__(self, process: Process, until: float) -> Evaluated:
        """Evaluates the source and exports what comes of it. Raises ServerFailed, and OutOfTime past the time."""
        name = os.path.basename(self.file)
        folders = [os.path.abspath(os.path.dirname(self.file)), *self.libraries]
        how = {**os.environ, "SCADSERVE": self.server[0], "PYTHONPATH": _CLIENTS}
        words = [sys.executable, "-m", __name__, name, str(len(folders)), *folders, *self.definitions]
        with tempfile.TemporaryDirectory() as folder:
            with open(os.path.join(folder, name), "wb") as it:
                it.write(self.text)
            pipe = subprocess.PIPE
            run = subprocess.Popen(
                words, cwd=folder, env=how, stdin=subprocess.DEVNULL, stdout=pipe, stderr=pipe, start_new_session=True
            )
            process.take(run)
            try:
                out, said = run.communicate(timeout=max(0, until - monotonic()))
            except subprocess.TimeoutExpired:
                with contextlib.suppress(ProcessLookupError):
                    os.killpg(run.pid, signal.SIGTERM)
                run.communicate()
                raise OutOfTime("OpenSCAD took too long", 128 + signal.SIGTERM) from None
        return _evaluated(run.returncode, out, said.decode("utf-8", "replace"), name, self.file)


def _evaluated(status: int, out: bytes, said: str, name: str, file: str) -> Evaluated:
    """What the process says, in which the file has its own name again."""
    said = re.sub(rf"^{re.escape(name)}\b", lambda _: file, said, flags=re.MULTILINE)
    if status == 0:
        lengths, _, text = out.partition(b"\n")
        step, *unit = (Fraction(it.decode()) for it in lengths.split())
        return Evaluated(text, unit[0] if unit else None, step, "", said.splitlines())
    if status != PART_FAULT:
        raise ServerFailed(said.strip() or f"OpenSCAD's front end ended with status {status}", status)
    before, error, behind = said.partition(": error: ")
    lines = before.splitlines()
    return Evaluated(None, None, MILLIMETRE, lines[-1] + error + behind if error else said, lines[:-1])


def test_reads(text: bytes, file: str, roots: Sequence[str], libraries: Sequence[str]) -> None:
    """Raises Refused where OpenSCAD would read a file for this source that is none of its folders or of its own libraries."""
    todo, seen = [(file, text)], {os.path.realpath(file)}
    while todo:
        name, data = todo.pop()
        reads = _READS_FILE.search(data)
        if reads:
            said = "this reads a file, which OpenSCAD may not do for a live page"
            raise _refused(name, data, reads.start(), "NotInProfile", said, "let scad2off --by-openscad read it")
        for match in _NAMES_FILE.finditer(data):
            found = _file_of(os.fsdecode(match[1]), name, roots, libraries)
            if found is None or len(seen) > _MOST_FILES:
                said = f"{os.fsdecode(match[1])} is not a file that may be read here"
                raise _refused(
                    name, data, match.start(), "NoFile", said, "it stands in the folder that is served, or in one of -I"
                )
            if found and os.path.realpath(found) not in seen:
                seen.add(os.path.realpath(found))
                with open(found, "rb") as it:
                    todo.append((found, it.read(MOST_BYTES)))


def _file_of(named: str, file: str, roots: Sequence[str], libraries: Sequence[str]) -> str | None:
    """The file that is named so in a file; empty where only OpenSCAD's own libraries may have it, and None where it may not be.
    """
    if os.path.isabs(named) or "\0" in named or any(it in ("..", "~") for it in named.split("/")):
        return None
    for path in (os.path.join(it, named) for it in (os.path.dirname(file), *libraries)):
        if os.path.lexists(path):
            real = os.path.realpath(path)
            return path if os.path.isfile(real) and any(os.path.commonpath([real, it]) == it for it in roots) else None
    return ""


def _refused(file: str, data: bytes, at: int, word: str, said: str, cure: str) -> Refused:
    start = data.rfind(b"\n", 0, at) + 1
    line = data[start:].partition(b"\n")[0]
    return Refused(Spot(file, data.count(b"\n", 0, at) + 1, at - start + 1, line), word, said, cure)


def main(words: Sequence[str]) -> int:
    """Writes the step, the unit if there is one, and the 4OFF text that come of a file. The words are its name, how many
    folders, these, and definitions."""
    # (which a page that never asks for it isn't to wait for)
    from ..calls.by_openscad import Reader
    from ..openscad.conversion import Wanted
    from ..calls.asking import told
    from ..calls.converting import Call, convert

    name, count, *rest = words
    folders, definitions = rest[: int(count)], rest[int(count) :]
    # (an extrusion may name a file without a word that is seen in the source)
    reader = Reader(Wanted(), may_import=False)
    call = Call(
        "scadlive",
        [name],
        ["-"],
        definitions=definitions,
        folders=folders,
        allow_empty=True,
        server=server_of_environment(),
        read=lambda file, defined, around: reader(file, list(defined), list(around)),
        coarser=reader.coarser,
    )
    return ended(lambda: told("scadlive", lambda: convert(call, _written)))


def _written(source: Source, out: str, solid: Solid) -> int:
    from ..calls.words import write_out

    lengths = [source.step, *([source.unit] if source.unit else [])]
    write_out(out, " ".join(map(str, lengths)).encode() + b"\n" + solid.text)
    return 0


if __name__ == "__main__":
    sys.exit(main(sys.argv[1:]))
