"""The form of what is written by hand: the length of lines and of functions, and annotations without quotes."""

from __future__ import annotations

import ast
import subprocess
import unittest
from pathlib import Path
from typing import Iterator

from tests.calls import TOP

COLUMNS, FUNCTION_LINES = 128, 40
#: What is looked at: the endings of files below a folder, all that git has of them.
ENDINGS = (".py", ".sh", ".js", ".css", ".rt", ".antt")
#: Lines that may be longer, each with its reason: files by their beginnings and endings, and how such a line begins.
LONGER = (
    ("crates/", ".antt", ("",), "an equation stands on one line; docs/statement has those that a reader needs, laid out"),
    ("crates/", ".rt", ("use ", "ghost use ", "pub use ", "pub ghost use "), "`rt fmt` writes an import on one line"),
    ("crates/subtree_memo/src/booked.rt", ".rt", ("#[tactic(",), "`rt fmt` writes an attribute on one line"),
    ("crates/call_tests/src/scopes.rt", ".rt", ('b"',), "a source, which means something else with a line more"),
)
#: Files of crates with a comment that is longer: a change of a comment has the crate proved again, so they are mended with the
#: next change there.
LATER = frozenset(
    (
        "crates/flight_memo/src/claims.rt",
        "crates/flight_memo/src/desk.rt",
        "crates/one_cube/src/lib.rt",
        "crates/plain_text/src/lib.rt",
        "crates/ray_crossings/proofs/Corner.antt",
        "crates/ray_crossings/specs/Worked.antt",
        "crates/ray_crossings/src/laws.rt",
        "crates/scad_instance_rules/src/lib.rt",
        "crates/script_server/specs/Meaning/Exports.antt",
    )
)


def files() -> list[Path]:
    """The files of the repository that are written by hand."""
    words = ["git", "-C", TOP, "ls-files", "-z", "--cached", "--others", "--exclude-standard"]
    done = subprocess.run(words, stdout=subprocess.PIPE, stderr=subprocess.DEVNULL, text=True, check=False)
    names = done.stdout.split("\0") if done.returncode == 0 else []
    return [Path(TOP, it) for it in names if it.endswith(ENDINGS) and Path(TOP, it).is_file()]


def may_be_longer(name: str, line: str) -> bool:
    """Whether a line of the file of this name is one of those that may be longer."""
    is_comment = line.strip().startswith(("--", "//"))
    return not is_comment and any(
        name.startswith(begins) and name.endswith(ends) and line.strip().startswith(starts)
        for begins, ends, starts, _ in LONGER
    )


def annotations(tree: ast.AST) -> Iterator[ast.AST]:
    """The annotations of a module."""
    for node in ast.walk(tree):
        for name in ("annotation", "returns"):
            found = getattr(node, name, None)
            if isinstance(found, ast.AST):
                yield found


def is_quoted(annotation: ast.AST) -> bool:
    """Whether a type in an annotation is written as a text."""
    literals = [it for it in ast.walk(annotation) if isinstance(it, ast.Subscript) and getattr(it.value, "id", "") == "Literal"]
    allowed = {id(it) for literal in literals for it in ast.walk(literal)}
    texts = [it for it in ast.walk(annotation) if isinstance(it, ast.Constant) and isinstance(it.value, str)]
    return any(id(it) not in allowed for it in texts)


@unittest.skipUnless(files(), "this is not a clone of the repository")
class Form(unittest.TestCase):
    """The files of the repository."""

    def test_lines_end_at_128_columns(self) -> None:
        for file in files():
            name = file.relative_to(TOP).as_posix()
            for number, line in enumerate(file.read_text(encoding="utf-8").splitlines(), 1):
                if len(line) > COLUMNS and not (name in LATER and line.strip().startswith(("--", "//"))):
                    self.assertTrue(may_be_longer(name, line), f"{name}:{number}: {len(line)} columns")

    def test_functions_have_at_most_40_lines(self) -> None:
        for file in files():
            if file.suffix == ".py":
                for node in ast.walk(ast.parse(file.read_text(encoding="utf-8"))):
                    if isinstance(node, (ast.FunctionDef, ast.AsyncFunctionDef)):
                        lines = (node.end_lineno or 0) - node.lineno + 1
                        self.assertLessEqual(lines, FUNCTION_LINES, f"{file}:{node.lineno}: {node.name}")

    def test_annotations_have_no_quotes(self) -> None:
        for file in files():
            if file.suffix == ".py":
                tree = ast.parse(file.read_text(encoding="utf-8"))
                if any(isinstance(it, ast.ImportFrom) and it.module == "__future__" for it in tree.body):
                    for it in filter(is_quoted, annotations(tree)):
                        self.fail(f"{file}:{getattr(it, 'lineno', 0)}: the type of an annotation is quoted")


class Kinds(unittest.TestCase):
    """What counts as quoted, and as a line that may be longer."""

    def test_quoted_annotations(self) -> None:
        for text, is_bad in (
            ("x: 'int' = 1", True),
            ("def f(x: list['int']) -> None: ...", True),
            ("def f() -> 'int': ...", True),
            ("x: Literal['int'] = 'int'", False),
            ("x: int = 'int'", False),
        ):
            self.assertEqual(any(map(is_quoted, annotations(ast.parse(text)))), is_bad, text)

    def test_lines_that_may_be_longer(self) -> None:
        self.assertTrue(may_be_longer("crates/a/specs/A.antt", "f n = g n"))
        self.assertFalse(may_be_longer("crates/a/specs/A.antt", "  -- what it means"))
        self.assertTrue(may_be_longer("crates/a/src/a.rt", "ghost use crate::b;"))
        self.assertFalse(may_be_longer("crates/a/src/a.rt", "    let b = 1;"))
        self.assertFalse(may_be_longer("tools/house.py", "use = 1"))


if __name__ == "__main__":
    unittest.main()
