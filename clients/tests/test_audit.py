"""What tools/audit.py finds in crates of a few lines."""

from __future__ import annotations

import sys
import tempfile
import unittest
from pathlib import Path

from tests.calls import TOP

sys.path.insert(0, str(Path(TOP, "tools")))

import audit  # noqa: E402

CODE = """//! Of unsafe things, in words alone.
use std::env::args;

/// Says it.
pub fn promised() -> u8
    ensures { result ≡ 1 }
{
    1
}

pub fn unpromised(rt: &HostRuntime) {
    let x = unsafe { 1 };
}

fn own() {}
"""


class Audit(unittest.TestCase):
    def setUp(self) -> None:
        folder = tempfile.TemporaryDirectory()
        self.addCleanup(folder.cleanup)
        self.top = Path(folder.name)
        self.write("crates/low/src/lib.rt", CODE)

    def write(self, path: str, text: str) -> None:
        file = self.top / path
        file.parent.mkdir(parents=True, exist_ok=True)
        file.write_text(text, encoding="utf-8")

    def test_public_calls_without_a_clause_are_found(self) -> None:
        self.assertEqual(audit.without_clause(self.top, ["low"]), ["`unpromised` (`crates/low/src/lib.rt:11`)"])

    def test_lines_of_code_are_found_and_no_comments_or_imports(self) -> None:
        self.assertEqual([it.line for it in audit.lines_with(self.top, ["low"], audit.UNSAFE)], [12])
        self.assertEqual([it.line for it in audit.lines_with(self.top, ["low"], audit.OUTSIDE)], [11])

    def test_holes_and_axioms_are_found(self) -> None:
        self.write("crates/low/proofs/A.antt", 'x = f ? y\ny = "?" -- why?\n')
        self.write("crates/low/specs/B.antt", "axiom z : ⊥\n")
        self.assertEqual(audit.unproved(self.top), (2, ["`crates/low/proofs/A.antt:1`", "`crates/low/specs/B.antt:1`"]))

    def test_statements_of_the_calls_that_are_made_are_found(self) -> None:
        kit = "kit/hex/src/lib.rt"
        self.write(
            kit,
            "pub fn encode(x: u8) -> u8\n    ensures { result ≡ x }\n{\n    x\n}\n\npub fn other()\n    ensures { ⊤ }\n{\n}\n",
        )
        self.assertEqual(audit.statements(self.top, ["low"], self.top / "kit", "hex"), [])
        self.write("crates/low/src/uses.rt", "use hex::encode;\n\nfn f() { encode(1); }\n")
        found = audit.statements(self.top, ["low"], self.top / "kit", "hex")
        self.assertEqual(found, ["pub fn encode(x: u8) -> u8\n    ensures { result ≡ x }"])


if __name__ == "__main__":
    unittest.main()
