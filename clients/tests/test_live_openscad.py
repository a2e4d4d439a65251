"""Solids of scadlive by OpenSCAD's front end, with the proved program and OpenSCAD itself."""

from __future__ import annotations

import unittest

from tests import live_case
from tests.calls import PROGRAM, needs_program
from tests.needs import needs


@needs_program
@needs("openscad")
class ByOpenScad(live_case.Case):
    server = PROGRAM
    words = ("--seconds", "600")

    @classmethod
    def make(cls) -> None:
        (cls.folder / "size.scad").write_text("high = 2.5;\n")
        (cls.around / "secret.scad").write_text("echo(\"the secret\"); cube(1);\n")

    def test_decimals_and_files_of_the_folder_make_a_solid_with_its_unit(self) -> None:
        text = "include <size.scad>\ncube([1, 2, high]);\n"
        self.assertEqual(self.live.solid(text).status, 422)
        answer = self.live.solid(text, openscad="1", format="json", file="part.scad")
        self.assertEqual(answer.status, 200, answer.body)
        told = answer.json()
        # (the finest grid on which 2.5 has room: it has 4,095 steps to each side)
        self.assertEqual(told["unit"], "1/1000")
        self.assertTrue(told["solid"].startswith("4OFF\n8 6 0\n"))
        self.assertTrue(any("part.scad" in it["message"] for it in told["notes"]), told["notes"])
        mesh = self.live.solid(text, openscad="1", format="off", file="part.scad", D=("high=3",))
        self.assertIn(b"1 2 3", mesh.body.splitlines())

    def test_what_openscad_may_not_read_is_refused_before_it_runs(self) -> None:
        for text, word in (
            ("include <../secret.scad>", "NoFile"), ('import("/etc/passwd");', "NotInProfile"), ("use </etc/passwd>", "NoFile")
        ):
            answer = self.live.solid(f"cube(1);\n{text}\n", openscad="1")
            self.assertEqual(answer.status, 422)
            self.assertEqual([(it["word"], it["line"]) for it in answer.json()["faults"]], [(word, 2)])
            self.assertNotIn(b"the secret", answer.body)

    def test_an_error_of_openscad_is_told(self) -> None:
        answer = self.live.solid("cube(1)", openscad="1", file="part.scad")
        self.assertEqual(answer.status, 422, answer.body)
        [fault] = answer.json()["faults"]
        self.assertEqual((fault["word"], fault["file"]), ("Expected", "part.scad"))


if __name__ == "__main__":
    unittest.main()
