"""OpenSCAD reads what off2stl writes as it is meant, and makes the same of the sources. Where it is not installed, the tests
are skipped."""

import os
import re
import subprocess
import unittest
from fractions import Fraction

from scadserve.solid.fouroff import read
from scadserve.solid.measures import volume
from tests import touching
from tests.calls import TOP
from tests.others_case import Case, by_chance, known, needs_admesh, needs_openscad, number_in
from tests.solids import examples, gallery


class Reading(Case):
    @needs_openscad
    def test_openscad_computes_with_what_does_not_touch_itself(self):
        def command(file):
            # An intersection makes OpenSCAD convert what it imports, which it refuses to do for what is not closed.
            name = os.path.basename(file)
            text = f'intersection() {{ import("{name}"); cube(9000, center = true); }}\n'
            return ["openscad", "-o", name + ".off", self.file(name + ".scad", text.encode())]

        # (between plates each edge is told from others by points, so that OpenSCAD takes it, too)
        between = {"board between plates": touching.board(plate=True, lid=True)}
        for name, said in self.read_by({**examples(), **gallery(), **between}, command).items():
            with self.subTest(name):
                self.assertNotRegex(said, "ERROR|WARNING")
                self.assertRegex(said, r"Simple: +yes\n")

    @needs_openscad
    @needs_admesh
    def test_openscad_hands_on_what_touches_itself(self):
        def command(file):
            name = os.path.basename(file)
            script = self.file(name + ".scad", f'import("{name}");\n'.encode())
            return ["sh", "-c", f"openscad -o {name}.stl {script} && admesh {name}.stl"]

        texts = known()
        boards = {name: texts[name][0] for name in texts if "board" in name}
        for (name, ending), said in self.read_by(boards, command, ("stl", "off", "3mf")).items():
            with self.subTest(name, ending=ending):
                self.assertNotRegex(said, "ERROR|WARNING")
                self.assertEqual(number_in(said, "Number of parts"), texts[name][1])
                self.assertRegex(said, r"Edges fixed +: +0\n")

    @needs_openscad
    def test_openscad_reads_each_format(self):
        file = self.file("a.4off", gallery()["bracket"])
        for ending, words in (("stl", []), ("stl", ["--format", "binstl"]), ("off", []), ("3mf", [])):
            with self.subTest(ending):
                self.assertEqual(self.call(*words, "-o", self.path(f"a.{ending}"), file)[0], 0)
                self.file("a.scad", b'import("a.%s");' % ending.encode())
                command = ["openscad", "-o", "b.off", "a.scad"]
                done = subprocess.run(command, cwd=self.folder, stderr=subprocess.PIPE, check=True)
                self.assertRegex(done.stderr.decode(), r"Facets: +72\n")
                self.assertNotRegex(done.stderr.decode(), "ERROR|WARNING")


@needs_openscad
class BesideOpenScad(Case):
    """What OpenSCAD makes of the same sources."""

    def made(self, sources):
        """What OpenSCAD says of sources by name, and the corners of the triangles that it writes."""
        commands = {}
        for at, (name, source) in enumerate(sources.items()):
            commands[name] = ["openscad", "-o", f"{at}.stl", self.file(f"{at}.scad", source)]
        outputs = self.run_all(commands)
        number = r"vertex (\S+) (\S+) (\S+)\n"
        for at, (name, said) in enumerate(outputs.items()):
            yield name, said, [tuple(map(float, it)) for it in re.findall(number, self.bytes_of(f"{at}.stl").decode())]

    def assert_same(self, name, text, corners):
        """OpenSCAD's triangles have the same volume as a text, and what off2stl writes has at most a third more."""
        six = 0
        for p, q, r in zip(corners[::3], corners[1::3], corners[2::3]):
            six += sum(p[i] * (q[(i + 1) % 3] * r[(i + 2) % 3] - q[(i + 2) % 3] * r[(i + 1) % 3]) for i in range(3))
        self.assert_near(six / 6, volume(read(text)).value)
        self.assertEqual(self.call("-o", self.path("own.stl"), self.file("own.4off", text))[0], 0)
        own = self.bytes_of("own.stl").count(b"outer loop")
        self.assertLessEqual(own, Fraction(4, 3) * len(corners) / 3, name)

    def test_the_gallery_and_chess_boards(self):
        sources = {}
        # (of a hull of points that no face has OpenSCAD makes less: those are what csg2scad made of its own evaluation)
        for name in (it for it in gallery() if not os.path.exists(os.path.join(TOP, "gallery", "openscad", f"{it}.scad"))):
            with open(os.path.join(TOP, "gallery", name + ".scad"), "rb") as it:
                sources[name] = it.read()
        sources["board"] = touching.BOARD.encode()
        sources["board on a plate"] = (touching.BOARD + touching.PLATE).encode()
        texts = known()
        for name, said, corners in self.made(sources):
            with self.subTest(name):
                self.assert_same(name, texts[name][0], corners)
                # (the space around a solid counts as well)
                self.assertEqual(number_in(said, "Volumes") or texts[name][1] + 1, texts[name][1] + 1)

    def test_solids_by_chance(self):
        solids = {str(at): it for at, it in enumerate(by_chance(40))}
        for name, said, corners in self.made({name: touching.source_of(it).encode() for name, it in solids.items()}):
            with self.subTest(name):
                self.assert_same(name, touching.text_of(solids[name]), corners)
                self.assertEqual(number_in(said, "Volumes"), touching.parts_and_spaces(solids[name]))


if __name__ == "__main__":
    unittest.main()
