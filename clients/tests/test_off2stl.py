"""The tool off2stl: what it writes is closed and what it tells is so; and what it can't read or write is told in a line."""

import os
import re
import stat
import struct
import subprocess
import unittest
import xml.etree.ElementTree as ElementTree
import zipfile
from collections import Counter
from fractions import Fraction
from unittest import mock

from scadserve.tools import off2stl
from tests import tool_case
from tests.calls import TOP
from tests.solids import CUT_CUBE, EMPTY, box, gallery, off, split_box

BLOCK = off(box((0, 0, 0), (20, 12, 16)))


class Case(tool_case.Case):
    """A call of off2stl, and what it writes."""

    tool = off2stl

    def triangles(self, name):
        """The triangles of an STL text as points of exact decimals, and their normals."""
        text = self.bytes_of(name).decode("ascii")
        number = r"(-?[0-9.]+(?:e-?[0-9]+)?)"
        facet = r"facet [^\n]*\nouter loop\n(vertex [^\n]*\n){3}endloop\nendfacet\n"
        self.assertRegex(text, rf"\Asolid [\w-]+\n({facet})*endsolid [\w-]+\n\Z")
        corners = [tuple(map(Fraction, found)) for found in re.findall(rf"vertex {number} {number} {number}\n", text)]
        normals = [tuple(map(float, found)) for found in re.findall(rf"facet normal {number} {number} {number}\n", text)]
        return list(zip(corners[::3], corners[1::3], corners[2::3])), normals

    def assert_closed(self, triangles, volume):
        """Triangles of points go along each edge as often one way as the other, and enclose this volume."""
        ways = Counter((t[i], t[(i + 1) % 3]) for t in triangles for i in range(3))
        self.assertEqual([way for way in ways if ways[way] != ways[way[::-1]]], [])
        six = sum(
            p[0] * (q[1] * r[2] - q[2] * r[1]) - p[1] * (q[0] * r[2] - q[2] * r[0]) + p[2] * (q[0] * r[1] - q[1] * r[0])
            for p, q, r in triangles
        )
        self.assertEqual(Fraction(six) / 6, volume)


class Telling(Case):
    def told(self, data, *words):
        """What is said about a solid, behind its name."""
        status, line = self.call(*words, "-o", self.path("a.stl"), self.file("a.4off", data))
        self.assertEqual(status, 0, line)
        self.assertTrue(line.startswith("a.4off: "))
        return line[len("a.4off: ") : -1]

    def test_the_bracket(self):
        expected = "46 faces, 72 triangles, 1 part, closed; unit 1 mm; box 20 x 12 x 16; volume 824"
        self.assertEqual(self.told(gallery()["bracket"]), expected)

    def test_a_unit(self):
        self.assertEqual(self.told(BLOCK), "6 faces, 12 triangles, 1 part, closed; unit 1 mm; box 20 x 12 x 16; volume 3840")
        for unit, rest in (
            ("1/10", "unit 0.1 mm; box 2 x 1.2 x 1.6; volume 3.84"),
            ("0.1", "unit 0.1 mm; box 2 x 1.2 x 1.6; volume 3.84"),
            ("1e-1", "unit 0.1 mm; box 2 x 1.2 x 1.6; volume 3.84"),
            (".5", "unit 0.5 mm; box 10 x 6 x 8; volume 480"),
            ("25.4", "unit 25.4 mm; box 508 x 304.8 x 406.4; volume 62926326"),
            ("1/3", "unit 1/3 mm; box 6.66667 x 4 x 5.33333; volume 142.222; 6 corners rounded for the format"),
        ):
            self.assertEqual(self.told(BLOCK, "--unit", unit), f"6 faces, 12 triangles, 1 part, closed; {rest}")

    def test_exact_numbers(self):
        for unit, rest in (
            ("25.4", "unit 25.4 mm; box 508 x 304.8 x 406.4; volume 62926325.76"),
            ("1/3", "unit 1/3 mm; box 20/3 x 4 x 16/3; volume 1280/9; 6 corners rounded for the format"),
        ):
            told = self.told(BLOCK, "--exact-numbers", "--unit", unit)
            self.assertEqual(told, f"6 faces, 12 triangles, 1 part, closed; {rest}")

    def test_thirds_are_rounded(self):
        # The corner that is cut off has the legs 1, 2/3 and 2/3: a sixth of their product is missing, 2/27.
        expected = "7 faces, 14 triangles, 1 part, closed; unit 1 mm; box 1 x 1 x 1; volume {}; 2 corners rounded "
        self.assertEqual(self.told(CUT_CUBE), expected.format("0.925926") + "for the format")
        self.assertEqual(self.told(CUT_CUBE, "--exact-numbers"), expected.format("25/27") + "for the format")
        expected = "7 faces, 14 triangles, 1 part, closed; unit 3 mm; box 3 x 3 x 3; volume 25"
        self.assertEqual(self.told(CUT_CUBE, "--unit", "3"), expected)

    def test_a_solid_that_touches_itself(self):
        cube = box((0, 0, 0), (1, 1, 1))
        told = self.told(off(cube + box((1, 1, 0), (2, 2, 1))))
        self.assertIn(" 24 triangles, 2 parts, closed, 1 edge of more than two faces; unit", told)
        told = self.told(off(cube + box((1, 1, 1), (2, 2, 2))))
        self.assertIn(" 24 triangles, 2 parts, closed, 1 corner where it touches itself; unit", told)

    def test_a_hollow(self):
        hollow = [face[::-1] for face in box((1, 1, 1), (2, 2, 2))]
        told = self.told(off(box((0, 0, 0), (3, 3, 3)) + hollow))
        self.assertEqual(told, "12 faces, 24 triangles, 1 part with 1 hollow, closed; unit 1 mm; box 3 x 3 x 3; volume 26")

    def test_corners_that_rounding_makes_one(self):
        thin = off(box((0, 0, 1), (1, 1, 1 + Fraction(1, 10**30))))
        # Of twelve triangles the two of the top and the two of the floor are left. Where these have a diagonal in common,
        # a corner inside one of the two tells them apart.
        expected = "6 faces, 6 triangles, 1 part, closed; unit 1 mm; box 1 x 1 x 1/1" + 30 * "0"
        rounded = "4 corners rounded for the format, 8 triangles lost by that"
        self.assertEqual(self.told(thin, "--exact-numbers"), f"{expected}; volume 1/1{30 * '0'}; {rounded}")
        self.assert_closed(self.triangles("a.stl")[0], 0)

    def test_a_volume_with_too_many_digits(self):
        # A tetrahedron with the legs 1/p, 1/q and 1/r: a sixth of 1/pqr.
        p, q, r = 10**36 + 7, 10**36 + 9, 10**36 + 33
        tips = [(0, 0, 0), (Fraction(1, p), 0, 0), (0, Fraction(1, q), 0), (0, 0, Fraction(1, r))]
        tetrahedron = [[tips[a], tips[b], tips[c]] for a, b, c in ((0, 2, 1), (0, 1, 3), (0, 3, 2), (1, 2, 3))]
        self.assertIn("; volume about 1.66666666667e-109; ", self.told(off(tetrahedron), "--exact-numbers"))
        self.assertIn("; volume 1.66667e-109; ", self.told(off(tetrahedron)))

    def test_an_edge_that_no_point_can_be_put_inside(self):
        far = Fraction(4095)
        near = far + Fraction(1, 2**41)
        told = self.told(off(box((far, far, 1), (near, near, 1 + Fraction(1, 10**30)))))
        self.assertIn("6 faces, 4 triangles, 1 part, closed, 1 edge of more than two triangles; unit 1 mm; ", told)

    def test_info_writes_nothing(self):
        file = self.file("a.4off", BLOCK)
        done = subprocess.run([TOP + "/bin/off2stl", "--info", file], capture_output=True, check=True)
        expected = "6 faces, 12 triangles, 1 part, closed; unit 1 mm; box 20 x 12 x 16; volume 3840"
        self.assertEqual(done.stdout.decode(), f"{file}: {expected}\n")
        self.assertEqual((done.stderr, os.listdir(self.folder)), (b"", ["a.4off"]))


class Formats(Case):
    def write(self, data, ending, *words):
        """Writes a solid called a-b in the format of an ending; gives the name of the file."""
        status, line = self.call(*words, "-o", self.path("new." + ending), self.file("a b.4off", data))
        self.assertEqual(status, 0, line)
        return "new." + ending

    def test_stl(self):
        triangles, normals = self.triangles(self.write(off(split_box()), "stl", "--unit", "1/10"))
        self.assertEqual(len(triangles), 12)
        self.assert_closed(triangles, Fraction(2, 1000))
        self.assertEqual(set(normals), {(1, 0, 0), (-1, 0, 0), (0, 1, 0), (0, -1, 0), (0, 0, 1), (0, 0, -1)})
        self.assertTrue(self.bytes_of("new.stl").startswith(b"solid a_b\nfacet normal -1 0 0\nouter loop\n"))

    def test_normals_have_length_1(self):
        _, normals = self.triangles(self.write(CUT_CUBE, "stl"))
        slanted = [normal for normal in normals if 0 not in normal]
        self.assertEqual(len(slanted), 1)
        for part, expected in zip(slanted[0], (2, 3, 3)):
            self.assertAlmostEqual(part, expected / 22**0.5, 8)

    def test_binary_stl(self):
        data = self.bytes_of(self.write(off(split_box()), "stl", "--format", "binstl", "--unit", "1/2"))
        self.assertEqual(data[:18], b"binary STL of a_b\0")
        self.assertEqual((len(data), struct.unpack_from("<I", data, 80)), (84 + 50 * 12, (12,)))
        records = [struct.unpack_from("<12fH", data, 84 + 50 * at) for at in range(12)]
        self.assert_closed([(r[3:6], r[6:9], r[9:12]) for r in records], Fraction(1, 4))
        self.assertEqual({r[12] for r in records}, {0})

    def test_rounding_to_singles(self):
        file = self.file("a.4off", BLOCK)
        # 20, 12 and 16 times 2 to the power 24 and 1 have too many bits for a single, and none for a double.
        for unit, rounded in (("1/10", 6), ("1/4", 0), ("1/134217728", 0), ("16777217", 7)):
            _, line = self.call("--format", "binstl", "--unit", unit, "-o", self.path("a.stl"), file)
            said = f"; {rounded} corners rounded for the format\n" if rounded else "; volume"
            self.assertIn(said, line)
            self.assertEqual("rounded" in line, rounded > 0, line)

    def test_off_and_obj(self):
        lines = self.bytes_of(self.write(off(split_box()), "off")).decode().split("\n")
        self.assertEqual((lines[:2], lines.pop()), (["OFF", "8 12 0"], ""))
        points = [tuple(map(Fraction, line.split())) for line in lines[2:10]]
        faces = [list(map(int, line.split())) for line in lines[10:]]
        self.assertEqual({face[0] for face in faces}, {3})
        self.assert_closed([tuple(points[at] for at in face[1:]) for face in faces], 2)
        lines = self.bytes_of(self.write(off(split_box()), "obj")).decode().split("\n")
        self.assertEqual((lines[0], lines.pop()), ("o a_b", ""))
        self.assertEqual([tuple(map(Fraction, line[2:].split())) for line in lines[1:9]], points)
        others = [tuple(points[int(at) - 1] for at in line[2:].split()) for line in lines[9:]]
        self.assertEqual({line[:2] for line in lines[9:]}, {"f "})
        self.assert_closed(others, 2)

    def test_3mf(self):
        name = self.write(off(split_box()), "3mf")
        first = self.bytes_of(name)
        with zipfile.ZipFile(self.path(name)) as package:
            self.assertIsNone(package.testzip())
            self.assertEqual(package.namelist(), ["[Content_Types].xml", "_rels/.rels", "3D/3dmodel.model"])
            types, relations, model = (ElementTree.fromstring(package.read(part)) for part in package.namelist())
        core = "{http://schemas.microsoft.com/3dmanufacturing/core/2015/02}"
        self.assertEqual((model.tag, model.get("unit")), (core + "model", "millimeter"))
        self.assertEqual(relations[0].get("Target"), "/3D/3dmodel.model")
        self.assertEqual({kind.get("Extension") for kind in types}, {"rels", "model"})
        points = [tuple(Fraction(vertex.get(axis)) for axis in "xyz") for vertex in model.iter(core + "vertex")]
        triangles = [tuple(points[int(it.get(f"v{at}"))] for at in "123") for it in model.iter(core + "triangle")]
        self.assert_closed(triangles, 2)
        said = {it.get("name"): it.text for it in model.iter(core + "metadata")}
        self.assertEqual(said, {"Title": "a b", "Description": "a unit of the source is 1 mm"})
        item, thing = model.find(f"{core}build/{core}item"), model.find(f"{core}resources/{core}object")
        self.assertEqual(item.get("objectid"), thing.get("id"))
        self.write(off(split_box()), "3mf")
        self.assertEqual(self.bytes_of(name), first)

    def test_names_in_other_alphabets_are_kept_where_a_format_has_them(self):
        file = self.file("Gehäuse & \u03a9\x07.4off", BLOCK)
        for ending, name in (("3mf", "Gehäuse & \u03a9_"), ("stl", "Geh_use_____"), ("obj", "Geh_use_____")):
            self.assertEqual(self.call("-o", self.path("new." + ending), file)[0], 0)
            if ending == "3mf":
                with zipfile.ZipFile(self.path("new.3mf")) as package:
                    model = ElementTree.fromstring(package.read("3D/3dmodel.model"))
                self.assertEqual(next(it.get("name") for it in model.iter() if it.tag.endswith("object")), name)
            else:
                first = self.bytes_of("new." + ending).decode("ascii").splitlines()[0]
                self.assertEqual(first.split(" ", 1)[1], name)

    def test_capital_endings_and_formats_that_are_told(self):
        self.assertTrue(self.bytes_of(self.write(BLOCK, "OBJ")).startswith(b"o a_b\n"))
        self.assertTrue(self.bytes_of(self.write(BLOCK, "txt", "--format", "off")).startswith(b"OFF\n"))


class Many(Case):
    def test_many_files_go_to_a_folder(self):
        files = [self.file("a.4off", BLOCK), self.file("b.off", CUT_CUBE), self.file("c d.4off", off(split_box()))]
        status, said = self.call("-d", self.path("out"), "--unit", "1/10", *files)
        self.assertEqual(status, 0, said)
        self.assertEqual(sorted(os.listdir(self.path("out"))), ["a.stl", "b.off.stl", "c d.stl"])
        self.assertEqual(re.findall(r"^([\w .]+): .* unit 0.1 mm; ", said, re.MULTILINE), ["a.4off", "b.off", "c d.4off"])
        self.assertEqual(said.splitlines()[3:], ["3 files: 3 solids, 0 faults"])
        for form, ending in (("3mf", ".3mf"), ("binstl", ".stl"), ("obj", ".obj")):
            self.assertEqual(self.call("-d", self.path(form), "--format", form, *files)[0], 0)
            self.assertIn("a" + ending, os.listdir(self.path(form)))

    def test_what_is_wrong_with_one_stops_no_other(self):
        files = [self.path("none.4off"), self.file("a.4off", BLOCK), self.file("b.4off", EMPTY), self.file("c.4off", b"x\n")]
        status, said = self.call("-d", self.path("out"), *files)
        self.assertEqual((status, os.listdir(self.path("out"))), (2, ["a.stl"]))
        self.assertIn("off2stl: cannot open none.4off: No such file or directory\n", said)
        self.assertIn("b.4off: error: the solid is empty, so nothing is written\n", said)
        self.assertIn("c.4off:1: error: the first line is not '4OFF'\n", said)
        self.assertTrue(said.endswith("\n4 files: 1 solid, 1 fault, 2 not read or written\n"), said)

    def test_info_of_many(self):
        files = [self.file("a.4off", BLOCK), self.file("b.4off", CUT_CUBE)]
        done = subprocess.run([TOP + "/bin/off2stl", "--info", *files], capture_output=True, check=True)
        self.assertEqual([line.split(":")[0] for line in done.stdout.decode().splitlines()], files)

    def test_words(self):
        files = [self.file("a.4off", BLOCK), self.file("b.4off", BLOCK)]
        self.assert_fault(2, files, "off2stl: several FILEs need -d DIR")
        self.assert_fault(2, ["-o", self.path("a.stl"), *files], "off2stl: several FILEs need -d DIR")
        self.assert_fault(2, ["-o", self.path("a.stl"), "-d", self.path("out"), files[0]], "-o and -d can't both be given")
        self.assert_fault(2, ["-d", self.path("out"), files[0], files[0]], "would both be written to out/a.stl")
        self.assert_fault(2, ["-d", self.path("out"), "-"], "`-` is read once, and has no name for -d")
        self.assert_fault(
            2, ["--info", "-d", self.path("out"), files[0]], "--info writes no solid, so -o and -d can't be given with it"
        )
        self.assert_fault(
            2, ["-d", self.path("a.4off/x"), files[0]], "off2stl: cannot make the folder a.4off/x: Not a directory"
        )


class Faults(Case):
    def test_the_empty_solid(self):
        file = self.file("a.4off", EMPTY)
        self.assert_fault(1, ["-o", self.path("a.stl"), file], "a.4off: error: the solid is empty, so nothing is written\n")
        self.assert_fault(1, ["--info", file], "a.4off: error: the solid is empty")

    def test_words(self):
        file = self.file("a.4off", BLOCK)
        for words in ("--wide", "--uni 2", "--format ply", "--format", "-o", "--info -o a.stl", "b.4off"):
            self.assert_fault(2, [file, *words.split()], "off2stl: ")
        for unit in ("0", "0/7", "1/0", "-1", "1e9", ".", "1e", "1e-1/2", "1/2/3", "x", "", " 1", "1" * 10, "0.0", "0e5"):
            self.assert_fault(2, [f"--unit={unit}", file], "is not a number above 0")
        for out in ("a", "a.ply", "stl"):
            self.assert_fault(2, ["-o", self.path(out), file], "is not that of a format: give --format")

    def test_files(self):
        out = ["-o", self.path("a.stl")]
        self.assert_fault(2, [*out, self.path("none.4off")], "off2stl: cannot open none.4off: No such file or directory\n")
        self.assert_fault(2, [*out, self.folder], "Is a directory\n")
        self.assert_fault(2, [*out, "a\0b"], "off2stl: cannot open a\0b: ")
        file = self.file("a.off", BLOCK)
        os.symlink(file, self.path("b.off"))
        for out in (file, self.path("b.off")):
            self.assert_fault(2, ["-o", out, file], ".off: that is the 4OFF text itself\n")
            self.assertEqual(self.bytes_of("a.off"), BLOCK)
        self.assert_fault(
            2, ["-o", self.path("none/a.stl"), file], "off2stl: cannot write none/a.stl: No such file or directory\n"
        )
        os.mkdir(self.path("folder.stl"))
        self.assert_fault(2, ["-o", self.path("folder.stl"), file], "off2stl: cannot write folder.stl: Is a directory\n")

    def test_a_text_is_no_output_by_whatever_way_it_comes(self):
        file = self.file("a.4off", BLOCK)
        for words, name in (([file], "standard output"), (["-", "-o", file, "--format", "off"], file)):
            with open(file, "rb") as stdin, open(file, "ab") as stdout:
                pipes = {"stdin": stdin, "stdout": stdout if words == [file] else subprocess.DEVNULL}
                done = subprocess.run([TOP + "/bin/off2stl", *words], stderr=subprocess.PIPE, check=False, **pipes)
            said = f"off2stl: cannot write {name}: that is the 4OFF text itself\n"
            self.assertEqual((done.returncode, done.stderr.decode()), (2, said))
            self.assertEqual(self.bytes_of("a.4off"), BLOCK)

    def test_a_file_called_as_a_stream_is_none(self):
        self.file("-", EMPTY)
        done = subprocess.run([TOP + "/bin/off2stl"], input=BLOCK, capture_output=True, cwd=self.folder, check=False)
        self.assertEqual((done.returncode, done.stdout[:12]), (0, b"solid solid\n"), done.stderr)

    def test_a_solid_that_rounding_makes_one_point(self):
        # Near 1 singles are 6e-8 apart, and doubles 1e-16.
        tiny = self.file("a.4off", off(box((1, 1, 1), [1 + Fraction(1, 10**9)] * 3)))
        said = "a.4off: error: rounding moves all corners to one point, so nothing is written: "
        self.assert_fault(1, ["--format", "binstl", "-o", self.path("a.stl"), tiny], said)
        self.assertEqual(self.call("-o", self.path("a.stl"), tiny)[0], 0)

    def test_want_of_memory_is_told(self):
        with mock.patch("scadserve.calls.off2tool.read_file", side_effect=MemoryError):
            self.assert_fault(6, [self.path("a.4off")], ": memory ran out\n")

    def test_texts(self):
        for data, said in (
            (b"", "a.4off:1: error: the text is empty\n"),
            (b"part.scad:2:10: error: NotWhole\n", "a.4off:1: error: the first line is not '4OFF'\n"),
            (BLOCK[:-1], "a.4off:16: error: the text breaks off: no newline at its end\n"),
            (
                off(box((0, 0, 0), (1, 1, 1))[1:]),
                "a.4off: error: not closed: 4 edges do not occur equally often in both directions\n",
            ),
            (
                off([face[::-1] for face in box((0, 0, 0), (1, 2, 3))]),
                "a.4off: error: its faces look inward: the volume is -6\n",
            ),
        ):
            words = ["-o", self.path("old.stl"), self.file("a.4off", data)]
            self.file("old.stl", b"as it was")
            self.assertEqual(self.call(*words), (2, f"{said}old.stl: warning: it stays as it was, and is not of this source\n"))
            self.assertEqual(self.bytes_of("old.stl"), b"as it was")
            self.file("old.stl", b"solid a\nendsolid a\n")
            self.assertEqual(self.call(*words), (2, f"{said}old.stl: removed, since it was made of an earlier source\n"))
            self.assertEqual(os.listdir(self.folder), ["a.4off"])

    def test_a_source_is_told_as_that(self):
        said = "part.scad:1: error: the first line is not '4OFF': scad2off makes a 4OFF text of a source\n"
        self.assert_fault(2, ["-o", self.path("a.stl"), self.file("part.scad", b"cube(2);\n")], said)

    def test_a_write_that_fails_leaves_the_old_file(self):
        file, old = self.file("a.4off", BLOCK), self.file("old.stl", b"as it was")
        with mock.patch("os.replace", side_effect=OSError(28, "No space left on device")):
            self.assert_fault(2, ["-o", old, file], "off2stl: cannot write old.stl: No space left on device\n")
        self.assertEqual(self.bytes_of("old.stl"), b"as it was")

    @unittest.skipUnless(os.path.exists("/dev/full"), "there is no /dev/full")
    def test_standard_output_that_is_full(self):
        for words in ([], ["--help"]):
            with open("/dev/full", "wb") as full:
                done = subprocess.run(
                    [TOP + "/bin/off2stl", *words], input=BLOCK, stdout=full, stderr=subprocess.PIPE, check=False
                )
            said = b"off2stl: cannot write standard output: No space left on device\n"
            self.assertEqual((done.returncode, done.stderr), (2, said))


class Calling(Case):
    def test_through_a_link_from_a_pipe(self):
        link = self.path("link")
        os.symlink(TOP + "/bin/off2stl", link)
        for words in ([], ["-"], ["-o", "-"]):
            done = subprocess.run([link, *words], input=BLOCK, capture_output=True, cwd=self.folder, check=True)
            self.assertTrue(done.stdout.startswith(b"solid solid\n"))
            self.assertTrue(done.stderr.startswith(b"<stdin>: 6 faces"))

    def test_a_reader_that_leaves(self):
        part = self.file("a.4off", gallery()["menger"])
        done = subprocess.run(f"'{TOP}/bin/off2stl' '{part}' | head -n 1", shell=True, capture_output=True, check=True)
        self.assertEqual((done.stdout, done.stderr), (b"solid a\n", b""))

    def test_a_file_is_replaced_as_it_was(self):
        old = self.file("old.stl", b"as it was")
        os.chmod(old, 0o640)
        os.symlink(old, self.path("link.stl"))
        self.assertEqual(self.call("-o", self.path("link.stl"), self.file("-a=b.4off", BLOCK))[0], 0)
        self.assertTrue(os.path.islink(self.path("link.stl")))
        self.assertEqual(stat.S_IMODE(os.stat(old).st_mode), 0o640)
        self.assertTrue(self.bytes_of("old.stl").startswith(b"solid -a_b\n"))
        self.assertEqual(sorted(os.listdir(self.folder)), ["-a=b.4off", "link.stl", "old.stl"])

    def test_help(self):
        done = subprocess.run([TOP + "/bin/off2stl", "--help"], capture_output=True, check=True)
        for word in ("--unit", "--exact-numbers", "--format", "--info", "-o OUT", "FILE"):
            self.assertIn(word, done.stdout.decode())


if __name__ == "__main__":
    unittest.main()
