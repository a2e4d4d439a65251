"""The sources of bench/worst.py: what each family's smallest one is, and that the server answers it."""

import importlib.util
import os
import sys
import unittest

from tests.calls import PROGRAM, TOP, Calls, needs_program

SPEC = importlib.util.spec_from_file_location("worst", os.path.join(TOP, "bench", "worst.py"))
assert SPEC is not None and SPEC.loader is not None
worst = importlib.util.module_from_spec(SPEC)
sys.modules["worst"] = worst
SPEC.loader.exec_module(worst)

# Answers a script of one client whose last command is an export.
SERVER = """#!/bin/sh
count=$(wc -l)
printf '== a\\n1 ok 1\\n2 ok 2\\n%s solid 2\\n4OFF\\n0 0 0\\n' "$count"
"""


class Sources(unittest.TestCase):
    def test_small_ones_are_those_that_their_families_say(self):
        for name, number, source in (
            (
                "children-idle",
                1,
                "module m(n) { if (n > 0) m(n - 1) { children(); children(); children(); } else children(); } m(1);",
            ),
            ("children-index", 2, "module m() { for (i = [0:$children - 1]) children(i); } m() { if (false) ; if (false) ; }"),
            ("block-entries", 2, "module b() { function f0() = 0; function f1() = 0; } for (i = [1:2]) b();"),
            ("block-empties", 3, "module b() { ; ; ; } for (i = [1:3]) b();"),
            ("assigns", 4, "module b() { v0=0; v1=0; v2=0; v3=0; } for (i = [1:1]) b();"),
            ("same-name", 2, "x=0; x=1;"),
            ("sum-called", 10, "function f() = 1 + 1 + 1 + 1 + 1 + 1 + 1 + 1 + 1 + 1; for (i = [1:1]) { a = f(); }"),
            ("named-args", 2, "module m(p0, p1) {} for (i = [1:2]) m(p0=0, p1=0);"),
            (
                "grid-holes",
                2,
                "difference() { cube([4000, 4000, 1]); for (i = [0:1], j = [0:1]) translate([9 * i + 2, 9 * j + 2, -1])"
                " cube([4, 4, 3]); }",
            ),
        ):  # fmt: skip
            self.assertEqual(worst.FAMILIES[name].source(number), source)

    def test_hulls_have_128_points_of_which_so_many_lie_on_a_plane(self):
        flat, hill = worst.flat_points(), worst.round_points()
        self.assertEqual((len(set(flat)), len(set(hill))), (128, 128))
        self.assertEqual([it for it in flat if it[2] != 0], [(50, 50, 1)])
        for axis in range(3):
            levels = [it[axis] for it in hill]
            self.assertLessEqual(max(map(levels.count, levels)), 4)
        for text in (worst.hulls(flat, 7), worst.hulls(hill, 7)):
            self.assertEqual(text.count("["), 1 + 128 + 1 + 4 + 1 + 1)

    def test_scripts_are_within_what_a_script_may_have(self):
        for name, family in worst.FAMILIES.items():
            sizes = []
            for number in (family.numbers[0], family.numbers[-1]):
                text = worst.script(family.source(number))
                self.assertLessEqual(len(text), worst.SCRIPT, name)
                lines = text.splitlines()
                self.assertTrue(all(len(it) <= 1024 for it in lines), name)
                self.assertLessEqual(len(lines), 4097, name)
                self.assertEqual(lines[-1], "a export")
                sizes.append(len(text))
            self.assertLessEqual(sizes[0], sizes[1], name)

    def test_a_long_line_is_broken_at_spaces(self):
        text = " ".join(["word"] * 900)
        self.assertEqual(" ".join(worst.wrapped(text)), text)
        self.assertLessEqual(max(map(len, worst.wrapped(text))), worst.LINE)


class Rows(Calls):
    def test_each_size_has_a_row_with_its_answer_and_its_growth(self):
        os.chmod(self.path(self.write("server", SERVER)), 0o755)
        found = worst.rows(self.path("server"), "hull-grid", 10)
        self.assertRegex(found[0], r"^16 \| 1580 \| \d+\.\d\d \|  \| solid 2 \|$")
        self.assertRegex(found[2], r"^64 \| 6362 \| \d+\.\d\d \| -?\d+\.\d \| solid 2 \|$")
        self.environment["SCADSERVE"] = self.path("server")
        status, out, error = self.call("--largest", "slabs", "hull-grid", tool=os.path.join(TOP, "bench", "worst.sh"))
        self.assertEqual((status, error), (0, b""))
        self.assertEqual([it.split("`")[1] for it in out.decode().splitlines()[2:]], ["slabs", "hull-grid"])
        self.assertIn(b" | 300 | ", out)
        self.assertEqual(self.call("cubes", tool=os.path.join(TOP, "bench", "worst.sh"))[0], 2)
        self.assertEqual(worst.answer(b"== a\n1 ok 1\n2 ok 2\n3 solid 2\n4OFF\n3 1 0\n", 3), "solid 2")
        self.assertEqual(worst.answer(b"== a\n1 ok 1\n2 fault 1:10 NotConvex\n", 2), "fault 1:10 NotConvex")
        self.assertEqual(worst.answer(b"", 2), "")

    def test_a_run_that_takes_longer_is_ended_and_no_larger_one_is_begun(self):
        self.write("server", "#!/bin/sh\nexec sleep 20\n")
        os.chmod(self.path("server"), 0o755)
        [row] = worst.rows(self.path("server"), "slabs", 0.2)
        self.assertTrue(row.endswith("|  |  | more than 0.2 s |"), row)

    @needs_program
    def test_the_server_answers_each_familys_smallest_source(self):
        for name, family in worst.FAMILIES.items():
            done = worst.run(PROGRAM, worst.script(family.source(family.numbers[0])), 100)
            self.assertRegex(done.answer, r"^(solid \d+|complex \w+( \d+)?|fault \d+:\d+ TooMany\w+)$", name)


if __name__ == "__main__":
    unittest.main()
