"""The client module and scad2off with the program that `rt ci` has built; skipped where it is not built."""

import glob
import hashlib
import os
import re
import subprocess
import unittest

from scadserve.server.scripts import BadScript, Fault, Ok, Script, Solid, Text, printed, read, run
from tests.calls import PROGRAM, TOP, Calls, needs_program

MIB = 1_048_576
USAGE = b"usage: scadserve run [--workers N] [--memo W] [--share S] [--half] [--tally] | demo N\n"


class Raw:
    """A script of any bytes."""

    def __init__(self, script, half=False):
        self.script, self.half = script, half

    def __bytes__(self):
        return self.script


@needs_program
class Program(Calls):
    def setUp(self):
        super().setUp()
        self.environment["SCADSERVE"] = PROGRAM

    def answers(self, script):
        """The replies to the clients of one script."""
        [answers] = run([script], [PROGRAM])
        return answers

    def fault_of(self, script):
        """The line that the program writes of the fault of a script."""
        with self.assertRaises(BadScript) as caught:
            self.answers(Raw(script))
        return caught.exception.output

    def bytes_of(self, path):
        with open(path, "rb") as it:
            return it.read()

    def test_each_example_has_its_output(self):
        for path in glob.glob(os.path.join(TOP, "examples", "*.script")):
            with self.subTest(path=path):
                output = self.bytes_of(path[: -len("script")] + "output")
                self.assertEqual(printed(self.answers(Raw(self.bytes_of(path)))), output)

    def test_each_source_of_the_examples_has_the_solid_or_the_fault_of_its_script(self):
        for path in glob.glob(os.path.join(TOP, "examples", "*.scad")):
            stem, _, name = os.path.basename(path)[: -len(".scad")].partition("-")
            script, output = (os.path.join(TOP, "examples", f"{stem}.{it}") for it in ("script", "output"))
            answers = read(self.bytes_of(script), self.bytes_of(output))
            last = [it for it in answers[name or "a"] if isinstance(it, (Solid, Fault))][-1]
            with self.subTest(path=path):
                status, out, error = self.call(path)
                if isinstance(last, Solid):
                    self.assertEqual((status, out, error), (0, last.text, b""))
                else:
                    self.assertEqual((status, out), (1, b""))
                    place = f"{path}:{last.line}:{last.column}: error: {last.word}: "
                    self.assertTrue(error.decode().startswith(place), error)

    def test_each_build_of_the_program_ends_with_its_status(self):
        # (`rt ci` leaves two builds, and one may be copied or named alone)
        programs = [it for it in (PROGRAM, f"{PROGRAM}.by-rattle") if os.path.exists(it)]
        box = os.path.join(TOP, "examples", "box")
        for words, script, status, output in (
            (["run"], self.bytes_of(f"{box}.script"), 0, self.bytes_of(f"{box}.output")),
            (["run", "--tally"], b"a show\n\nb show\n", 3, b"script 2 NoName\n"),
            (["run", b"\xff"], b"", 2, USAGE),
        ):
            for program in programs:
                with self.subTest(program=program, words=words):
                    self.assertEqual(self.call(*words, stdin=script, tool=program), (status, output, b""))

    def test_a_script_that_is_full_is_a_script_and_a_larger_one_is_not(self):
        lines = [b"//" + b"x" * 1_014] * 1_022
        left = MIB - len(b"a export\n") - 1_025 * 1_022 - len(b"a put 1 \n")
        script = Script()
        client = script.client("a")
        client.source([*lines, b"/" * left])
        at = client.export()
        self.assertEqual(len(script), MIB)
        self.assertEqual(self.answers(script)["a"][at].faces, 0)
        self.assertEqual(self.fault_of(bytes(script) + b"\n"), b"script TooLarge\n")

    def test_lines_names_clients_and_commands_have_the_limits_of_the_program(self):
        script = Script()
        first = script.client("a" * 16)
        first.source([b"/" * 1_001])
        for number in range(8_191):
            first.set(1, b"%d" % number)
        for number in range(15):
            script.client(f"c{number}").show()
        answers = self.answers(script)
        self.assertEqual(answers["a" * 16][-1], Ok(1))
        self.assertEqual(answers["c14"], [Text(())])
        lines = bytes(script).count(b"\n")
        for line, word in (
            (b"a" * 16 + b" show", b"TooManyCommands"),
            (b"c15 show", b"TooManyClients"),
            (b"a" * 17 + b" show", b"NoName"),
            (b"c1 put 1 " + b"x" * 1_016, b"TooLong"),
        ):
            said = self.fault_of(bytes(script) + line + b"\n")
            self.assertEqual(said, b"script %d %b\n" % (lines + 1, word))

    def test_sessions_have_the_limits_of_the_program(self):
        script = Script()
        client = script.client("a")
        client.source([b"//"] * 4_096)
        for _ in range(16):
            client.show()
            client.export()
        past = b"a put 1 x\na show\na export\na set 4097 x\na cut 2 1\na put 0\n"
        replies = self.answers(Raw(bytes(script) + past))["a"]
        self.assertEqual(replies[4_095], Ok(4_096))
        self.assertEqual(
            [it.word for it in replies[-6:]],
            ["TooManyLines", "TooManyShows", "TooManyExports", "NoSuchLine", "NoSuchLine", "NoSuchLine"],
        )

    def test_every_byte_of_a_line_comes_back_from_the_program(self):
        lines = [bytes(it for it in range(256) if it != 10), b"\r", b"x\r\r", b"", b"x" * 1_015 + b"\r"]
        script = Script()
        client = script.client("a")
        client.source(lines)
        at = client.show()
        self.assertEqual(self.answers(script)["a"][at], Text(tuple(lines)))

    def test_half_units_change_what_a_source_is_answered(self):
        replies = []
        for half in (False, True):
            script = Script(half)
            client = script.client("a")
            client.source([b"cube(3, center=true);"])
            at = client.export()
            replies.append(self.answers(script)["a"][at])
        self.assertEqual(replies[0], Fault(1, 1, "NotOnGrid"))
        self.assertIn(b"\n-3 -3 -3 2\n", replies[1].text)

    def test_a_source_that_makes_nothing_is_told_unless_it_is_allowed(self):
        sources = [b"", b"// cube(1);\n/* cube(1); */", b"// one\rcube(1);\r", b"*cube(1);"]
        for source in [*sources, b"difference() { union(); cube(1); }\n"]:
            with self.subTest(source=source):
                status, out, error = self.call(self.write("part.scad", source), "-o", "part.4off")
                self.assertEqual((status, out, self.names()), (1, b"", ["part.scad"]))
                self.assertTrue(error.startswith(b"part.scad: error: Empty: "), error)
                self.assertEqual(self.call("part.scad", "--allow-empty"), (0, b"4OFF\n0 0 0\n", b""))

    def test_a_byte_of_0_hides_nothing(self):
        self.write("part.scad", b"// \x00\ncube(1); // \x00 cube(9);\nw = 2; /* \x00 */ w = 3; translate([1, 0, 0]) cube(w);")
        self.assertIn(b"\n4 3 3 1\n", self.call("part.scad")[1])
        error = self.call(self.write("part.scad", b"cube(\x00);"))[2]
        self.assertTrue(error.startswith(b"part.scad:1:6: error: BadCharacter: "), error)

    def test_an_assignment_behind_the_source_counts(self):
        self.write("part.scad", "w = 2; cube(w);\n")
        self.assertIn(b"\n8 8 8 1\n", self.call("part.scad", "-D", "w=3", "-D", "w=2 * 4")[1])
        error = self.call("part.scad", "-D", "w=7 / 2")[2]
        said = "-D w=7 / 2: error: NotWhole: what / gives is not a whole number (with part.scad)\n"
        self.assertTrue(error.decode().startswith(said), error)

    def test_a_source_is_told_of_its_own_end_and_not_of_assignments_behind_it(self):
        for source, said in (
            ("cube(2));", "1:8: error: Expected: ) can't follow"),
            ("cube(2", "2:1: error: Expected: the source ends in the middle"),
            ("translate([1, 0, 0])", "2:1: error: Expected: the source ends in the middle"),
            ("module m() {\n", "2:1: error: Expected: the source ends in the middle"),
            ("x = 5 +", "2:1: error: Expected: the source ends in the middle"),
        ):
            with self.subTest(source=source):
                _, told = self.call(self.write("part.scad", source), "-D", "w=8")[2].decode().split("\n", 1)
                self.assertTrue(told.startswith(f"part.scad:{said}"), told)

    def demonstration(self, parts):
        """The script of `demo`, as docs/SPECIFICATION.md writes it."""
        lines = []
        for client in range(1, 9):
            part = f"translate([7*i, 0, 0]) difference() {{ cube(4); translate([1, 1, 0]) cube([2, 2, {1 + client % 3}]); }}"
            lines += [f"c{client} put 1 module part(i) {{ {part} }}", f"c{client} put 2 for (i = [1 : {parts}]) part(i);"]
            lines += [f"c{client} export"]
        return "".join(f"{it}\n" for it in lines).encode()

    def test_the_demonstration_tells_the_digests_of_the_texts_that_a_run_answers(self):
        for parts in (1, 10):
            told = []
            for name, replies in self.answers(Raw(self.demonstration(parts))).items():
                text = replies[-1].text
                counts = re.match(rb"4OFF\n(\d+) (\d+) 0\n", text)
                digest = hashlib.sha256(text).hexdigest()
                told.append(f"{name} facets {int(counts[2])} vertices {int(counts[1])} sha256 {digest}\n")
            status, out, _ = self.call("demo", str(parts), tool=PROGRAM)
            self.assertEqual((status, out.decode()), (0, "".join(told)), parts)

    def test_an_output_that_is_closed_is_a_fault_of_the_output(self):
        script = b"a put 1 for (i = [1 : 170]) translate([2*i, 2*i, 2*i]) cube(1);\n" + b"a export\n" * 16
        pipes = {"stdin": subprocess.PIPE, "stdout": subprocess.PIPE, "bufsize": 0}
        with subprocess.Popen([PROGRAM, "run"], **pipes) as server:
            server.stdin.write(script)
            server.stdin.close()
            self.assertEqual(server.stdout.read(10), b"== a\n1 ok ")
            server.stdout.close()
            self.assertEqual(server.wait(100), 5)

    def most_threads(self, workers, script):
        """The most threads that were seen while a script was served by this many workers."""
        words = [PROGRAM, "run", "--workers", str(workers)]
        with subprocess.Popen(words, stdin=subprocess.PIPE, stdout=subprocess.DEVNULL) as server:
            server.stdin.write(script.encode())
            server.stdin.close()
            most = 0
            while server.poll() is None:
                try:
                    most = max(most, len(os.listdir(f"/proc/{server.pid}/task")))
                except OSError:
                    pass
        self.assertEqual(server.returncode, 0)
        return most

    @unittest.skipUnless(os.path.isdir("/proc/self/task"), "needs /proc")
    def test_an_export_has_as_many_workers_as_the_words_say(self):
        line = "for (x = [0 : 24], y = [0 : 24]) translate([2 * x + 3 * y, 2 * y, x]) cube(3);"
        script = f"a put 1 {line}\na export\n"
        self.assertGreater(self.most_threads(4, script), self.most_threads(1, script))

    @unittest.skipUnless(os.path.isdir("/proc/self/task"), "needs /proc")
    def test_exports_at_the_same_time_share_the_workers(self):
        line = "for (x = [0 : 24], y = [0 : 24]) translate([2 * x + 3 * y, 2 * y, x]) cube({});"
        clients = [f"c{it} put 1 {line.format(3 + it)}\nc{it} export\n" for it in range(8)]
        # With all that the words say each, these would be 8 times 16 threads.
        self.assertLess(self.most_threads(16, "".join(clients)), 80)

    def test_a_solid_past_a_limit_is_told(self):
        bars = "module bars(v, s) for (i = [0 : 14]) translate(2 * i * v) cube(s);\nintersection() {\n"
        bars += "bars([1, 0, 0], [1, 30, 30]); bars([0, 1, 0], [30, 1, 30]); bars([0, 0, 1], [30, 30, 1]); }\n"
        status, out, error = self.call(self.write("bars.scad", bars))
        self.assertEqual((status, out), (1, b""))
        self.assertTrue(error.startswith(b"bars.scad: error: complex facets: it has more than 20,000 faces\n"), error)

    def test_many_files_are_converted_as_each_alone(self):
        names = [f"part{it}.scad" for it in range(40)]
        for number, name in enumerate(names):
            self.write(name, f"difference() {{ cube({number + 3}); translate([1, 1, 1]) cube({number % 7}); }}\n")
        status, _, error = self.call("-d", "out", *names)
        self.assertEqual((status, error.splitlines()[-1]), (1, b"40 files: 34 solids, 6 faults"))
        for number, name in enumerate(names):
            if number % 7 == 0:
                column = len(f"difference() {{ cube({number + 3}); translate([1, 1, 1]) ") + 1
                self.assertIn(f"{name}:1:{column}: error: BadSize: ".encode(), error)
        for number in (1, 13, 39):
            self.assertEqual(self.call(names[number]), (0, self.read(f"out/part{number}.4off"), b""))


if __name__ == "__main__":
    unittest.main()
