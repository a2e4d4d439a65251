"""The options of scad2off, and the statuses it ends with."""

import functools
import os
import shutil
import signal
import subprocess
import sys
import time
import unittest

from tests.calls import SCAD2OFF, TOP, Calls
from tests.stand_in import BOX

BOX_6, BOX_8 = (BOX.format(it).encode() for it in (6, 8))


# What -D does not take: nothing assigned, several assignments, and what would be more than one with the `;` behind it.
NO_DEFINITIONS = [
    "w", "w=", "2=w", "=2", "w=1\nx=2", "w=1; x=2", "w=6; cube(9)", "w=6; }", "w=6 //", "w=(6", "cube(2)", "w==6", ""
]


class Words(Calls):
    def test_a_variable_is_assigned_behind_the_source(self):
        self.write("part.scad", "w=6;")
        self.assertEqual(self.call("-D", "w=8", "part.scad"), (0, BOX_8, b""))
        self.assertEqual(self.call("-Dw=1", "-D", "w=6", "part.scad", "-D", "$fn=4"), (0, BOX_6, b""))
        self.assertEqual(self.runs()[1][1], b"a put 1 w=6;\na put 2 w=1;\na put 3 w=6;\na put 4 $fn=4;\na export\n")

    def test_an_assignment_takes_spaces_and_a_semicolon_and_is_one(self):
        self.write("part.scad", "w=6;")
        self.assertEqual(self.call("-D", " w = 8 ; ", "part.scad"), (0, BOX_8, b""))
        self.assertEqual(self.runs()[0][1], b"a put 1 w=6;\na put 2 w = 8;\na export\n")

    def test_an_assignment_of_a_name_that_the_source_never_has_is_told(self):
        self.write("part.scad", "// h\nw=6; $k = 1;")
        warning = b"part.scad: warning: the source never has %b, which -D assigns\n"
        self.assertEqual(self.call("-D", "h=8", "part.scad"), (0, BOX_6, warning % b"h"))
        self.assertEqual(self.call("-D", "$h=8", "-D", "$fn=4", "-D", "$k=2", "part.scad"), (0, BOX_6, warning % b"$h"))

    def test_a_fault_in_an_assignment_is_told_of_it(self):
        self.write("part.scad", "h=2; w=6;\n")
        status, out, error = self.call("-D", "h=3", "-D", "w=2.5", "part.scad")
        self.assertEqual((status, out), (1, b""))
        self.assertEqual(
            error.decode().splitlines()[:3],
            ["-D w=2.5: error: NotWhole: 2.5 is not a whole number (with part.scad)", "    w=2.5;", "      ^"],
        )

    def test_a_limit_that_an_assignment_passes_is_told_of_it(self):
        status, _, error = self.call("-D", "w=8", self.write("part.scad", b"w=1;" + b"\n" * 4_096))
        self.assertEqual(status, 1)
        self.assertTrue(error.startswith(b"-D w=8: error: TooManyLines: "), error)

    def test_a_file_that_ends_in_the_middle_of_a_statement_is_told_of_its_end(self):
        self.write("open.scad", "w=6;\n//= open\n")
        self.write("good.scad", "w=6;\n")
        self.write("half.scad", "cube(2.5);\n")
        status, _, error = self.call("-D", "w=8", "-d", "out", "open.scad", "half.scad", "good.scad")
        self.assertEqual(status, 1)
        firsts = [it for it in error.decode().splitlines() if "error" in it]
        self.assertEqual(
            firsts,
            [
                "open.scad:3:1: error: Expected: the source ends in the middle of a statement",
                "half.scad:1:6: error: NotWhole: 2.5 is not a whole number",
            ],
        )
        self.assertEqual(self.read("out/good.4off"), BOX_8)

    def test_half_units_are_asked_of_the_server(self):
        self.call("--half", self.write("part.scad", "w=6;\n"))
        self.assertEqual(self.runs()[0][0], b"run --half")

    def test_help_tells_each_option(self):
        status, out, error = self.call("--help")
        self.assertEqual((status, error), (0, b""))
        for option in (b"-o", b"-d", b"--half", b"-D", b"--allow-empty", b"--script", b"--explain", b"-I"):
            self.assertIn(b"\n  %b " % option, out)
        self.assertIn(b"`--` is a FILE", out)

    def test_wrong_words_are_told_and_nothing_runs(self):
        self.write("a.scad", "")
        os.makedirs(self.path("b/c"))
        self.write("b/a.scad", "")
        self.write("b/x.scad", "")
        self.write("x.4off", "")
        for words, said in (
            ([], "no FILE is named"),
            (["--nonsense", "a.scad"], "unrecognized arguments: --nonsense (see scad2off --help)"),
            (["--hal", "a.scad"], "unrecognized arguments: --hal"),
            (["-o", "--", "a.scad"], "argument -o: expected one argument"),
            (["-x"], "unrecognized arguments: -x"),
            (["-o"], "argument -o: expected one argument"),
            (["--explain", "Empty", "a.scad"], "--explain takes no FILE"),
            (["a.scad", "b/a.scad"], "several FILEs need -d DIR"),
            (["-d", "out", "-o", "out", "a.scad"], "-o and -d can't both be given"),
            (["-d", "out", "--script", "a.scad"], "--script prints one script"),
            (["-d", "out", "a.scad", "b/a.scad"], "a.scad and b/a.scad would both be written to out/a.4off"),
            (["-d", "out", "-"], "`-` is read once, and has no name for -d"),
            *((["-D", it, "a.scad"], "is not one NAME=VALUE (see") for it in NO_DEFINITIONS),
            (["-o", "x.4off", "x.4off"], "cannot write x.4off: that is a source"),
            (["-o", "a.scad", "b/x.scad"], "a.scad would be a 4OFF text: that is the ending of a source"),
            (["-o", "a.png", "a.scad"], "a.png would be a 4OFF text: off2svg makes a picture of one, as SVG"),
            (["-o", "", "a.scad"], "cannot write : No such file or directory"),
            (["-d", "", "a.scad"], "cannot make the folder : No such file or directory"),
            (["-o", "a.STL", "a.scad"], "a.STL would be a 4OFF text: off2stl makes such a file of one"),
            (["-o", "a.off", "a.scad"], "a.off would be a 4OFF text: off2stl makes such a file of one"),
            (["-o", "a.svg", "a.scad"], "a.svg would be a 4OFF text: off2svg makes such a file of one"),
            (["-o", "b", "a.scad"], "cannot write b: Is a directory"),
            (["-o", "no/a.4off", "a.scad"], "cannot write no/a.4off: No such file or directory"),
            (["-d", "a.scad", "a.scad"], "cannot make the folder a.scad: File exists"),
        ):
            with self.subTest(words=words):
                status, out, error = self.call(*words)
                self.assertEqual((status, out), (2, b""))
                self.assertIn(said, error.decode())
                self.assertEqual(error.count(b"scad2off: "), 1)
        self.assertEqual(self.runs(), [])
        self.assertNotIn("out", self.names())

    def test_a_file_that_would_be_written_over_a_source_stops_no_other(self):
        os.mkdir(self.path("b"))
        self.write("b/x.scad", "w=6;\n")
        self.write("x.4off", "w=8;\n")
        status, _, error = self.call("-d", ".", "b/x.scad", "x.4off")
        self.assertEqual((status, self.read("x.4off"), self.read("x.4off.4off")), (2, b"w=8;\n", BOX_8))
        self.assertEqual(
            error.decode().splitlines(),
            ["scad2off: cannot write ./x.4off: that is a source", "2 files: 1 solid, 0 faults, 1 not read or written"],
        )

    def test_the_script_is_printed_and_not_run(self):
        for name in ("box", "bracket", "family", "fault", "plate"):
            path = os.path.join(TOP, "examples", name)
            with open(f"{path}.script", "rb") as script:
                self.assertEqual(self.call("--script", f"{path}.scad"), (0, script.read(), b""))
        self.write("a.scad", "w=1;\n")
        self.write("b.scad", "w=2;\n")
        self.assertEqual(self.call("--script", "-o", "two.script", "a.scad", "b.scad"), (0, b"", b""))
        self.assertEqual(self.read("two.script"), b"a put 1 w=1;\na export\nb put 1 w=2;\nb export\n")
        self.assertEqual(self.runs(), [])


class Statuses(Calls):
    def test_a_fault_of_the_server_is_its_status(self):
        for status, said in (
            (3, "what it was sent is not a script"),
            (4, "it could not read what it was sent"),
            (5, "it could not write its output"),
            (6, "memory ran out: convert fewer files at once"),
            (125, "without an answer"),
            (77, "the server ended with status 77"),
        ):
            with self.subTest(status=status):
                ended, out, error = self.call(self.write("part.scad", f"//= status {status}\n"), "-o", "out.4off")
                self.assertEqual((ended, out, self.names()), (status, b"", ["part.scad"]))
                self.assertIn(said, error.decode())
                self.assertEqual(len(error.splitlines()), 1)

    def test_an_answer_that_cannot_be_is_no_solid(self):
        for line in ("//= cut off", "//= silence", "//= solid 3", "//= complex", "//= ok 1"):
            with self.subTest(line=line):
                status, out, error = self.call(self.write("part.scad", line))
                self.assertEqual((status, out), (125, b""))
                self.assertTrue(error.startswith(b"scad2off: the server's output is not an answer: "), error)

    def test_a_server_that_does_not_start_is_told(self):
        self.assertEqual(
            self.call(self.write("part.scad", ""), environment={"SCADSERVE": "/no/server"}),
            (127, b"", b"scad2off: /no/server does not start: No such file or directory\n"),
        )

    def test_an_interrupt_ends_the_server_too_and_leaves_no_file(self):
        self.write("part.scad", "//= wait\n")
        for number, status in ((signal.SIGINT, 130), (signal.SIGTERM, 143), (signal.SIGHUP, 129)):
            with self.subTest(status=status):
                self.assertEqual(self.ended_by(number, ignoring=()), status)

    def test_an_interrupt_while_a_tool_loads_is_no_traceback(self):
        os.makedirs(self.path("clients/scadserve/tools"))
        os.mkdir(self.path("bin"))
        for name in ("scad2off", "off2stl", "off2svg", "off2html"):
            shutil.copy(os.path.join(TOP, "bin", name), self.path("bin"))
            self.write(f"clients/scadserve/tools/{name}.py", "import time\nprint(flush=True)\ntime.sleep(60)\n")
            pipes = {"stdout": subprocess.PIPE, "stderr": subprocess.PIPE}
            prepare = functools.partial(signal.signal, signal.SIGINT, signal.SIG_DFL)
            tool = subprocess.Popen([sys.executable, "-S", self.path(f"bin/{name}")], preexec_fn=prepare, **pipes)
            tool.stdout.readline()
            tool.send_signal(signal.SIGINT)
            self.assertEqual(tool.communicate(timeout=100), (b"", b""))
            self.assertEqual(tool.returncode, -signal.SIGINT)

    def test_a_hangup_that_is_ignored_ends_nothing(self):
        self.write("part.scad", "//= wait\n")
        self.assertEqual(self.ended_by(signal.SIGHUP, signal.SIGTERM, ignoring=(signal.SIGHUP,)), 143)

    def ended_by(self, *numbers, ignoring):
        """The status of a call that waits for the server and is sent these signals."""

        def prepare():
            for number in (signal.SIGINT, signal.SIGTERM, signal.SIGHUP):
                signal.signal(number, signal.SIG_IGN if number in ignoring else signal.SIG_DFL)

        began = len(self.runs())
        tool = subprocess.Popen(
            [*SCAD2OFF, "part.scad", "-o", "part.4off"],
            cwd=self.folder, env=self.environment, stderr=subprocess.PIPE, preexec_fn=prepare,
        )
        while len(self.runs()) == began:
            time.sleep(0.02)
        for number in numbers:
            tool.send_signal(number)
        self.assertEqual(tool.communicate(timeout=100)[1], b"")
        self.assertEqual(self.names(), ["part.scad"])
        return tool.returncode


if __name__ == "__main__":
    unittest.main()
