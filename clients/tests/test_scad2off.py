"""What scad2off gives for files of every kind: no wrong or empty solid without a word."""

import os
import socket
import subprocess
import threading
import unittest

from tests.calls import SCAD2OFF, TOP, Calls
from tests.stand_in import BOX

BOX_6, BOX_8 = (BOX.format(it).encode() for it in (6, 8))
EMPTY = b"4OFF\n0 0 0\n"


class Solids(Calls):
    def test_the_text_of_a_file_is_printed(self):
        self.assertEqual(self.call(self.write("part.scad", "w=6;\n")), (0, BOX_6, b""))
        self.assertEqual(self.runs(), [(b"run", b"a put 1 w=6;\na export\n")])

    def test_a_solid_past_a_limit_is_told_and_nothing_is_written(self):
        for words, said in (
            ("complex solid 597", "one of its unions, differences or intersections grows past 50,000 pieces and their edges"),
            ("complex sum 12", "its unions, differences and intersections grow past 500,000 pieces and their edges together"),
            ("complex facets", "it has more than 20,000 faces"),
            ("complex corners", "its faces have more than 200,000 corners"),
            ("complex vertices", "it has more than 60,000 vertices"),
        ):
            with self.subTest(words=words):
                status, out, error = self.call("-o", "part.4off", self.write("part.scad", f"//= {words}\n"))
                self.assertEqual((status, out, self.names()), (1, b"", ["part.scad"]))
                first, cure = error.decode().splitlines()
                self.assertEqual(first, f"part.scad: error: {words.rstrip(' 0123456789')}: {said}")
                self.assertIn("    cure: make several parts of it, or let fewer ", cure)

    def test_want_of_memory_is_the_servers_status(self):
        for line in ("//= nomem", "//= unput"):
            status, out, error = self.call(self.write("part.scad", f"w=6;\n{line}\n"))
            self.assertEqual((status, out), (6, b""))
            self.assertEqual(error.decode().splitlines()[0], "part.scad: error: nomem: memory ran out")

    def test_bytes_of_every_kind_are_passed_on_unchanged(self):
        source = b"w=6; // \x00 " + bytes(it for it in range(256) if it not in (10, 13)) + b"\n/*\x00*/ w=8;\n"
        self.assertEqual(self.call(self.write("part.scad", source)), (0, BOX_8, b""))
        lines = source.split(b"\n")
        self.assertEqual(self.runs()[0][1], b"a put 1 " + lines[0] + b"\na put 2 " + lines[1] + b"\na export\n")

    def test_an_empty_solid_is_no_text_unless_it_is_allowed(self):
        for source in (b"", b"\n", b"//= empty\n", b"//= empty\r", b"//= empty\r\n"):
            with self.subTest(source=source):
                self.write("part.scad", source)
                status, out, error = self.call("part.scad", "-o", "part.4off")
                self.assertEqual((status, out, self.names()), (1, b"", ["part.scad"]))
                self.assertTrue(error.startswith(b"part.scad: error: Empty: this source makes no solid at all\n"))
                self.assertEqual(self.call("part.scad", "--allow-empty"), (0, EMPTY, b""))

    def test_lines_that_end_by_carriage_returns_alone_are_one_comment(self):
        self.call(self.write("part.scad", b"// a part\rw=6;\rw=8;\r"))
        # (a carriage return at the end of a line is written twice, since the server drops one)
        self.assertEqual(self.runs()[0][1], b"a put 1 // a part\rw=6;\rw=8;\r\r\na export\n")


class Files(Calls):
    def test_what_can_be_read_once_is_read_once(self):
        fifo = self.path("fifo")
        os.mkfifo(fifo)
        for name, words in (("fifo", ["fifo"]), ("/dev/stdin", ["/dev/stdin"]), ("<stdin>", ["-"])):
            with self.subTest(name=name):
                for source, wanted in (("w=6;\n", (0, BOX_6)), ("w=6.5;\n", (1, b""))):
                    feed = threading.Thread(target=self.write, args=("fifo", source)) if name == "fifo" else None
                    if feed:
                        feed.start()
                    status, out, error = self.call(*words, stdin=source.encode())
                    if feed:
                        feed.join()
                    self.assertEqual((status, out), wanted)
                    first = f"{name}:1:3: error: NotWhole: 6.5 is not a whole number\n" if status else ""
                    self.assertTrue(error.decode().startswith(first), error)

    def test_the_output_of_a_command_is_a_file(self):
        tool = os.path.join(TOP, "bin", "scad2off")
        done = subprocess.run(
            ["bash", "-c", f"'{tool}' <(echo 'w=6;')"], capture_output=True, cwd=self.folder, env=self.environment, timeout=100
        )
        self.assertEqual((done.returncode, done.stdout, done.stderr), (0, BOX_6, b""))

    def test_names_of_every_kind_are_names_of_files(self):
        names = ["w=6.scad", "dir\\new.scad", "two words.scad", "-x.scad", "%s.scad", "$HOME.scad", "a'b\".scad", "ä.scad"]
        for name in [*names, "\udcff.scad"]:
            with self.subTest(name=name):
                self.assertEqual(self.call("--", self.write(name, "w=8;\n"), stdin=b"w=6;\n"), (0, BOX_8, b""))
                status, out, error = self.call("--", self.write(name, "cube(2.5);\n"))
                self.assertEqual((status, out), (1, b""))
                self.assertEqual(error.split(b"\n")[0], os.fsencode(name) + b":1:6: error: NotWhole: 2.5 is not a whole number")

    def test_a_file_that_cannot_be_read_is_told_at_once(self):
        os.mkdir(self.path("folder"))
        with socket.socket(socket.AF_UNIX) as it:
            it.bind(self.path("socket"))
        good = self.write("good.scad", "w=6;\n")
        for name, why in (
            ("absent.scad", "No such file or directory"),
            ("folder", "Is a directory"),
            ("socket", "No such device or address"),
            ("good.scad/x", "Not a directory"),
        ):
            with self.subTest(name=name):
                self.assertEqual(self.call(name), (2, b"", f"scad2off: cannot open {name}: {why}\n".encode()))
        self.assertEqual(self.runs(), [])
        status, _, error = self.call("-d", "out", "absent.scad", good, "folder")
        self.assertEqual(status, 2)
        self.assertEqual(
            error.decode().splitlines(),
            [
                "scad2off: cannot open absent.scad: No such file or directory",
                "scad2off: cannot open folder: Is a directory",
                "3 files: 1 solid, 0 faults, 2 not read or written",
            ],
        )
        self.assertEqual(self.read("out/good.4off"), BOX_6)

    @unittest.skipIf(os.geteuid() == 0, "the superuser may read every file")
    def test_a_file_that_may_not_be_read_is_told_at_once(self):
        os.chmod(self.path(self.write("part.scad", "w=6;\n")), 0)
        self.assertEqual(self.call("part.scad"), (2, b"", b"scad2off: cannot open part.scad: Permission denied\n"))

    def test_a_source_is_no_output_by_whatever_way_it_comes(self):
        for words, read, written in (
            (["-", "-o", "part"], "part", None),
            (["part"], None, "part"),
            (["-"], "part", "part"),
        ):
            with self.subTest(words=words):
                self.write("part", "w=6;\n")
                with open(self.path("part"), "rb") as stdin, open(self.path("part"), "ab") as stdout:
                    done = subprocess.run(
                        [*SCAD2OFF, *words], cwd=self.folder, env=self.environment, stderr=subprocess.PIPE, timeout=100,
                        stdin=stdin if read else subprocess.DEVNULL, stdout=stdout if written else subprocess.DEVNULL,
                    )
                name = "standard output" if written else "part"
                said = f"scad2off: cannot write {name}: that is a source\n"
                self.assertEqual((done.returncode, done.stderr.decode()), (2, said))
                self.assertEqual(self.read("part"), b"w=6;\n")

    def test_a_file_called_as_a_stream_is_none(self):
        self.write("-", "w=6;\n")
        self.assertEqual(self.call("-", stdin=b"w=8;\n"), (0, BOX_8, b""))
        self.assertEqual(self.call("./-"), (0, BOX_6, b""))
        os.remove(self.path("-"))
        os.mkdir(self.path("-"))
        self.assertEqual(self.call("-", stdin=b"w=8;\n"), (0, BOX_8, b""))

    def test_a_dash_is_standard_input(self):
        self.assertEqual(self.call("-", stdin=b"w=6;"), (0, BOX_6, b""))
        self.assertEqual(self.call("-o", "part.4off", "-", stdin=b"w=6;"), (0, b"", b""))
        self.assertEqual(self.read("part.4off"), BOX_6)


class Places(Calls):
    """Messages have one form, which editors read."""

    def test_a_fault_has_its_place_its_line_a_caret_and_a_cure(self):
        self.write("part.scad", "// a part\n\tcube([1, 2.5, 3]);\n")
        status, out, error = self.call("part.scad")
        self.assertEqual((status, out), (1, b""))
        self.assertEqual(
            error.decode(),
            "part.scad:2:11: error: NotWhole: 2.5 is not a whole number\n"
            "    \tcube([1, 2.5, 3]);\n"
            "    \t         ^\n"
            "    cure: write lengths in tenths, 25 for 2.5, and print by off2stl --unit 1/10; "
            "or let OpenSCAD evaluate it: --by-openscad\n",
        )

    def test_a_caret_stands_below_its_column_behind_other_letters_and_long_beginnings(self):
        self.write("part.scad", b"/* \xc3\xa4 \xff */ cube(2.5);\r\n")
        lines = self.call("part.scad")[2].decode().splitlines()
        self.assertEqual(lines[1:3], ["    /* ä \\xff */ cube(2.5);", " " * 22 + "^"])
        self.write("part.scad", b"/*" + b"x" * 900 + b"*/ cube(2.5);" + b"y" * 90 + b"\n")
        lines = self.call("part.scad")[2].decode().splitlines()
        self.assertEqual(lines[1][lines[2].index("^"):][:5], "2.5);")
        self.assertLess(len(lines[1]), 130)

    def test_limits_of_a_source_are_told_before_it_is_sent(self):
        for source, place, said in (
            (b"x" * 1_017 + b"\n", "1:1017", "TooLong: a line of a source has at most 1,016 bytes"),
            (b"\n" * 4_096 + b"x\n", "4097:1", "TooManyLines: a source has at most 4,096 lines"),
            (b"\n" * 9_000, "4097:1", "TooManyLines: a source has at most 4,096 lines"),
            ((b"x" * 1_000 + b"\n") * 1_100, "1038:1", "TooLarge: the source fills more than a script's 1 MiB"),
        ):
            with self.subTest(place=place):
                status, out, error = self.call(self.write("part.scad", source))
                self.assertEqual((status, out), (1, b""))
                self.assertEqual(error.decode().splitlines()[0], f"part.scad:{place}: error: {said}")
        self.assertEqual(self.runs(), [])

    def test_a_source_at_its_limits_is_sent(self):
        for source in (b"w=6;" + b" " * 1_012, b"w=6;\n" + b"\n" * 4_095, b"w=6;\n" + (b" " * 1_000 + b"\n") * 1_030):
            self.assertEqual(self.call(self.write("part.scad", source)), (0, BOX_6, b""))

    def test_a_fault_behind_the_last_line_is_told_of_the_end(self):
        status, _, error = self.call(self.write("part.scad", "w=6\n//= open"))
        self.assertEqual(status, 1)
        self.assertEqual(
            error.decode().splitlines()[0],
            "part.scad:3:1: error: Expected: the source ends in the middle of a statement",
        )


class Calling(Calls):
    """The tool is found wherever it is called from."""

    def test_it_is_called_through_links(self):
        self.write("part.scad", "w=6;\n")
        os.mkdir(self.path("bin"))
        os.symlink(os.path.join(TOP, "bin", "scad2off"), self.path("bin/one"))
        os.symlink("one", self.path("bin/two"))
        for tool in ("bin/one", "bin/two"):
            self.assertEqual(self.call("part.scad", tool=self.path(tool)), (0, BOX_6, b""))
        on_path = {"PATH": self.path("bin") + ":" + os.environ["PATH"]}
        self.assertEqual(self.call("part.scad", tool="two", environment=on_path), (0, BOX_6, b""))

    def test_it_is_called_with_a_path_for_cd(self):
        self.write("part.scad", "w=6;\n")
        os.makedirs(self.path("clients"))
        tool = os.path.join(TOP, "bin", "scad2off")
        self.assertEqual(self.call("part.scad", tool=tool, environment={"CDPATH": f"{self.folder}:/"}), (0, BOX_6, b""))


if __name__ == "__main__":
    unittest.main()
