"""The files that scad2off writes: whole or not at all, and many in few runs of the server."""

import os
import subprocess
import unittest

from tests.calls import SCAD2OFF, Calls
from tests.stand_in import BOX

BOX_6 = BOX.format(6).encode()


class Outputs(Calls):
    def test_a_text_is_renamed_to_its_place_and_a_fault_removes_what_is_there(self):
        self.write("part.scad", "w=6;\n")
        self.write("part.4off", "old\n")
        os.chmod(self.path("part.4off"), 0o640)
        os.link(self.path("part.4off"), self.path("old.4off"))
        self.assertEqual(self.call("-o", "part.4off", "part.scad"), (0, b"", b""))
        # Another file has the name now: the old one was not written over.
        self.assertEqual((self.read("part.4off"), self.read("old.4off")), (BOX_6, b"old\n"))
        self.assertEqual(os.stat(self.path("part.4off")).st_mode & 0o777, 0o640)
        self.write("part.scad", "cube(2.5);\n")
        status, _, error = self.call("part.scad", "-o", "part.4off")
        self.assertEqual((status, self.names()), (1, ["old.4off", "part.scad"]))
        self.assertEqual(error.decode().splitlines()[-1], "part.4off: removed, since it was made of an earlier source")

    def test_what_is_old_is_removed_for_each_kind_of_fault_and_kept_where_memory_ran_out(self):
        long = "/" * 1_017
        for source, status in (("//= complex sum 12", 1), ("//= empty", 1), (long, 1), ("//= nomem", 6), ("//= status 6", 6)):
            with self.subTest(source=source):
                self.write("out.4off", BOX_6)
                self.assertEqual(self.call("-o", "out.4off", self.write("part.scad", source))[0], status)
                self.assertEqual("out.4off" in self.names(), status == 6)

    def test_what_is_no_text_of_a_solid_is_not_removed_and_said_to_be_old(self):
        self.write("part.scad", "cube(2.5);\n")
        self.write("notes", "4OFF is a format\n")
        status, _, error = self.call("-o", "notes", "part.scad")
        self.assertEqual((status, self.read("notes")), (1, b"4OFF is a format\n"))
        self.assertEqual(error.decode().splitlines()[-1], "notes: warning: it stays as it was, and is not of this source")
        for out in ("-", "/dev/null", "/dev/stdout"):
            self.assertEqual(self.call("-o", out, "part.scad")[2].decode().count("\n"), 4, out)

    def test_a_file_that_standard_output_goes_to_is_not_removed(self):
        self.write("part.scad", "cube(2.5);\n")
        self.write("all.4off", BOX_6)
        with open(self.path("all.4off"), "ab") as stdout:
            words = [*SCAD2OFF, "part.scad", "-o", "all.4off"]
            subprocess.run(words, stdout=stdout, stderr=subprocess.PIPE, cwd=self.folder, env=self.environment, timeout=100)
        self.assertEqual(self.read("all.4off"), BOX_6)

    @unittest.skipIf(os.geteuid() == 0, "the superuser may write every file")
    def test_a_file_that_may_not_be_written_stays(self):
        self.write("part.scad", "w=6;\n")
        os.chmod(self.path(self.write("part.4off", "old\n")), 0o440)
        for words in (["-o", "part.4off"], ["-d", "."]):
            status, _, error = self.call(*words, "part.scad")
            self.assertEqual(status, 2)
            self.assertTrue(error.startswith(b"scad2off: cannot write ") and b"part.4off: Permission denied\n" in error, error)
            self.assertEqual((self.read("part.4off"), self.names()), (b"old\n", ["part.4off", "part.scad"]))

    def test_a_fault_makes_no_file(self):
        self.assertEqual(self.call("-o", "part.4off", self.write("part.scad", "cube(2.5);\n"))[0], 1)
        self.assertEqual(self.names(), ["part.scad"])

    def test_a_folder_that_is_a_link_out_of_the_folder_is_written_and_loses_nothing(self):
        self.write("part.scad", "w=6;\n")
        os.makedirs(self.path("away/deep"))
        self.write("away/other", "old\n")
        self.write("away/elsewhere", "old\n")
        os.symlink("../elsewhere", self.path("away/deep/part.4off"))
        os.symlink(self.path("away"), self.path("out"))
        for name, to in (("deep", "away/deep"), ("gone", "away/none"), ("ring", "ring"), ("file", "away/other")):
            os.symlink(to, self.path(name))
        one = b"1 file: 1 solid, 0 faults\n"
        self.assertEqual(self.call("-d", "out", "part.scad"), (0, b"", one))
        self.assertEqual(self.read("away/part.4off"), BOX_6)
        # A link in it is followed too, and stays.
        self.assertEqual(self.call("-d", "deep", "part.scad"), (0, b"", one))
        self.assertEqual((self.read("away/elsewhere"), os.readlink(self.path("away/deep/part.4off"))), (BOX_6, "../elsewhere"))
        for name in ("gone", "ring", "file"):
            status, out, error = self.call("-d", name, "part.scad")
            self.assertEqual((status, out, error), (2, b"", f"scad2off: cannot make the folder {name}: File exists\n".encode()))
        self.assertEqual(self.read("away/other"), b"old\n")
        self.assertEqual(sorted(os.listdir(self.path("away"))), ["deep", "elsewhere", "other", "part.4off"])
        self.assertEqual(os.listdir(self.path("away/deep")), ["part.4off"])
        self.assertEqual(self.names(), ["away", "deep", "file", "gone", "out", "part.scad", "ring"])
        # A fault takes away what was made there, and nothing else.
        self.write("part.scad", "cube(2.5);\n")
        self.assertEqual(self.call("-d", "out", "part.scad")[0], 1)
        self.assertEqual(sorted(os.listdir(self.path("away"))), ["deep", "elsewhere", "other"])

    def test_a_link_stays_and_its_file_is_written(self):
        os.mkdir(self.path("there"))
        os.symlink("there/part.4off", self.path("part.4off"))
        self.assertEqual(self.call("-o", "part.4off", self.write("part.scad", "w=6;\n")), (0, b"", b""))
        self.assertTrue(os.path.islink(self.path("part.4off")))
        self.assertEqual(self.read("there/part.4off"), BOX_6)

    def test_what_is_no_ordinary_file_is_written_and_stays(self):
        self.write("part.scad", "w=6;\n")
        self.assertEqual(self.call("-o", "/dev/null", "part.scad"), (0, b"", b""))
        self.assertFalse(os.path.isfile("/dev/null"))
        self.assertEqual(self.call("-o", "/dev/stdout", "part.scad"), (0, BOX_6, b""))
        self.assertEqual(self.call("-o", "-", "part.scad"), (0, BOX_6, b""))

    def test_the_file_that_standard_output_goes_to_keeps_what_is_in_it(self):
        self.write("part.scad", "w=6;\n")
        for out in ("/dev/stdout", "/dev/fd/1", "all.4off"):
            self.write("all.4off", "old\n")
            with open(self.path("all.4off"), "ab") as stdout:
                words = [*SCAD2OFF, "part.scad", "-o", out]
                subprocess.run(words, stdout=stdout, cwd=self.folder, env=self.environment, check=True, timeout=100)
            self.assertEqual(self.read("all.4off"), b"old\n" + BOX_6, out)

    def test_a_folder_that_is_gone_is_told(self):
        part = os.path.join(self.folder, self.write("part.scad", "w=6;\n"))
        gone = self.path("gone")

        def leave():
            os.mkdir(gone)
            os.chdir(gone)
            os.rmdir(gone)

        for words, wanted in (
            ([part], (0, BOX_6, b"")),
            ([part, "-o", "part.4off"], (2, b"", b"scad2off: cannot write part.4off: No such file or directory\n")),
        ):
            done = subprocess.run([*SCAD2OFF, *words], capture_output=True, env=self.environment, preexec_fn=leave, timeout=100)
            self.assertEqual((done.returncode, done.stdout, done.stderr), wanted)

    def test_a_full_disk_is_told(self):
        self.write("part.scad", "w=6;\n")
        for words, to in ((["-o", "/dev/full"], "/dev/null"), ([], "/dev/full")):
            with open(to, "wb") as out:
                done = subprocess.run(
                    [*SCAD2OFF, "part.scad", *words],
                    stdout=out, stderr=subprocess.PIPE, cwd=self.folder, env=self.environment, timeout=100,
                )
            name = "/dev/full" if words else "standard output"
            said = f"scad2off: cannot write {name}: No space left on device\n"
            self.assertEqual((done.returncode, done.stderr), (2, said.encode()))

    def test_an_output_that_nobody_reads_ends_it_without_a_word(self):
        self.write("part.scad", "w=6;\n")
        to_read, to_write = os.pipe()
        os.close(to_read)
        try:
            done = subprocess.run(
                [*SCAD2OFF, "part.scad"],
                stdout=to_write, stderr=subprocess.PIPE, cwd=self.folder, env=self.environment, timeout=100,
            )
        finally:
            os.close(to_write)
        self.assertEqual((done.returncode, done.stderr), (141, b""))

    def test_many_files_go_to_a_folder_in_few_runs(self):
        names = [f"part{it}.scad" for it in range(300)]
        for number, name in enumerate(names):
            self.write(name, "cube(2.5);\n" if number % 10 == 3 else f"w={number + 1};\n//\n")
        status, out, error = self.call("-d", "out/of/it", *names)
        self.assertEqual((status, out), (1, b""))
        self.assertEqual(error.decode().splitlines()[-1], "300 files: 270 solids, 30 faults")
        self.assertEqual(error.count(b"error: NotWhole"), 30)
        for number in range(300):
            path = f"out/of/it/part{number}.4off"
            if number % 10 == 3:
                self.assertFalse(os.path.exists(self.path(path)))
            else:
                self.assertEqual(self.read(path), BOX.format(number + 1).encode())
        self.assertEqual(len(os.listdir(self.path("out/of/it"))), 270)
        scripts = [it for _, it in self.runs()]
        self.assertEqual([it.count(b" export\n") for it in scripts], [256, 44])
        for name in b"abcdefghijklmnop":
            self.assertEqual(scripts[0].count(b"%c export\n" % name), 16)
            self.assertIn(scripts[1].count(b"%c export\n" % name), (2, 3))

    def test_one_file_of_a_folder_is_told_as_one(self):
        self.write("part.scad", "w=6;\n")
        self.assertEqual(self.call("-d", "out", "part.scad"), (0, b"", b"1 file: 1 solid, 0 faults\n"))

    def test_files_that_fill_scripts_go_in_more_runs(self):
        # Of 1,000 bytes a line and 200 lines a file, five fit into a script; of 4,096 lines, two into a client.
        names = [self.write(f"wide{it}.scad", b"w=6;\n" + (b"/" * 1_000 + b"\n") * 199) for it in range(7)]
        self.assertEqual(self.call("-d", "out", *names)[2], b"7 files: 7 solids, 0 faults\n")
        scripts = [it for _, it in self.runs()]
        self.assertEqual([it.count(b" export\n") for it in scripts], [5, 2])
        self.assertTrue(all(len(it) <= 1_048_576 for it in scripts))

    def test_a_client_has_8192_commands_at_most(self):
        names = [self.write(f"long{it}.scad", b"w=6;\n" + b"\n" * 4_000) for it in range(18)]
        self.assertEqual(self.call("-d", "out", *names)[2], b"18 files: 18 solids, 0 faults\n")
        for _, script in self.runs():
            for name in b"abcdefghijklmnop":
                self.assertLessEqual(sum(it.startswith(b"%c " % name) for it in script.split(b"\n")), 8_192)
        self.assertEqual(sum(it.count(b" export\n") for _, it in self.runs()), 18)

    def test_a_source_after_an_edit_without_memory_is_no_solid(self):
        # Clients a to p have one file each, and then a has this one too, over lines that could not all be put or cut.
        names = [self.write("first.scad", "w=6;\n//= unput\n")]
        names += [self.write(f"part{it}.scad", "w=6;\n") for it in range(15)]
        names += [self.write("last.scad", "w=8;\n")]
        status, _, error = self.call("-d", "out", *names)
        self.assertEqual(status, 6)
        self.assertEqual(
            error.decode().splitlines()[::2],
            [
                "first.scad: error: nomem: memory ran out",
                "last.scad: error: nomem: memory ran out",
                "17 files: 15 solids, 2 faults",
            ],
        )
        self.assertNotIn("last.4off", os.listdir(self.path("out")))


if __name__ == "__main__":
    unittest.main()
