"""The program that comes with the sources: when ./scadserve unpacks and runs it, and what is said where it does not; and how
tools/boot.sh packs it. The program is a script that stands in for it."""

import lzma
import os
import shutil
import signal
import subprocess
import sys
import time
import unittest

from tests.calls import TOP
from tests.needs import needs
from tests.starter import Starter

# Answers the empty script with nothing, as the program does, and any other one with what it was given.
PROGRAM = '#!/bin/sh\nread -r line || exit 0\necho "proved $* $line"\ncat\nexit 3\n'
# What the loader says where the C library is too old for a program.
OLD = "#!/bin/sh\necho \"$0: /lib/libc.so.6: version 'GLIBC_2.34' not found (required by $0)\" >&2\nexit 1\n"
PACKED = "top/boot/scadserve-x86_64-linux.xz"
NO_KIT = "; and rt of the Rattle kit, which proves and builds the program or runs it unproved, is not on the PATH"


class Booted(Starter):
    """A clone with boot/, and no kit."""

    def setUp(self):
        super().setUp()
        self.environment.pop("XDG_RUNTIME_DIR", None)
        self.environment.update(XDG_CACHE_HOME=self.path("cache"))
        self.environment.pop("SCADSERVE_BOOT", None)
        os.mkdir(self.path("top/boot"))
        os.symlink(sys.executable, self.path("bin/python3"))
        self.pack(PROGRAM)

    def pack(self, program):
        """Writes boot/ with this program."""
        self.write(PACKED, lzma.compress(program.encode()))
        self.write("program", program)
        self.proved(program=self.sum_of("program"), packed=self.sum_of(PACKED), sources=self.sum_of_sources())
        self.place = self.path(f"cache/scadserve/{self.sum_of('program')}/scadserve")

    def proved(self, **sums):
        lines = [f"{name} {value}\n" for name, value in {**sums, "libc": "2.34"}.items()]
        self.write(
            "top/boot/PROVED", "scadserve for x86_64 Linux\n" + "".join(lines) + "\nprogram of nothing\nsources of nothing\n"
        )

    def assert_runs(self, said="", **environment):
        """The program of boot/ runs, and this alone is said."""
        found = self.serve("run", "--half", environment=environment)
        self.assertEqual(found, (3, b"proved run --half a show\n", said))

    def assert_refused(self, why, **environment):
        """The program does not run, for a reason that is told in one line, whether or not there is a kit."""
        status, out, said = self.serve("run", environment=environment)
        self.assertEqual((status, out, said.split("scadserve: ", 1)[1]), (127, b"", f"{why}{NO_KIT}\n"))
        self.assertEqual(said.count("\n"), 1)
        self.rt()
        status, out, said = self.serve("run", environment=environment)
        self.assertEqual((status, out, said.count("\n")), (0, b"a show\n", 1))
        self.assertIn(f"proved from these sources ({why}), so they run UNPROVED: ", said)
        os.remove(self.path("bin/rt"))

    def files_of(self, folder):
        return sorted(os.path.join(at, it) for at, _, names in os.walk(self.path(folder)) for it in names)


class Taken(Booted):
    def test_it_runs_in_a_fresh_clone_and_nothing_is_said(self):
        self.assert_runs()
        self.assertEqual(self.files_of("cache"), [self.place])
        self.assertEqual(os.stat(self.place).st_mode & 0o777, 0o700)
        self.assertEqual(os.stat(self.path("cache/scadserve")).st_mode & 0o777, 0o700)
        # It is unpacked once.
        os.remove(self.path("bin/python3"))
        for _ in range(3):
            self.assert_runs()

    @needs("xz")
    def test_by_xz_it_is_unpacked_without_python(self):
        os.remove(self.path("bin/python3"))
        os.symlink(shutil.which("xz"), self.path("bin/xz"))
        self.assert_runs()

    def test_without_a_home_it_is_unpacked_all_the_same(self):
        self.environment.pop("XDG_CACHE_HOME")
        self.assert_runs(HOME=self.path("home"))
        self.assertEqual(len(self.files_of("home/.cache/scadserve")), 1)

    def test_what_was_seen_is_summed_no_more_until_it_is_touched(self):
        self.assert_runs()
        time.sleep(2.2)
        self.assert_runs()
        self.assertEqual(self.files_of("cache"), [self.place, f"{self.place}.seen"])
        os.rename(self.path("bin/xargs"), self.path("xargs"))
        self.assert_runs()
        # (what xargs was to sum is said to be other sources)
        for touched in (self.path("top/crates/below/src/lib.rt"), self.place):
            os.utime(touched)
            self.assertEqual(self.serve("run")[0], 127)
            os.rename(self.path("xargs"), self.path("bin/xargs"))
            self.assert_runs()
            os.rename(self.path("bin/xargs"), self.path("xargs"))

    def test_two_clones_share_it(self):
        shutil.copytree(self.top, self.path("clone"))
        time.sleep(2.2)
        for _ in range(2):
            for top in (self.top, self.path("clone")):
                self.assertEqual(self.serve("run", tool=f"{top}/scadserve")[::2], (3, ""))
        # (unpacked by the first call, and noted by the other three)
        self.assertEqual(self.files_of("cache")[:1], [self.place])

    def test_runs_at_the_same_time_each_have_it(self):
        how = {
            "cwd": self.folder,
            "env": self.environment,
            "stdin": subprocess.PIPE,
            "stdout": subprocess.PIPE,
            "stderr": subprocess.PIPE,
        }
        runs = [subprocess.Popen([f"{self.top}/scadserve", "run"], **how) for _ in range(8)]
        for run in runs:
            self.assertEqual(run.communicate(b"a show\n", timeout=60), (b"proved run a show\n", b""))
        self.assertEqual(self.files_of("cache"), [self.place])

    def test_what_is_ended_while_it_is_unpacked_leaves_no_file(self):
        self.program("bin/xz", f"#!/bin/sh\necho part\n: >{self.path('began')}\nexec sleep 100\n")
        how = {"env": self.environment, "stdin": subprocess.DEVNULL, "start_new_session": True}
        run = subprocess.Popen([f"{self.top}/scadserve", "run"], **how)
        while not os.path.exists(self.path("began")):
            time.sleep(0.01)
        os.killpg(run.pid, signal.SIGTERM)
        self.assertEqual(run.wait(50), -signal.SIGTERM)
        for _ in range(500):
            if not self.files_of("cache"):
                return
            time.sleep(0.01)
        self.fail("a part of the program is left")

    def test_what_the_gate_built_here_goes_first(self):
        os.mkdir(self.path("top/crates/scadserve/out"))
        self.program("top/crates/scadserve/out/scadserve", "#!/bin/sh\necho built\n")
        pair = f"{self.sum_of('top/crates/scadserve/out/scadserve')} {self.sum_of_sources()}\n"
        self.write("top/crates/scadserve/out/scadserve.proved", pair)
        self.assertEqual(self.serve("run"), (0, b"built\n", ""))
        # One that isn't known to be of these sources does not.
        self.write("top/crates/scadserve/out/scadserve.proved", "")
        self.assert_runs()


class Places(Booted):
    """Where it is unpacked, where the cache takes nothing. (A folder below a file takes nothing of the superuser's either.)"""

    def setUp(self):
        super().setUp()
        self.write("file", "")
        self.environment.update(XDG_CACHE_HOME=self.path("file/cache"))
        os.mkdir(self.path("room"))

    def assert_told(self, folder, **environment):
        """It is unpacked into this folder, which is told once."""
        told = (
            f"scadserve: {self.path('file/cache')}/scadserve takes no program, so the one in boot/ was unpacked into "
            f"{folder}\n"
        )
        self.assert_runs(told, **environment)
        self.assert_runs(**environment)
        self.assertEqual(os.stat(folder).st_mode & 0o777, 0o700)

    def test_the_folder_of_the_session_takes_it(self):
        self.assert_told(self.path("room/scadserve"), XDG_RUNTIME_DIR=self.path("room"))

    def test_a_temporary_folder_of_ones_own_takes_it(self):
        # (the log, which is the folder of temporary files, has to be empty after each call)
        self.log = self.path("room")
        self.environment.update(TMPDIR=self.path("temporary"))
        os.mkdir(self.path("temporary"))
        self.assert_told(self.path(f"temporary/scadserve-{os.getuid()}"))

    def test_a_temporary_folder_that_is_a_link_takes_nothing(self):
        os.mkdir(self.path("temporary"))
        place = self.path(f"temporary/scadserve-{os.getuid()}")
        os.symlink(self.path("room"), place)
        why = f"no folder takes the program in boot/: {self.path('file/cache')}/scadserve {place}"
        self.assert_refused(why, TMPDIR=self.path("temporary"))

    @unittest.skipUnless(os.geteuid() == 0, "needs root, who can give a folder to another user")
    def test_a_temporary_folder_of_another_user_takes_nothing(self):
        place = self.path(f"temporary/scadserve-{os.getuid()}")
        os.makedirs(place)
        os.chown(place, 12345, 12345)
        why = f"no folder takes the program in boot/: {self.path('file/cache')}/scadserve {place}"
        self.assert_refused(why, TMPDIR=self.path("temporary"))


class Refused(Booted):
    def test_other_sources_are_told(self):
        self.assert_runs()
        self.write("top/crates/below/src/lib.rt", "3\n")
        self.assert_refused("the program in boot/ is of other sources")
        self.write("top/crates/below/src/lib.rt", "1\n")
        self.assert_runs()
        self.write("top/crates/below/src/more.rt", "")
        self.assert_refused("the program in boot/ is of other sources")

    def test_another_packed_program_is_refused(self):
        self.write(PACKED, lzma.compress(b"#!/bin/sh\necho I am another\n"))
        why = "boot/scadserve-x86_64-linux.xz is not the file that boot/PROVED names, so it is not run"
        self.assert_refused(why)
        os.remove(self.path(PACKED))
        self.assert_refused(why)
        self.assertEqual(self.files_of("cache"), [])

    def test_another_program_in_what_is_packed_is_refused(self):
        self.write(PACKED, lzma.compress(b"#!/bin/sh\necho I am another\n"))
        self.proved(program=self.sum_of("program"), packed=self.sum_of(PACKED), sources=self.sum_of_sources())
        why = "boot/scadserve-x86_64-linux.xz has another program than boot/PROVED names, so it is not run"
        self.assert_refused(why)
        self.assertEqual(self.files_of("cache"), [])

    def test_a_changed_program_in_the_cache_is_replaced_and_told(self):
        self.assert_runs()
        with open(self.place, "a") as it:
            it.write("echo changed\n")
        self.assert_runs(f"scadserve: {self.place} was changed, so the program in boot/ is unpacked anew\n")
        self.assert_runs()
        self.assertEqual(self.files_of("cache"), [self.place])

    def test_another_machine_is_told(self):
        os.remove(self.path("bin/uname"))
        self.program("bin/uname", "#!/bin/sh\necho Linux aarch64\n")
        self.assert_refused("the program in boot/ is for Linux x86_64, and this is Linux aarch64")

    def test_an_older_c_library_is_told(self):
        self.pack(OLD)
        self.program("bin/getconf", "#!/bin/sh\necho glibc 2.31\n")
        self.assert_refused("the program in boot/ needs the GNU C library from 2.34 on, and this machine has 2.31")
        os.remove(self.path("bin/getconf"))
        self.assert_refused("the program in boot/ needs the GNU C library from 2.34 on, and this machine has none")

    def test_a_program_that_does_not_start_is_told(self):
        self.program("bin/getconf", "#!/bin/sh\necho glibc 2.40\n")
        self.pack("#!/bin/sh\necho one >&2\necho two\nexit 1\n")
        self.assert_refused("the program in boot/ does not start here: one")

    def test_where_nothing_unpacks_it_that_is_told(self):
        os.remove(self.path("bin/python3"))
        why = "neither xz nor Python with its module lzma is here, one of which unpacks the program in boot/"
        self.assert_refused(why)
        # (one that ends in the middle leaves nothing)
        self.program("bin/xz", "#!/bin/sh\necho '#!/bin/sh'\nexit 1\n")
        self.assert_refused(why)
        self.assertEqual(self.files_of("cache"), [])

    def test_a_word_leaves_it_out(self):
        self.assert_runs()
        self.assert_refused("SCADSERVE_BOOT=no leaves out the program in boot/", SCADSERVE_BOOT="no")
        self.assert_runs(SCADSERVE_BOOT="yes")


@needs("xz")
class Made(Starter):
    """tools/boot.sh, after a gate."""

    def setUp(self):
        super().setUp()
        for name in ("boot.sh", "gate.sh", "proved.txt"):
            shutil.copy(os.path.join(TOP, "tools", name), self.path("top/tools"))
        for name in ("python3", *"wc xz".split()):
            if name not in os.listdir(self.path("bin")):
                os.symlink(shutil.which(name), self.path(f"bin/{name}"))
        self.environment.update(XDG_CACHE_HOME=self.path("cache"))
        os.mkdir(self.path("top/crates/scadserve/out"))
        os.mkdir(self.path("top/out"))
        self.build()
        self.gate()

    def build(self, more=""):
        """Leaves a program, as if it needed a C library of this version."""
        self.program("top/crates/scadserve/out/scadserve", PROGRAM + "# GLIBC_2.4 GLIBC_2.34 GLIBC_2.14\n" + more)

    def gate(self, **changed):
        """Leaves what a green gate does, but for what is changed."""
        told = {"commit": "c" * 40, "kit": "some kit", "gate": "7 passed, 0 failed", "tests": "3 passed, 0 failed, 1 skipped"}
        told.update(program=self.sum_of("top/crates/scadserve/out/scadserve"), sources=self.sum_of_sources())
        self.write("top/out/gate", "".join(f"{word} {it}\n" for word, it in {**told, **changed}.items()))

    def make(self):
        status, out, error = self.call(tool=self.path("top/tools/boot.sh"))
        return status, out.decode(), error.decode()

    def test_what_a_green_gate_built_is_packed_and_a_clone_runs_it(self):
        status, out, error = self.make()
        self.assertEqual((status, error), (0, ""))
        self.assertEqual(out, f"boot/ has the program of these sources now, in {len(self.read(PACKED))} bytes\n")
        self.assertEqual(sorted(os.listdir(self.path("top/boot"))), ["PROVED", "scadserve-x86_64-linux.xz"])
        self.assertEqual(lzma.decompress(self.read(PACKED)), self.read("top/crates/scadserve/out/scadserve"))
        lines = self.read("top/boot/PROVED").decode().splitlines()
        program = self.sum_of("top/crates/scadserve/out/scadserve")
        told = [
            "scadserve for x86_64 Linux, packed in scadserve-x86_64-linux.xz",
            f"program {program}",
            f"packed {self.sum_of(PACKED)}",
        ]
        told += [f"sources {self.sum_of_sources()}", "kit some kit", "gate 7 passed, 0 failed", "libc 2.34", ""]
        self.assertEqual(lines[: len(told)], told)
        self.assertIn("by `bash .ci/run`", lines[-2])
        shutil.copytree(self.top, self.path("clone"), ignore=shutil.ignore_patterns("out"))
        self.assertEqual(self.serve("run", tool=self.path("clone/scadserve")), (3, b"proved run a show\n", ""))

    def test_it_is_made_once(self):
        self.assertEqual(self.make()[0], 0)
        was = os.stat(self.path(PACKED)).st_ino
        self.assertEqual(self.make(), (0, "boot/ has the program of these sources already\n", ""))
        self.assertEqual(os.stat(self.path(PACKED)).st_ino, was)
        # One that is another program is made anew, with the bytes that a clone of the same program makes.
        shutil.copytree(self.top, self.path("other"), ignore=shutil.ignore_patterns("boot"))
        self.write(PACKED, lzma.compress(b"another"))
        self.assertEqual(self.make()[0], 0)
        made = [self.read(PACKED), self.read("top/boot/PROVED")]
        self.assertEqual(self.call(tool=self.path("other/tools/boot.sh"))[0], 0)
        self.assertEqual([self.read("other/boot/scadserve-x86_64-linux.xz"), self.read("other/boot/PROVED")], made)

    def test_without_a_green_gate_of_these_sources_and_this_program_none_is_made(self):
        for changed, why in (
            ({"gate": "6 passed, 1 failed"}, "the gate is not green: 6 passed, 1 failed"),
            ({"gate": "0 passed, 0 failed"}, "the gate is not green: 0 passed, 0 failed"),
            ({"tests": "2 passed, 1 failed, 1 skipped"}, "the tests are not green: 2 passed, 1 failed, 1 skipped"),
            ({"sources": "0" * 64}, "the sources are not those of the gate"),
            ({"program": "0" * 64}, "the program is not the one that the gate built of these sources"),
        ):
            self.gate(**changed)
            self.assertEqual(self.make(), (1, "", f"boot: {why}\n"))
        self.gate()
        self.write("top/crates/below/src/lib.rt", "3\n")
        self.assertEqual(self.make(), (1, "", "boot: the sources are not those of the gate\n"))
        self.write("top/crates/below/src/lib.rt", "1\n")
        os.remove(self.path("top/crates/scadserve/out/scadserve"))
        self.assertEqual(self.make(), (1, "", "boot: the program that the gate built is gone: run `bash .ci/run` again\n"))
        os.remove(self.path("top/out/gate"))
        self.assertEqual(self.make(), (1, "", "boot: no green gate is known here: run `bash .ci/run` first\n"))
        self.assertNotIn("boot", os.listdir(self.top))


if __name__ == "__main__":
    unittest.main()
