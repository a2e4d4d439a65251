"""What ./scadserve says and does where the proved program is there, and where it isn't, with a stand-in for `rt`."""

import os
import pty
import shutil
import subprocess
import time
import unittest

from tests.starter import CRATES, Starter

PAST_1_MIB = """echo '| xxxx' >&2
echo "checked: no-answer: the program wrote more than 1048576 bytes to standard output or to standard error" >&2
echo "run=no-answer proved=no" >&2
exit 6"""
FAULT = """echo "checked: fault: an index is out of bounds" >&2
echo "run=fault proved=no" >&2
exit 4"""
COST = "about a minute, each time; `bash .ci/run` once, in {}, takes about an hour, and then it takes milliseconds"
PROGRAM = '#!/bin/sh\necho proved "$@"\ncat\nexit 3\n'


class Unproved(Starter):
    def test_the_cost_of_a_run_is_told_before_it_and_how_to_avoid_it(self):
        self.rt()
        status, out, error = self.serve("run", "--memo", "0")
        self.assertEqual((status, out), (0, b"a show\n"))
        self.assertEqual(error.count("\n"), 1)
        self.assertIn("UNPROVED: " + COST.format(self.top), error)
        self.assertEqual(self.read("rt.log").decode().split("\n")[1:], ["try", "--", "run", "--memo", "0", ""])
        self.assertEqual(self.read("rt.log").decode().split("\n")[0], f"{self.top}/crates/scadserve")

    def test_a_status_of_the_program_is_handed_through_without_the_toolchains_lines(self):
        for status in (2, 3, 6):
            self.rt(status)
            ended, out, error = self.serve("run")
            self.assertEqual((ended, out, error.count("\n")), (status, b"a show\n", 1))

    def test_the_toolchains_lines_come_where_a_run_fails(self):
        self.rt(also=FAULT)
        status, _, error = self.serve("run")
        self.assertEqual(status, 125)
        self.assertEqual(
            error.splitlines()[1:],
            [
                "from the program",
                "checked: fault: an index is out of bounds",
                "run=fault proved=no",
                "scadserve: the unproved run gave no answer, for the reason above",
            ],
        )

    def test_1_mib_of_output_is_told_as_that_and_not_as_want_of_memory(self):
        self.rt(also=PAST_1_MIB)
        status, _, error = self.serve("run")
        self.assertEqual(status, 125)
        [said] = error.splitlines()[1:]
        self.assertTrue(said.startswith("scadserve: an unproved run can write 1 MiB at most, and this one would write more"))

    def test_an_output_that_is_not_written_is_no_success(self):
        self.rt()
        for redirection in (">/dev/full", ">&-", "| (exec <&-; /bin/sleep 1)"):
            with self.subTest(redirection=redirection):
                words = f"{{ echo 'a show' | '{self.top}/scadserve' run; echo $? >'{self.folder}/status'; }} {redirection}"
                how = {"env": self.environment, "stderr": subprocess.DEVNULL, "timeout": 100}
                subprocess.run(["/bin/sh", "-c", words], check=False, **how)
                self.assertEqual(self.read("status"), b"5\n")
                self.assertEqual(os.listdir(self.log), [])

    def test_a_missing_rt_is_told(self):
        status, out, error = self.serve("run")
        self.assertEqual((status, out), (127, b""))
        self.assertTrue(error.startswith("scadserve: needs rt of the Rattle kit"), error)
        self.assertIn("a release of scadserve needs no kit (docs/RELEASE.md", error)
        self.assertEqual(error.count("\n"), 1)

    def test_a_script_that_comes_slowly_is_whole(self):
        self.rt()
        tool = subprocess.Popen(
            ["sh", "-c", f"(echo 'a show'; /bin/sleep 1; echo 'b show') | '{self.top}/scadserve' run"],
            stdout=subprocess.PIPE, stderr=subprocess.DEVNULL, env=self.environment,
        )
        self.assertEqual(tool.communicate(timeout=100)[0], b"a show\nb show\n")

    def test_a_demonstration_reads_nothing(self):
        self.rt()
        self.assertEqual(self.serve("demo", "3")[:2], (0, b""))

    def build(self, top=None):
        """Leaves a program in the folder of the sources."""
        os.makedirs(f"{top or self.top}/crates/scadserve/out", exist_ok=True)
        self.program(f"{top or self.top}/crates/scadserve/out/scadserve", PROGRAM)

    def record(self, place):
        """Writes the line that says of which sources the program is."""
        os.makedirs(os.path.dirname(self.path(place)), exist_ok=True)
        self.write(place, f"{self.sum_of('top/crates/scadserve/out/scadserve')} {self.sum_of_sources()}\n")

    def assert_proved(self, top=None):
        """The proved program runs, twice, and nothing else is said."""
        for _ in range(2):
            said = self.serve("run", "--half", tool=f"{top or self.top}/scadserve")
            self.assertEqual(said, (3, b"proved run --half\na show\n", ""))

    def assert_unproved(self, top=None):
        """The sources run unproved."""
        self.rt()
        self.assertIn("UNPROVED", self.serve("run", tool=f"{top or self.top}/scadserve")[2])

    def test_the_program_of_these_sources_runs_and_nothing_is_said(self):
        self.build()
        self.assert_unproved()
        self.record("top/crates/scadserve/out/scadserve.proved")
        self.assert_proved()

    def test_what_was_seen_once_is_summed_no_more_until_it_is_touched(self):
        self.build()
        self.record("top/crates/scadserve/out/scadserve.proved")
        time.sleep(2.2)
        self.assert_proved()
        os.remove(self.path("bin/xargs"))
        self.assert_proved()
        os.utime(self.path("top/crates/below/src/lib.rt"))
        self.assert_unproved()
        os.symlink(shutil.which("xargs"), self.path("bin/xargs"))
        self.assert_proved()

    def test_a_changed_source_is_found_whatever_its_date_and_size(self):
        self.build()
        self.record("top/crates/scadserve/out/scadserve.proved")
        time.sleep(2.2)
        self.assert_proved()
        source, crates = self.path("top/crates/below/src/lib.rt"), self.path("top/crates.txt")
        more = self.path("top/crates/below/src/more.rt")
        was = os.stat(source)
        for change, undo in (
            (lambda: self.write(source, "3\n"), lambda: self.write(source, "1\n")),
            (lambda: self.write(more, ""), lambda: os.remove(more)),
            (lambda: os.rename(source, source + "s"), lambda: os.rename(source + "s", source)),
            (lambda: self.write(crates, "below:\n"), lambda: self.write(crates, CRATES)),
        ):
            change()
            if os.path.exists(source):
                os.utime(source, ns=(was.st_atime_ns, was.st_mtime_ns))
            self.assert_unproved()
            undo()
            self.assert_proved()

    def test_another_crate_in_place_of_one_is_found(self):
        self.build()
        self.record("top/crates/scadserve/out/scadserve.proved")
        shutil.copytree(self.path("top/crates/below"), self.path("other"))
        self.write("other/src/lib.rt", "3\n")
        time.sleep(2.2)
        self.assert_proved()
        os.rename(self.path("top/crates/below"), self.path("was"))
        os.rename(self.path("other"), self.path("top/crates/below"))
        self.assert_unproved()

    def test_another_program_is_not_that_of_these_sources(self):
        self.build()
        self.record("top/crates/scadserve/out/scadserve.proved")
        time.sleep(2.2)
        self.assert_proved()
        self.program("top/crates/scadserve/out/scadserve", PROGRAM + "#\n")
        self.assert_unproved()

    def test_a_copied_program_is_known_in_another_clone_of_the_same_sources(self):
        self.build()
        self.record("state/scadserve/proved")
        shutil.copytree(self.top, self.path("clone"), ignore=shutil.ignore_patterns("out"))
        os.mkdir(self.path("clone/crates/scadserve/out"))
        shutil.copy2(self.path("top/crates/scadserve/out/scadserve"), self.path("clone/crates/scadserve/out"))
        self.assert_proved(self.path("clone"))
        # Of another user nothing is known, unless the record stands beside the program.
        self.environment.update(XDG_STATE_HOME=self.path("nobody"))
        os.utime(self.path("clone/crates/scadserve/out/scadserve"))
        self.assert_unproved(self.path("clone"))
        self.record("clone/crates/scadserve/out/scadserve.proved")
        self.assert_proved(self.path("clone"))
        # A changed clone is other sources.
        self.write("clone/crates/below/src/lib.rt", "3\n")
        self.assert_unproved(self.path("clone"))

    def left_by_rt_ci(self):
        """Leaves what `rt ci` does, in the second after the sources were written."""
        time.sleep(1.1)
        for crate in ("below", "scadserve"):
            os.mkdir(f"{self.top}/crates/{crate}/out")
        self.build()
        self.write("top/crates/scadserve/out/stdout", "")
        if subprocess.run(["stat", "-c", "%W", self.top], stdout=subprocess.PIPE, check=True).stdout.strip() in (b"0", b"-"):
            self.skipTest("this file system keeps no times of birth")

    def test_what_rt_ci_left_is_known_where_no_source_was_touched_since(self):
        self.left_by_rt_ci()
        self.assert_proved()
        [line] = self.read("top/crates/scadserve/out/scadserve.proved").splitlines()
        self.assertEqual(self.read("state/scadserve/proved").splitlines(), [line])
        self.record("wanted")
        self.assertEqual(self.read("wanted").splitlines(), [line])

    def test_what_rt_ci_left_is_not_known_where_a_source_was_touched(self):
        self.left_by_rt_ci()
        was = os.stat(self.path("top/crates/below/src/lib.rt"))
        self.write("top/crates/below/src/lib.rt", "3\n")
        os.utime(self.path("top/crates/below/src/lib.rt"), ns=(was.st_atime_ns, was.st_mtime_ns))
        self.assert_unproved()

    def test_a_program_that_was_put_where_rt_ci_left_one_is_not_known(self):
        self.left_by_rt_ci()
        time.sleep(1.1)
        self.build()
        self.assert_unproved()

    def test_a_program_without_the_rest_that_rt_ci_leaves_is_not_known(self):
        self.left_by_rt_ci()
        os.rmdir(self.path("top/crates/below/out"))
        self.assert_unproved()
        time.sleep(1.1)
        os.mkdir(self.path("top/crates/below/out"))
        self.assert_unproved()

    def test_a_long_run_says_each_quarter_minute_to_a_terminal_that_it_goes_on(self):
        self.rt(also="/bin/sleep 1")
        os.remove(self.path("bin/sleep"))
        self.program("bin/sleep", f"#!/bin/sh\necho $* >>'{self.path('slept')}'\n/bin/sleep 0.2\n")
        self.assertNotIn("still at it", self.serve("run")[2])
        self.assertNotIn("slept", self.names())
        terminal, side = pty.openpty()
        how = {"stdin": subprocess.DEVNULL, "stdout": subprocess.DEVNULL, "env": self.environment}
        ended = subprocess.run([f"{self.top}/scadserve", "run"], stderr=side, timeout=100, check=False, **how)
        os.close(side)
        said = b""
        # (a terminal that nobody holds ends by an error)
        try:
            while True:
                said += os.read(terminal, 4096)
        except OSError:
            os.close(terminal)
        self.assertEqual(ended.returncode, 0)
        lines = said.decode().splitlines()[1:]
        self.assertGreaterEqual(len(lines), 2)
        for number, line in enumerate(lines, 1):
            self.assertEqual(line, f"scadserve: still at it, after {15 * number} seconds")
        self.assertEqual(set(self.read("slept").split()), {b"15"})

    def test_it_is_found_through_links_and_with_a_path_for_cd(self):
        os.mkdir(f"{self.top}/crates/scadserve/out")
        self.program("top/crates/scadserve/out/scadserve", "#!/bin/sh\necho proved\n")
        self.record("top/crates/scadserve/out/scadserve.proved")
        os.makedirs(self.path("elsewhere/top/crates"))
        os.symlink("../top/scadserve", self.path("bin/one"))
        os.symlink("one", self.path("bin/two"))
        cdpath = {"CDPATH": f"{self.folder}/elsewhere:/"}
        for tool in (self.path("bin/one"), self.path("bin/two"), "two", "top/scadserve"):
            for environment in ({}, cdpath):
                with self.subTest(tool=tool, environment=environment):
                    self.assertEqual(self.serve("run", tool=tool, environment=environment), (0, b"proved\n", ""))


if __name__ == "__main__":
    unittest.main()
