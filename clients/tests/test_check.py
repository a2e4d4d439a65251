"""The gate ends with the status of `rt ci` where that fails, and else with that of tools/check.sh, which counts tests. What it
leaves for the starter and for releases is that of one commit, and of sources that nobody touched while it ran."""

import hashlib
import lzma
import os
import re
import shutil
import signal
import subprocess
import time
import unittest

from tests.calls import TOP, Calls
from tests.needs import needs

needs_git = needs("git")

CASE = "import unittest\nclass Case(unittest.TestCase):\n"
PASSES = CASE + "    def test(self):\n        pass\n"
FAILS = CASE + "    def test(self):\n        for it in 1, 2:\n            with self.subTest(it):\n                self.fail()\n"
SKIPS = CASE + "    @unittest.skip('not here')\n    def test(self):\n        pass\n"
WANTS = CASE + """    @unittest.skip('needs no-such-program')
    def test_a(self):
        pass
    @unittest.skip('needs man, no-such-program')
    def test_b(self):
        pass
"""
# A process that ends in the middle of a test.
LEAVES = "import os\n" + CASE + "    def test(self):\n        os._exit(0)\n"
MEETS = CASE + """    def test(self):
        open({mine!r}, "w").close()
        while not os.path.exists({other!r}):
            time.sleep(0.02)
"""
MEETS = "import os, time\n" + MEETS
ALONE = CASE + "    def test(self):\n        assert os.path.exists({!r}) and os.path.exists({!r})\n"
ALONE = "import os\nALONE = True\n" + ALONE
# (what a test calls may take the limit for one of its own exceptions)
WAITS = "import time\n" + CASE + """    def test_a(self):
        try:
            time.sleep(1000)
        except Exception:
            pass
        finally:
            try:
                time.sleep(1000)
            except:
                pass
    def test_b(self):
        pass
"""
STARTS = "import signal, subprocess\n" + CASE + """    def test(self):
        for number in (signal.SIGINT, signal.SIGQUIT, signal.SIGHUP, signal.SIGTERM, signal.SIGPIPE):
            child = subprocess.Popen(["sleep", "100"])
            child.send_signal(number)
            self.assertEqual(child.wait(20), -number)
"""
TELLS = "import os, time\n" + CASE + """    def test(self):
        with open({0!r} + ".new", "w") as it:
            it.write(str(os.getpid()))
        os.rename({0!r} + ".new", {0!r})
        time.sleep(1000)
"""

RT = """#!/bin/sh
case $1 in
version) echo "the kit of this test" ;;
ci)
    echo "rt $*"
    mkdir -p crates/scadserve/out
    echo "the program" >crates/scadserve/out/scadserve
    chmod +x crates/scadserve/out/scadserve
    {also}
    echo "7 passed, {failed} failed"
    exit {status}
    ;;
esac
"""


class Folder(Calls):
    """A folder with small sources and the gate, and a stand-in for `rt`."""

    def setUp(self):
        super().setUp()
        for folder in ("bin", "top/tools", "top/.ci", "top/crates/scadserve/src"):
            os.makedirs(self.path(folder))
        for name in ("tools/built.sh", "tools/unpack.sh", ".ci/run"):
            shutil.copy(os.path.join(TOP, name), self.path(f"top/{name}"))
        for name, text in ((".gitignore", "out/\n"), ("crates.txt", "scadserve:\n"), ("HANDLES", "")):
            self.write(f"top/{name}", text)
        self.write("top/crates/scadserve/src/main.rt", "")
        self.environment.update(PATH=self.path("bin") + ":" + os.environ["PATH"], XDG_STATE_HOME=self.path("state"))
        # (no settings of this machine's user)
        self.environment.update(GIT_CONFIG_GLOBAL="/dev/null", GIT_CONFIG_NOSYSTEM="1")

    def commit(self):
        """Makes the folder a repository with one commit, and gives its name."""
        self.write("top/tools/check.sh", "echo '3 passed, 0 failed'\n")
        self.write("top/tools/house.py", "")
        who = ["-c", "user.name=a", "-c", "user.email=a@b"]
        for words in (["init", "-q"], ["add", "-A"], [*who, "commit", "-q", "-m", "all"], ["rev-parse", "HEAD"]):
            status, out, error = self.call("-C", "top", *words, tool="git")
            self.assertEqual(status, 0, error)
        return out.decode().strip()


class Gate(Folder):
    def gate(self, of_rt, of_check=None, also=":"):
        """The status of the gate, and the lines that the two commands leave."""
        self.write("bin/rt", RT.format(status=of_rt, failed=int(of_rt > 0), also=also))
        os.chmod(self.path("bin/rt"), 0o755)
        if of_check is not None:
            self.write("top/tools/house.py", "")
            self.write("top/tools/check.sh", f"echo check \"$@\"\nexit {of_check}\n")
        status, out, error = self.call("-c", "cd top && bash .ci/run", tool="bash")
        self.said = error.decode()
        return status, out.decode().splitlines()

    def test_the_tests_follow_a_plain_rt_ci_that_passes(self):
        self.assertEqual(self.gate(0, 0), (0, ["rt ci", "7 passed, 0 failed", "check"]))
        self.assertEqual(self.gate(0, 1), (1, ["rt ci", "7 passed, 0 failed", "check"]))
        self.assertNotIn("gate", os.listdir(self.path("top/out")))

    def test_a_failure_of_rt_ci_ends_it(self):
        self.assertEqual(self.gate(1, 0), (1, ["rt ci", "7 passed, 1 failed"]))
        self.assertEqual(self.gate(3, 0), (3, ["rt ci", "7 passed, 1 failed"]))
        self.assertNotIn("scadserve.proved", os.listdir(self.path("top/crates/scadserve/out")))

    @needs_git
    def test_a_green_gate_of_a_commit_is_kept(self):
        commit = self.commit()
        self.assertEqual(self.gate(0)[0], 0)
        program = hashlib.sha256(b"the program\n").hexdigest()
        empty = hashlib.sha256(b"").hexdigest()
        listed = f"{empty}  HANDLES\n{hashlib.sha256(b'scadserve:' + bytes([10])).hexdigest()}  crates.txt\n"
        listed += f"{empty}  crates/scadserve/src/main.rt\n"
        sources = hashlib.sha256(listed.encode()).hexdigest()
        wanted = f"commit {commit}\nkit the kit of this test\ngate 7 passed, 0 failed\ntests 3 passed, 0 failed\n"
        self.assertEqual(self.read("top/out/gate").decode(), f"{wanted}program {program}\nsources {sources}\n")
        record = f"{program} {sources}\n".encode()
        self.assertEqual(self.read("top/crates/scadserve/out/scadserve.proved"), record)
        self.assertEqual(self.read("state/scadserve/proved"), record)
        # A red one after it leaves none.
        self.assertEqual(self.gate(1)[0], 1)
        self.assertNotIn("gate", os.listdir(self.path("top/out")))

    @needs_git
    def test_a_tree_with_changes_is_no_commit(self):
        self.commit()
        self.write("top/README.md", "more")
        self.assertEqual(self.gate(0)[0], 0)
        self.assertIn("makes no release", self.said)
        self.assertNotIn("gate", os.listdir(self.path("top/out")))
        self.assertIn("scadserve.proved", os.listdir(self.path("top/crates/scadserve/out")))

    @needs_git
    def test_sources_that_were_touched_meanwhile_are_not_noted(self):
        self.commit()
        # (changed, and changed back)
        changed = "mv crates/scadserve/src/main.rt was; echo x >crates/scadserve/src/main.rt; rm crates/scadserve/src/main.rt; "
        self.assertEqual(self.gate(0, also=changed + "mv was crates/scadserve/src/main.rt")[0], 0)
        self.assertIn("sources were touched while it ran", self.said)
        self.assertNotIn("gate", os.listdir(self.path("top/out")))
        self.assertNotIn("scadserve.proved", os.listdir(self.path("top/crates/scadserve/out")))


    def test_the_program_that_comes_with_the_sources_is_the_one_that_is_built(self):
        self.gate(0, 0)
        self.assertIn("gate: boot/ has no program of these sources", self.said)
        _, sources = self.read("top/crates/scadserve/out/scadserve.proved").decode().split()
        os.mkdir(self.path("top/boot"))
        packed = "top/boot/scadserve-x86_64-linux.xz"
        self.write(packed, lzma.compress(b"the program\n"))
        self.write("top/boot/PROVED", f"sources {sources}\n\nsources of nothing\n")
        passed = ["rt ci", "7 passed, 0 failed", "check"]
        self.assertEqual(self.gate(0, 0), (0, passed))
        self.assertNotIn("gate: ", self.said.replace("gate: the tree has changes", ""))
        # Another program, and none, fail before the tests.
        for other in (lzma.compress(b"the program\n\n"), b"", b"the program\n"):
            self.write(packed, other)
            status, lines = self.gate(0, 0)
            self.assertEqual((status, lines[:2], "check" in lines), (1, passed[:2], False))
            self.assertIn("gate: the program in boot/ is not the one that was proved and built just now", self.said)
        os.remove(self.path(packed))
        self.assertEqual(self.gate(0, 0)[0], 1)
        # That of other sources is left alone, and told.
        self.write("top/crates/scadserve/src/main.rt", "more")
        self.assertEqual(self.gate(0, 0), (0, passed))
        self.assertIn("gate: boot/ has no program of these sources", self.said)


# Builds programs of both compilers, of which one may have where it was built in it.
BUILDS = """#!/bin/sh
[ "$1" = ci ] || exit 9
mkdir -p crates/scadserve/out
umask >>"$SEEN"
echo "$TZ $*" >>"$SEEN"
for name in scadserve scadserve.by-rattle; do
    echo "the program {more}" >crates/scadserve/out/$name
    chmod +x crates/scadserve/out/$name
done
echo "7 passed, {failed} failed"
exit {failed}
"""


@needs("git")
class Twice(Folder):
    def twice(self, more="", failed=0):
        """What tools/twice.sh says, where `rt ci` in the clone does so."""
        self.write("bin/rt", BUILDS.format(more=more, failed=failed))
        os.chmod(self.path("bin/rt"), 0o755)
        self.environment["SEEN"] = self.path("seen")
        status, out, error = self.call("--anew", tool=self.path("top/tools/twice.sh"))
        return status, out.decode(), error.decode()

    def test_the_programs_of_another_clone_are_compared(self):
        shutil.copy(os.path.join(TOP, "tools", "twice.sh"), self.path("top/tools"))
        self.commit()
        self.assertIn("the gate has left no programs of both compilers", self.twice()[2])
        os.makedirs(self.path("top/crates/scadserve/out"))
        for name in ("scadserve", "scadserve.by-rattle"):
            self.write(f"top/crates/scadserve/out/{name}", "the program \n")
            os.chmod(self.path(f"top/crates/scadserve/out/{name}"), 0o755)
        self.assertEqual(self.twice(), (0, "both compilers make the same programs in another clone\n", ""))
        self.assertEqual(self.read("seen").decode().splitlines(), ["0027", "Asia/Tokyo ci --anew"])
        status, out, error = self.twice(more="in $PWD")
        self.assertEqual((status, error.splitlines()[-1]), (1, "twice: scadserve is another program in the clone"))
        self.assertEqual(self.twice(failed=1)[::2], (1, "twice: `rt ci` fails in the clone:\n7 passed, 1 failed\n"))
        self.write("top/crates/scadserve/src/main.rt", "more")
        self.assertEqual(self.twice()[::2], (1, "twice: the sources are not those of the commit that stands here\n"))


class Check(Calls):
    """tools/check.sh over modules of the test's own."""

    def check(self, *words, before="", **modules):
        """The status, and the lines of what is said, with the numbers of seconds left out."""
        shutil.rmtree(self.path("top"), ignore_errors=True)
        os.makedirs(self.path("top/tools"))
        os.makedirs(self.path("top/clients/tests"))
        for name in ("tools/check.sh", "tools/check.py", "clients/tests/__init__.py"):
            shutil.copy(os.path.join(TOP, name), self.path(f"top/{name}"))
        for name, text in modules.items():
            self.write(f"top/clients/tests/test_{name}.py", text)
        command = f"{before} exec sh top/tools/check.sh \"$@\""
        status, out, error = self.call("-c", command, "sh", *words, tool="sh")
        self.assertEqual(error, b"")
        return status, re.sub(r" *\d+\.\d s", " N s", out.decode()).splitlines()


class Counts(Check):
    def count(self, **modules):
        """The status, and the last line."""
        status, lines = self.check(**modules)
        return status, lines[-1]

    def test_tests_that_pass_fail_and_are_skipped_are_counted(self):
        self.assertEqual(self.count(a=PASSES), (0, "1 passed, 0 failed"))
        self.assertEqual(self.count(a=PASSES, c=SKIPS), (0, "1 passed, 0 failed, 1 skipped"))
        self.assertEqual(self.count(a=PASSES, b=FAILS, c=SKIPS), (1, "1 passed, 1 failed, 1 skipped"))

    def test_modules_that_break_fail_and_nothing_is_no_pass(self):
        self.assertEqual(self.count(a=PASSES, d="import there_is_no_such_module\n"), (1, "1 passed, 1 failed"))
        self.assertEqual(self.count(a=PASSES, e=CASE.replace("(", "(x"), f=LEAVES), (1, "1 passed, 2 failed"))
        self.assertEqual(self.count(c=SKIPS), (1, "0 passed, 0 failed, 1 skipped"))
        self.assertEqual(self.count(), (1, "0 passed, 0 failed"))

    def test_what_failed_and_what_was_wanted_is_told(self):
        status, lines = self.check(a=PASSES, b=FAILS, c=SKIPS, d=WANTS)
        self.assertEqual(status, 1)
        self.assertEqual(sum("AssertionError" in it for it in lines), 2)
        self.assertIn("tests.test_b: 0 passed, 1 failed ( N s, N s of processors)", lines)
        begin = lines.index("FAILED: tests.test_b.Case.test")
        self.assertEqual(lines[begin + 1], "the 10 tests that took longest, by the clock and of processors:")
        self.assertEqual(lines[begin + 2][:11], " N s N s  t")
        end = [
            "1 skipped: not here",
            "skipped because programs are missing: man (1), no-such-program (2)",
            "on Debian this installs them: apt-get install man-db no-such-program",
        ]
        self.assertEqual(lines[-5:-2], end)
        self.assertEqual(lines[-1], "1 passed, 1 failed, 3 skipped")

    def test_modules_may_be_named(self):
        status, lines = self.check("test_a", "--jobs", "1", "tests.test_c", a=PASSES, b=FAILS, c=SKIPS)
        self.assertEqual((status, lines[-1]), (0, "1 passed, 0 failed, 1 skipped"))


class Runs(Check):
    def test_modules_run_side_by_side_and_those_that_measure_alone(self):
        # Each of two waits for the other, and a third one finds both ended.
        other = {"a": "b", "b": "a"}
        modules = {name: MEETS.format(mine=self.path(name), other=self.path(other[name])) for name in other}
        alone = ALONE.format(self.path("a"), self.path("b"))
        status, lines = self.check("--jobs", "2", aa=alone, **modules)
        self.assertEqual((status, lines[-1]), (0, "3 passed, 0 failed"), lines)

    def test_a_test_that_waits_for_ever_fails_at_its_limit_and_the_others_run(self):
        status, lines = self.check("--limit", "0.5", a=WAITS, b=PASSES)
        self.assertEqual((status, lines[-1]), (1, "2 passed, 1 failed"))
        self.assertIn("FAILED: tests.test_a.Case.test_a", lines)
        self.assertEqual(sum("PastLimit: it took longer than " in it for it in lines), 1)

    def test_tests_start_processes_with_the_defaults_of_signals(self):
        for before in ("", "trap '' INT QUIT HUP TERM;"):
            status, lines = self.check(a=STARTS, before=before)
            self.assertEqual((status, lines[-1]), (0, "1 passed, 0 failed"), lines)

    def test_an_end_of_the_run_ends_its_processes(self):
        self.check(a=PASSES)
        self.write("top/clients/tests/test_a.py", TELLS.format(self.path("pid")))
        with subprocess.Popen(
            ["sh", self.path("top/tools/check.sh")], stdout=subprocess.DEVNULL, stderr=subprocess.DEVNULL
        ) as check:
            while not os.path.exists(self.path("pid")):
                time.sleep(0.02)
            check.terminate()
            self.assertEqual(check.wait(60), 128 + signal.SIGTERM)
        with self.assertRaises(ProcessLookupError):
            while True:
                os.kill(int(self.read("pid")), 0)
                time.sleep(0.02)


if __name__ == "__main__":
    unittest.main()
