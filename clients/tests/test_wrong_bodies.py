"""What tools/wrong-bodies.sh tries, says and notes, with a stand-in for `rt`."""

import os
import shutil
import signal
import subprocess
import time
import unittest

from tests.calls import TOP, Calls

# Checks a crate unless its source says that it is wrong. Says of each edit what its text asks for.
RT = """#!/bin/sh
echo "$PWD" "$@" >>"$RT_LOG"
case $1 in
check) ! grep -q wrong src/lib.rt ;;
must-fail)
    for it in "crates/$2/must-fail"/*.edit; do
        echo "rt: must-fail $2/${it##*/}: $(cat "$it")"
    done
    grep -q wait "crates/$2/src/lib.rt" && touch "$RT_LOG.waits" && sleep 30
    ;;
esac
"""
REFUSED = "refused, as it must be: src/lib.rt:1:1: error"
PROVED = "NOT REFUSED: the crate is still proved with this edit"


class WrongBodies(Calls):
    def setUp(self):
        super().setUp()
        self.top = self.path("top")
        self.write("bin/rt", RT)
        os.chmod(self.path("bin/rt"), 0o755)
        self.environment.update(PATH=f"{self.path('bin')}:/usr/bin:/bin", RT_LOG=self.path("rt.log"), TMPDIR=self.log)
        self.crate("one", a=REFUSED, b=REFUSED)
        self.crate("other", c=REFUSED)
        self.tool = f"{self.top}/tools/wrong-bodies.sh"
        os.makedirs(f"{self.top}/tools")
        shutil.copy(os.path.join(TOP, "tools/wrong-bodies.sh"), self.tool)

    def write(self, name, text):
        os.makedirs(os.path.dirname(self.path(name)), exist_ok=True)
        return super().write(name, text)

    def crate(self, name, source="right\n", **edits):
        self.write(f"top/crates/{name}/src/lib.rt", source)
        for edit, said in edits.items():
            self.write(f"top/wrong-bodies/{name}/{edit}.edit", said + "\n")

    def tried(self, *words):
        """The status, the lines that are printed, and the record, without dates and sums."""
        status, out, error = self.call(*words, tool=self.tool)
        self.assertEqual((error, os.listdir(self.log)), (b"", []))
        for it in os.listdir(f"{self.top}/crates"):
            self.assertNotIn("must-fail", os.listdir(f"{self.top}/crates/{it}"))
        lines = self.read("top/wrong-bodies/TRIED").decode().splitlines() if os.path.exists(
            self.path("top/wrong-bodies/TRIED")
        ) else []
        for it in lines:
            self.assertRegex(it, r"^[a-z]+ \d+ of \d+ \d{4}-\d\d-\d\d [0-9a-f]{16}$")
        return status, out.decode().splitlines(), [it[:-28] for it in lines]

    def test_each_crate_is_checked_and_tried_and_has_a_line_in_order(self):
        status, said, record = self.tried("other", "one")
        self.assertEqual(
            (status, said), (0, ["other: 1 of 1 refused", "one: 2 of 2 refused", "3 of 3 wrong bodies were refused"])
        )
        self.assertEqual(record, ["one 2 of 2", "other 1 of 1"])
        asked = self.read("rt.log").decode().splitlines()
        self.assertEqual(asked[:2], [f"{self.top}/crates/other check", f"{self.top} must-fail other"])
        self.assertEqual(self.tried(), (0, ["one: 2 of 2 refused", "other: 1 of 1 refused", said[-1]], record))

    def test_what_is_not_refused_is_told_and_noted(self):
        self.crate("other", c=PROVED, d="BAD EDIT: no such line")
        status, said, record = self.tried("other")
        self.assertEqual(status, 1)
        self.assertEqual(said[0], "other: 0 of 2 refused")
        self.assertEqual(said[1], f"    rt: must-fail other/c.edit: {PROVED}")
        self.assertEqual(said[3], "0 of 2 wrong bodies were refused")
        self.assertEqual(record, ["other 0 of 2"])
        self.assertEqual(self.tried("--left")[1][1][:-10], "other: 0 of 2 were refused on ")

    def test_those_of_the_gate_are_tried_with_them_and_stay(self):
        self.write("top/crates/one/must-fail/gate.edit", REFUSED + "\n")
        status, out, _ = self.call("one", tool=self.tool)
        self.assertEqual((status, out.decode().splitlines()[0]), (0, "one: 3 of 3 refused"))
        self.assertEqual(os.listdir(f"{self.top}/crates/one/must-fail"), ["gate.edit"])

    def test_a_crate_that_is_not_proved_is_not_tried(self):
        self.crate("one", "wrong\n")
        status, said, record = self.tried("one", "other")
        self.assertEqual(status, 1)
        self.assertEqual(said[0], "one: not proved, so none of its wrong bodies was tried")
        self.assertEqual(record, ["other 1 of 1"])

    def test_one_by_name_is_tried_without_a_line(self):
        self.assertEqual(self.tried("one/b"), (0, ["one: 1 of 1 refused", "1 of 1 wrong bodies were refused"], []))
        for name in ("none", "one/none"):
            status, _, error = self.call(name, tool=self.tool)
            self.assertEqual((status, error), (2, f"wrong-bodies: there is nothing to try of the name {name}\n".encode()))

    def test_the_crates_that_changed_are_listed(self):
        self.assertEqual(self.tried("--left")[:2], (0, ["one: not tried yet", "other: not tried yet"]))
        self.tried()
        self.assertEqual(self.tried("--left")[:2], (0, []))
        self.write("top/crates/one/src/lib.rt", "right again\n")
        self.write("top/wrong-bodies/other/d.edit", REFUSED + "\n")
        left = self.tried("--left")[1]
        self.assertEqual([it[:-10] for it in left], ["one: changed since ", "other: changed since "])
        self.tried("one")
        self.assertEqual(len(self.tried("--left")[1]), 1)

    def test_a_run_that_is_cut_off_leaves_nothing_and_what_a_killed_one_left_is_taken_out(self):
        self.crate("one", "wait\n")
        for cut in (signal.SIGTERM, signal.SIGINT):
            self.remove("rt.log.waits")
            run = subprocess.Popen([self.tool, "one"], env=self.environment, stdout=subprocess.PIPE, stderr=subprocess.PIPE)
            while not os.path.exists(self.path("rt.log.waits")):
                self.assertIsNone(run.poll())
                time.sleep(0.01)
            self.assertTrue(os.path.exists(f"{self.top}/crates/one/must-fail/a.edit"))
            run.send_signal(cut)
            run.communicate(timeout=10)
            self.assertEqual(run.returncode, 128 + cut)
            self.assertEqual((os.listdir(f"{self.top}/crates/one"), os.listdir(self.log)), (["src"], []))
        self.crate("one")
        self.write("top/crates/one/must-fail/a.edit", REFUSED + "\n")
        self.assertEqual(self.tried("one")[2], ["one 2 of 2"])
        self.assertEqual(self.tried("--left")[1], ["other: not tried yet"])

    def remove(self, name):
        if os.path.exists(self.path(name)):
            os.remove(self.path(name))


if __name__ == "__main__":
    unittest.main()
