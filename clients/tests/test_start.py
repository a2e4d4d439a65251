"""How the tools start: what they load, and the server that is begun before its script is known."""

from __future__ import annotations

import os
import signal
import subprocess
import sys
import time
import unittest

from scadserve.server import processes
from scadserve.solid.formats import WRITERS
from scadserve.calls.mesh_words import FORMATS
from tests.calls import PROGRAM, TOP, Calls, needs_program

CLIENTS = os.path.join(TOP, "clients")
BRACKET = os.path.join(TOP, "examples", "bracket.scad")

# Calls a tool, and prints what was loaded as the server was begun, and what is loaded at the end.
LOADED = """import sys
sys.path.insert(0, sys.argv[1])
before = set(sys.modules)
from scadserve.calls import asking
begin = asking.begin
def noted(*words):
    print(*sorted(set(sys.modules) - before))
    begin(*words)
asking.begin = noted
from importlib import import_module
status = import_module("scadserve.tools." + sys.argv[2]).main(sys.argv[3:])
print(*sorted(set(sys.modules) - before))
sys.exit(status)
"""
#: Modules that take long to load, and that no source in the language of the server needs.
SLOW = {"dataclasses", "inspect", "pathlib", "tempfile", "shutil", "zipfile", "json", "multiprocessing", "concurrent", "html"}
#: Of the package: what reads files that are used, and what tells faults and notes.
RARE = {"openscad", *(f"source.{it}" for it in "using specials file_scopes faults telling differing".split())}
#: Of the package: what is loaded while the server starts.
LATER = {"server.scripts", "server.replies", "server.batches", "source.joining", "source.sources", "solid", "tiles"}


#: Whether `env` can make a signal wait.
BLOCKS = subprocess.run(["env", "--block-signal=INT", "true"], stderr=subprocess.DEVNULL, check=False).returncode == 0


class Start(Calls):
    def loaded(self, tool: str, *words: str) -> list[set[str]]:
        """The modules that a tool has loaded when it begins the server, and in the end."""
        code = [sys.executable, "-S", "-c", LOADED, CLIENTS, tool, *words]
        how = {**self.environment, "SCADSERVE": PROGRAM}
        done = subprocess.run(code, cwd=self.folder, env=how, capture_output=True, text=True, check=True)
        return [{it.removeprefix("scadserve.") for it in line.split()} for line in done.stdout.splitlines()]

    @needs_program
    def test_a_plain_source_loads_nothing_that_it_does_not_need(self) -> None:
        for tool, out in (("scad2stl", "bracket.stl"), ("scad2off", "bracket.4off")):
            with self.subTest(tool):
                first, last = self.loaded(tool, BRACKET, "-o", out)
                self.assertLess(first, last)
                self.assertEqual(first & (SLOW | RARE | LATER), set())
                self.assertEqual(last & (SLOW | RARE), set())
                self.assertTrue(self.read(out))

    def test_the_words_know_the_formats_without_loading_what_writes_them(self) -> None:
        self.assertEqual(FORMATS, tuple(WRITERS))

    def server(self, text: str) -> dict[str, str]:
        """The environment in which a script of the shell is the server."""
        name = self.write("server", f"#!/bin/sh\n{text}\n")
        os.chmod(self.path(name), 0o755)
        return {"SCADSERVE": self.path(name)}

    @needs_program
    def test_the_server_that_is_begun_is_the_one_that_is_asked(self) -> None:
        for words, options in (((), "run"), (("--half",), "run --half")):
            with self.subTest(options):
                there = self.server(f'echo "$@" >>{self.path("starts")}\nexec {PROGRAM} "$@"')
                status, _, said = self.call(BRACKET, "-o", "bracket.4off", *words, environment=there)
                self.assertEqual((status, said), (0, b""))
                self.assertEqual(self.read("starts").decode(), f"{options}\n")
                os.unlink(self.path("starts"))

    def test_a_server_that_is_not_asked_is_ended(self) -> None:
        number = self.path("number")
        there = self.server(f"echo $$ >{number}.new\nmv {number}.new {number}\nexec sleep 600")
        # (a pipe that is written once the server has begun)
        os.mkfifo(self.path("part.scad"))
        words = [sys.executable, "-S", os.path.join(TOP, "bin", "scad2off"), "part.scad", "-o", "part.4off"]
        tool = subprocess.Popen(words, cwd=self.folder, env={**self.environment, **there}, stderr=subprocess.PIPE)
        while not os.path.exists(number):
            time.sleep(0.01)
        with open(self.path("part.scad"), "wb") as it:
            it.write(b"include <none.scad>\n")
        said = tool.communicate(timeout=100)[1]
        self.assertEqual(tool.returncode, 1)
        self.assertIn(b"part.scad:1:1: error: NoFile", said)
        process = int(self.read("number"))
        for _ in range(1_000):
            try:
                os.kill(process, 0)
            except ProcessLookupError:
                return
            time.sleep(0.01)
        self.fail("the server goes on")

    def interrupted(self, tool: str, delay: float) -> tuple[int, bytes]:
        """The status and what is said of a tool that waits for its input and is sent Ctrl-C after a time."""
        words = [os.path.join(TOP, "bin", tool), "-"]
        how = {"stdin": subprocess.PIPE, "stderr": subprocess.PIPE, "stdout": subprocess.DEVNULL, "start_new_session": True}
        with subprocess.Popen(words, cwd=self.folder, env=self.environment, **how) as run:
            time.sleep(delay)
            # (as a terminal does: to all that runs there)
            os.killpg(run.pid, signal.SIGINT)
            assert run.stderr is not None
            return run.wait(100), run.stderr.read()

    @unittest.skipUnless(BLOCKS, "env blocks no signal")
    def test_an_interrupt_at_any_moment_ends_a_tool_without_a_word(self) -> None:
        for tool in ("scad2stl", "off2stl"):
            for delay in range(0 if tool == "scad2stl" else 10, 400, 20):
                with self.subTest(tool=tool, delay=delay):
                    status, said = self.interrupted(tool, delay / 1_000)
                    # (a shell says 130 of both)
                    self.assertIn(status, (130, -signal.SIGINT), said)
                    self.assertEqual(said, b"")

    def test_a_server_gets_interrupts_and_env_need_not_block_them(self) -> None:
        self.write("env", '#!/bin/sh\necho "env: no such option" >&2\nexit 125\n')
        os.chmod(self.path("env"), 0o755)
        there = self.server(f"grep SigBlk /proc/self/status >{self.path('blocked')}\ncat >/dev/null\nexit 3")
        for path in (os.environ["PATH"], f"{self.folder}:{os.environ['PATH']}"):
            status, _, said = self.call(BRACKET, tool=os.path.join(TOP, "bin", "scad2off"), environment={**there, "PATH": path})
            self.assertEqual((status, said.decode().partition(":")[0]), (3, "scad2off"), said)
            self.assertEqual(int(self.read("blocked").split()[1], 16) & 1 << signal.SIGINT - 1, 0)
            os.unlink(self.path("blocked"))

    def test_one_that_does_not_start_is_told_when_it_is_asked(self) -> None:
        processes.begin(["/none/such"], [])
        with self.assertRaisesRegex(processes.NotStarted, "/none/such does not start: No such file or directory"):
            processes.output(["/none/such"], [], b"")


if __name__ == "__main__":
    unittest.main()
