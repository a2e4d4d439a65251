"""The recipes of docs/RECIPES.md, run as they stand there."""

import contextlib
import os
import re
import socket
import subprocess
import sys
import tempfile
import time
import unittest

from tests.calls import PROGRAM, STAND_IN, TOP, Calls, needs_program
from tests.needs import needs
from tests.stand_in import BOX


def blocks(kind):
    """The texts of this kind in docs/RECIPES.md, in order."""
    with open(os.path.join(TOP, "docs", "RECIPES.md"), encoding="utf-8") as it:
        return re.findall(rf"```{kind}\n(.*?)```", it.read(), re.DOTALL)


@needs("make")
class Make(Calls):
    """A folder of parts that share a library: what changed is made anew, and what has a fault leaves nothing behind."""

    def setUp(self):
        super().setUp()
        self.write("Makefile", blocks("make")[0])
        os.mkdir(self.path("bin"))
        for name in os.listdir(os.path.join(TOP, "bin")):
            if name.startswith(("scad2", "off2")):
                # (a starter that takes no time to look for packages)
                self.write(f"bin/{name}", f"#!/bin/sh\nexec '{sys.executable}' -S '{TOP}/bin/{name}' \"$@\"\n")
                os.chmod(self.path(f"bin/{name}"), 0o755)
        self.environment["PATH"] = self.path("bin") + os.pathsep + self.environment["PATH"]
        os.mkdir(self.path("lib"))
        self.write("lib/sizes.scad", "w=6;\n")
        self.write("lib/pins.scad", "module pin() cube(1);\n")
        self.write("a.scad", "include <sizes.scad>\n")
        self.write("b.scad", "use <pins.scad>\nw=8;\n")
        self.later("a.scad", "b.scad", "lib/sizes.scad", "lib/pins.scad", seconds=-100)

    def later(self, *names, seconds):
        """Makes files this many seconds younger than now."""
        now = os.stat(self.folder).st_mtime
        for name in names:
            os.utime(self.path(name), (now + seconds, now + seconds))

    def make(self):
        done = subprocess.run(
            [
                "make", "-k", "all", "a.4off", "b.4off"
            ], cwd=self.folder, env=self.environment, capture_output=True, timeout=300, check=False
        )
        return done.returncode, done.stderr.decode()

    def test_parts_take_what_they_share_from_a_library(self):
        self.assertEqual(self.make()[0], 0)
        for name, side in (("a", 6), ("b", 8)):
            self.assertEqual(self.read(f"{name}.4off"), BOX.format(side).encode())
            self.assertIn(f"{name}.3mf", self.names())
        self.write("lib/sizes.scad", "w=4;\n")
        self.later("lib/sizes.scad", seconds=100)
        self.assertEqual(self.make()[0], 0)
        self.assertEqual(self.read("a.4off"), BOX.format(4).encode())
        self.write("a.scad", "include <sizes.scad>\ncube(2.5);\n")
        status, error = self.make()
        self.assertNotEqual(status, 0)
        self.assertIn("a.scad:2:6: error: NotWhole: ", error)
        self.assertEqual([it for it in self.names() if it in ("a.4off", "a.3mf")], [])
        self.assertEqual(self.read("b.4off"), BOX.format(8).encode())


@needs("socat")
class Service(Calls):
    """The server on the loopback address under limits, by the lines of the recipe."""

    SCRIPT = b"a put 1 w=7;\na export\n"
    ANSWER = b"== a\n1 ok 1\n2 solid 16\n" + BOX.format(7).encode()

    def setUp(self):
        super().setUp()
        with socket.socket() as it:
            it.bind(("127.0.0.1", 0))
            self.port = it.getsockname()[1]
        os.mkdir(self.path("bin"))
        self.environment["PATH"] = self.path("bin") + os.pathsep + self.environment["PATH"]
        self.server(STAND_IN)

    def server(self, program):
        self.executable("bin/scadserve", f"#!/bin/sh\nexec '{program}' \"$@\"\n")

    def executable(self, name, text):
        self.write(name, text)
        os.chmod(self.path(name), 0o755)

    @contextlib.contextmanager
    def listening(self, seconds=60, kilobytes=4000000):
        """Has socat listen meanwhile, with these limits of a run."""
        limited, by_service = (next(it for it in blocks("sh") if sign in it) for sign in ("ulimit", "Stands for the server"))
        [words] = (it.split() for it in blocks("sh") if "TCP-LISTEN" in it)
        self.executable("limited", limited.replace(" 60 ", f" {seconds} ").replace("4000000", str(kilobytes)))
        self.executable("by_service", by_service.replace("4777", str(self.port)))
        words = [it.replace("4777", str(self.port)) for it in words]
        listener = subprocess.Popen(words, cwd=self.folder, env=self.environment, stderr=subprocess.DEVNULL)
        try:
            while True:
                self.assertIsNone(listener.poll())
                with contextlib.suppress(ConnectionRefusedError), self.connected():
                    break
                time.sleep(0.02)
            yield
        finally:
            listener.terminate()
            listener.wait()

    def connected(self):
        return socket.create_connection(("127.0.0.1", self.port), timeout=60)

    def served(self, script):
        """What a connection gets back for a script."""
        with self.connected() as it:
            it.sendall(script)
            it.shutdown(socket.SHUT_WR)
            return b"".join(iter(lambda: it.recv(65536), b""))

    def test_scripts_are_answered_as_on_standard_input(self):
        with self.listening():
            self.assertEqual(self.served(self.SCRIPT), self.ANSWER)
            self.assertEqual(self.served(b""), b"")

    def test_a_run_that_a_limit_ends_writes_nothing_and_others_go_on(self):
        # (a server that starts at once, also on a machine that is busy)
        self.executable("bin/scadserve", "#!/bin/sh\nread -r line\n[ \"$line\" != wait ] || exec sleep 50\necho \"== $line\"\n")
        with self.listening(seconds=2):
            began = time.monotonic()
            self.assertEqual(self.served(b"wait\n"), b"")
            self.assertLess(time.monotonic() - began, 30)
            self.assertEqual(self.served(b"a\n"), b"== a\n")

    def test_the_tools_take_the_service_for_a_server(self):
        self.write("part.scad", "w=5;\n")
        self.write("slow.scad", "//= wait\n")
        with self.listening(seconds=8):
            environment = {"SCADSERVE": self.path("by_service")}
            self.assertEqual(self.call("part.scad", environment=environment)[:2], (0, BOX.format(5).encode()))
            status, out, error = self.call("slow.scad", environment=environment)
            self.assertEqual((status, out), (125, b""), error)

    @needs_program
    def test_the_program_itself_is_served(self):
        self.server(PROGRAM)
        with open(os.path.join(TOP, "examples", "box.script"), "rb") as script, open(
            os.path.join(TOP, "examples", "box.output"), "rb"
        ) as output:
            with self.listening():
                self.assertEqual(self.served(script.read()), output.read())

    @needs("systemd-analyze")
    def test_systemd_finds_nothing_wrong_with_the_units(self):
        with tempfile.TemporaryDirectory() as folder:
            for name, text in zip(("scadserve.socket", "scadserve@.service"), blocks("ini")):
                with open(os.path.join(folder, name), "w", encoding="ascii") as it:
                    it.write(text.replace("ExecStart=scadserve", "ExecStart=true"))
            units = [os.path.join(folder, it) for it in os.listdir(folder)]
            done = subprocess.run(["systemd-analyze", "verify", *units], capture_output=True, check=False, timeout=100)
            said = [it for it in done.stderr.decode().splitlines() if "scadserve" in it]
            self.assertEqual((done.returncode, said), (0, []))


if __name__ == "__main__":
    unittest.main()
