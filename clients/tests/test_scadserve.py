"""Scripts are written within their limits; what the server says of its end is told by exceptions."""

import os
import pathlib
import shlex
import signal
import subprocess
import sys
import tempfile
import time
import unittest
from unittest import mock

from scadserve.server import scripts
from scadserve.server.scripts import Fault, Limit, Malformed, Ok, Script, Solid, Text, passed_limit, run

STAND_IN = (sys.executable, "-S", os.path.join(os.path.dirname(os.path.realpath(__file__)), "stand_in.py"))
MIB = 1_048_576


class Limits(unittest.TestCase):
    """Each limit, at its number and one past it."""

    def assert_refused(self, word, call, *arguments):
        """A call past a limit says so by this word."""
        with self.assertRaises(Limit) as caught:
            call(*arguments)
        self.assertEqual(caught.exception.word, word)

    def test_a_name_has_1_to_16_letters_and_digits(self):
        script = Script()
        for name in ("a", "0", "z9", "a" * 16):
            script.client(name)
        for name in ("", "a" * 17, "A", "ä", "a b", "a\n", "-"):
            self.assert_refused("NoName", script.client, name)

    def test_a_script_has_16_clients(self):
        script = Script()
        for number in range(16):
            script.client(f"c{number}").show()
        with self.assertRaisesRegex(ValueError, "^the script has a client c0 already$"):
            script.client("c0")
        self.assert_refused("TooManyClients", script.client, "c16")

    def test_a_line_has_1024_bytes(self):
        client = Script().client("a")
        client.put(1, b"x" * 1_016)
        self.assert_refused("TooLong", client.put, 1, b"x" * 1_017)
        client.put(1, b"x" * 1_015 + b"\r")
        self.assert_refused("TooLong", client.put, 1, b"x" * 1_016 + b"\r")
        client.set(2, b"x" * 1_016)
        self.assert_refused("TooLong", client.set, 2, b"x" * 1_017)
        self.assert_refused("TooLong", Script().client("a" * 16).put, 1, b"x" * 1_002)
        Script().client("a" * 16).put(1, b"x" * 1_001)

    def test_a_client_has_8192_commands(self):
        script = Script()
        client = script.client("a")
        client.put(1, b"")
        for _ in range(8_191):
            client.set(1, b"")
        self.assert_refused("TooManyCommands", client.export)
        script.client("b").export()

    def test_a_script_has_1048576_bytes(self):
        script = Script()
        client = script.client("a")
        client.put(1, b"")
        for _ in range(1_022):
            client.set(1, b"x" * 1_016)
        # 9 bytes and 1,022 times 1,025 leave 1,017, of which a line's beginning and end take 9.
        self.assert_refused("TooLarge", client.set, 1, b"x" * 1_009)
        client.set(1, b"x" * 1_008)
        self.assertEqual((len(script), len(bytes(script))), (MIB, MIB))
        self.assert_refused("TooLarge", client.show)

    def test_a_source_has_4096_lines(self):
        client = Script().client("a")
        for number in range(1, 4_097):
            client.put(number, b"")
        self.assert_refused("TooManyLines", client.put, 1, b"")
        client.cut(4_096, 4_096)
        client.put(4_096, b"")

    def test_a_client_is_shown_its_lines_and_exports_16_times(self):
        client = Script().client("a")
        for _ in range(16):
            client.show()
            client.export()
        self.assert_refused("TooManyShows", client.show)
        self.assert_refused("TooManyExports", client.export)

    def test_lines_are_numbered_from_1_to_the_last(self):
        client = Script().client("a")
        client.put(1, b"x")
        client.put(2, b"y")
        for call, arguments in (
            (client.put, (0, b"")),
            (client.put, (4, b"")),
            (client.set, (0, b"")),
            (client.set, (3, b"")),
            (client.cut, (0, 1)),
            (client.cut, (2, 1)),
            (client.cut, (1, 3)),
        ):
            self.assert_refused("NoSuchLine", call, *arguments)
        self.assert_refused("BadCommand", client.put, 10_000_000, b"")
        client.cut(2, 2)
        client.put(2, b"")

    def test_what_is_refused_adds_nothing(self):
        script = Script()
        client = script.client("a")
        client.put(1, b"x")
        written = bytes(script)
        self.assert_refused("TooLong", client.put, 1, b"x" * 1_017)
        self.assert_refused("NoSuchLine", client.cut, 2, 2)
        self.assert_refused("TooManyLines", client.source, [b""] * 4_097)
        self.assert_refused("TooLong", client.source, [b"", b"x" * 1_017])
        self.assert_refused("TooLarge", client.source, [b"x" * 1_000] * 1_100)
        with self.assertRaises(ValueError):
            client.source([b"x", b"y\nz"])
        self.assertEqual(bytes(script), written)
        self.assertEqual(client.export(), 1)

    def test_a_source_is_put_within_the_commands_of_its_client(self):
        client = Script().client("a")
        client.source([b""] * 4_095)
        self.assertTrue(client.has_room([b""] * 4_095))
        client.source([b""] * 4_095)
        # 4,095 and 4,096 are 8,191 commands: there is one left, for the export.
        self.assert_refused("TooManyCommands", client.source, [b""])
        client.export()
        self.assert_refused("TooManyCommands", client.export)

    def test_a_line_with_a_newline_is_no_line(self):
        for call in ("put", "set"):
            with self.assertRaises(ValueError):
                getattr(Script().client("a"), call)(1, b"x\na export")


class Sources(unittest.TestCase):
    """Limits of a whole source that stands alone, at its number and one past it."""

    def test_a_line_has_1016_bytes(self):
        self.assertIsNone(passed_limit([b"x" * 1_016] * 3))
        self.assertEqual(passed_limit([b"x" * 1_017]), Fault(1, 1_017, "TooLong"))
        self.assertEqual(passed_limit([b""] * 4_095 + [b"x" * 1_017]), Fault(4_096, 1_017, "TooLong"))
        self.assertIsNone(passed_limit([b"x" * 1_015 + b"\r"]))

    def test_there_are_4096_lines(self):
        self.assertIsNone(passed_limit([b""] * 4_096))
        self.assertEqual(passed_limit([b""] * 4_097), Fault(4_097, 1, "TooManyLines"))
        self.assertEqual(passed_limit([b""] * 4_096 + [b"x" * 1_017]), Fault(4_097, 1, "TooManyLines"))

    def test_a_script_holds_it_with_its_export(self):
        # Lines of 1,000 bytes: nine of 1,009 bytes each as `a put N ..`, then ninety of 1,010, then those of 1,011.
        lines = [b"x" * 1_000] * 1_100
        self.assertEqual(passed_limit(lines), Fault(1_038, 1, "TooLarge"))
        whole = lines[:1_037]
        left = MIB - len(b"a export\n") - self.length(whole) - len(b"a put 1038 \n")
        self.assertIsNone(passed_limit([*whole, b"x" * left]))
        self.assertEqual(passed_limit([*whole, b"x" * (left + 1)]), Fault(1_038, 1, "TooLarge"))

    def test_a_script_holds_it_from_its_last_line_to_its_first(self):
        # With a line that can't be put behind its own number each is `a put 1 ..`: 1,025 bytes with its newline.
        lines = [b"x" * 1_016] * 1_022
        left = MIB - len(b"a export\n") - 1_025 * 1_022 - len(b"a put 1 \n")
        self.assertEqual(len(lines), MIB // 1_025 - 1)
        self.assertIsNone(passed_limit([*lines, b"x" * left]))
        self.assertEqual(passed_limit([*lines, b"x" * (left + 1)]), Fault(1_023, 1, "TooLarge"))

    def length(self, lines):
        script = Script()
        script.client("a").source(lines)
        return len(script)

    def test_what_has_no_limit_is_written_and_what_passes_one_is_not(self):
        for lines in ([b"x" * 1_016] * 20, [b""] * 4_096, [], [b"x" * 1_015] * 9):
            client = Script().client("a")
            self.assertIsNone(passed_limit(lines))
            self.assertTrue(client.has_room(lines))
            client.source(lines)
            client.export()
        for lines in ([b"x" * 1_017], [b"x" * 1_000] * 1_100):
            self.assertFalse(Script().client("a").has_room(lines))

    def test_a_source_takes_the_place_of_the_one_before(self):
        script = Script()
        client = script.client("a")
        self.assertEqual(client.source([b"one", b"two"]), range(0, 2))
        self.assertEqual(client.export(), 2)
        self.assertEqual(client.source([b"three"]), range(3, 5))
        self.assertEqual(client.source([]), range(5, 6))
        self.assertEqual(client.source([]), range(6, 6))
        self.assertEqual(bytes(script), b"a put 1 one\na put 2 two\na export\na cut 1 2\na put 1 three\na cut 1 1\n")

    def test_lines_that_are_long_go_from_the_last_to_the_first(self):
        script = Script()
        lines = [b"%d" % it for it in range(10)] + [b"x" * 1_016]
        script.client("a").source(lines)
        commands = bytes(script).splitlines()
        self.assertEqual(commands[0], b"a put 1 " + b"x" * 1_016)
        self.assertEqual(commands[1:], [b"a put 1 %d" % it for it in reversed(range(10))])


class Runs(unittest.TestCase):
    """Scripts that are run, with a stand-in for the server."""

    def run_source(self, *lines, half=False):
        script = Script(half)
        client = script.client("a")
        client.source(lines)
        at = client.export()
        [answers] = run([script], STAND_IN)
        return answers["a"][at]

    def test_each_script_has_the_replies_of_each_client(self):
        scripts = [Script(), Script()]
        for number, script in enumerate(scripts, 1):
            for name in ("left", "right"):
                client = script.client(name)
                client.source([b"w=%d;" % number])
                client.export()
        for number, answers in enumerate(run(scripts, STAND_IN), 1):
            self.assertEqual(list(answers), ["left", "right"])
            for replies in answers.values():
                self.assertEqual(replies[0], Ok(1))
                self.assertIn(b"\n%d 0 0 1\n" % number, replies[1].text)

    def test_an_export_is_a_solid_or_a_fault(self):
        self.assertIsInstance(self.run_source(b"w=3;"), Solid)
        self.assertEqual(self.run_source(b"", b"w= 2.5;"), Fault(2, 4, "NotWhole"))

    def test_half_units_are_a_word_of_the_server(self):
        with tempfile.TemporaryDirectory() as folder:
            os.environ["STAND_IN_LOG"] = folder
            try:
                self.run_source(b"x", half=True)
                self.run_source(b"x")
            finally:
                del os.environ["STAND_IN_LOG"]
            self.assertEqual([self.words(folder, it) for it in range(2)], ["run --half", "run"])

    def words(self, folder, number):
        with open(os.path.join(folder, f"{number}.words"), encoding="utf-8") as it:
            return it.read()

    def test_each_status_of_the_program_is_an_exception(self):
        for status, kind in (
            (2, scripts.BadWords),
            (3, scripts.BadScript),
            (4, scripts.ReadFault),
            (5, scripts.WriteFault),
            (6, scripts.OutOfMemory),
            (125, scripts.ServerFailed),
        ):
            with self.subTest(status=status), self.assertRaises(scripts.ServerFailed) as caught:
                self.run_source(b"//= status %d" % status)
            self.assertIs(type(caught.exception), kind)
            self.assertEqual(caught.exception.status, status)

    def test_a_server_that_a_signal_ends_has_128_and_its_number(self):
        script = Script()
        script.client("a").export()
        with self.assertRaises(scripts.ServerFailed) as caught:
            run([script], ["sh", "-c", "kill -9 $$"])
        self.assertEqual(caught.exception.status, 137)

    def test_a_server_that_is_not_there_has_not_started(self):
        script = Script()
        script.client("a").export()
        with self.assertRaises(scripts.NotStarted) as caught:
            run([script], ["/there/is/no/server"])
        self.assertEqual(str(caught.exception), "/there/is/no/server does not start: No such file or directory")

    def test_the_server_is_a_program_or_words_or_that_of_the_environment(self):
        script = Script()
        script.client("a").export()
        with tempfile.TemporaryDirectory() as folder:
            program = os.path.join(folder, "server")
            with open(program, "w", encoding="utf-8") as it:
                it.write(f'#!/bin/sh\nexec {shlex.join(STAND_IN)} "$@"\n')
            os.chmod(program, 0o755)
            with mock.patch.dict(os.environ, {"SCADSERVE": program}):
                found = [run([script]), run([script], program), run([script], [program]), run([script], STAND_IN)]
        self.assertEqual([it[0]["a"][0].faces for it in found], [0] * 4)

    def test_arguments_that_are_none(self):
        script = Script()
        for how, kind, said in (
            ({"server": []}, ValueError, "a server has the name of a program, and [] has none"),
            ({"server": b"x"}, TypeError, "a server is a program or a list of words, and not b'x'"),
            ({"workers": True}, TypeError, "workers is a whole number, and not True"),
            ({"memo": -1}, ValueError, "memo is 0 to 2,000,000, and not -1"),
        ):
            with self.assertRaises(kind) as raised:
                run([script], **how)
            self.assertEqual(str(raised.exception), said)
        with self.assertRaisesRegex(TypeError, r"^scripts are a list: run\(\[script\]\)$"):
            run(script)

    def test_an_output_that_is_no_answer_is_malformed(self):
        for line in (b"//= cut off", b"//= silence", b"//= solid 3", b"//= ok 1"):
            with self.subTest(line=line), self.assertRaises(Malformed):
                self.run_source(line)

    def test_every_byte_of_a_line_comes_back(self):
        line = bytes(it for it in range(256) if it != 10)
        script = Script()
        client = script.client("a")
        client.source([line, b"\r", b"x\r\r", b""])
        client.show()
        self.assertEqual(bytes(script).split(b"\n")[1], b"a put 2 \r\r")
        output = b"== a\n1 ok 1\n2 ok 2\n3 ok 3\n4 ok 4\n5 text 4\n" + line + b"\n\r\nx\r\r\n\n"
        self.assertEqual(scripts.read(bytes(script), output)["a"][4], Text((line, b"\r", b"x\r\r", b"")))


# A program that runs a server in its main thread, or in one that doesn't keep it from ending; and the server, which leaves a
# file once it runs, and another one at its end.
PROGRAM = """import sys, threading, time
sys.path.insert(0, {package!r})
from scadserve.server.scripts import Script, run
script = Script()
script.client("a").export()
if sys.argv[1] == "thread":
    threading.Thread(target=run, args=([script], {server!r}), daemon=True).start()
    time.sleep(float(sys.argv[2]))
else:
    run([script], {server!r})
"""
SERVER = """#!/bin/sh
trap 'touch {folder}/ended; exit 1' TERM
touch {folder}/began
while :; do sleep 0.05; done
"""


class Ends(unittest.TestCase):
    """What was begun is ended when Python ends."""

    def setUp(self):
        folder = tempfile.TemporaryDirectory()
        self.addCleanup(folder.cleanup)
        self.folder = folder.name
        self.server = os.path.join(self.folder, "server")
        with open(self.server, "w", encoding="utf-8") as it:
            it.write(SERVER.format(folder=self.folder))
        os.chmod(self.server, 0o755)

    def wait_for(self, name):
        for _ in range(5_000):
            if os.path.exists(os.path.join(self.folder, name)):
                return
            time.sleep(0.01)
        self.fail(f"no file {name}")

    def begin(self, *words):
        package = os.path.dirname(os.path.dirname(os.path.dirname(os.path.realpath(scripts.__file__))))
        code = PROGRAM.format(package=package, server=self.server)
        found = subprocess.Popen([sys.executable, "-S", "-c", code, *words], stderr=subprocess.DEVNULL, restore_signals=True)
        self.addCleanup(found.wait)
        self.addCleanup(found.kill)
        self.wait_for("began")
        return found

    def test_a_signal(self):
        for number in (signal.SIGTERM, signal.SIGHUP, signal.SIGINT):
            with self.subTest(number):
                for name in ("began", "ended"):
                    pathlib.Path(self.folder, name).unlink(missing_ok=True)
                process = self.begin("main")
                process.send_signal(number)
                # (it ends by the signal, as it would without a server)
                self.assertEqual(process.wait(50), -number)
                self.wait_for("ended")

    def test_the_end_of_the_main_thread(self):
        self.assertEqual(self.begin("thread", "0.5").wait(50), 0)
        self.wait_for("ended")

    def test_signals_mean_afterwards_what_they_meant(self):
        script = Script()
        script.client("a").export()
        before = [signal.getsignal(it) for it in (signal.SIGTERM, signal.SIGHUP)]
        run([script], STAND_IN)
        self.assertEqual([signal.getsignal(it) for it in (signal.SIGTERM, signal.SIGHUP)], before)


if __name__ == "__main__":
    unittest.main()
