"""The queue of exports of scadlive: what is run together, what is replaced, and that a costly text costs others nothing."""

from __future__ import annotations

import os
import sys
import tempfile
import threading
import time
import unittest
from concurrent.futures import Future, ThreadPoolExecutor
from pathlib import Path
from typing import Any
from unittest import mock

from scadserve.live.exports import Closed, Exports, Process, Replaced
from scadserve.server.scripts import Fault, OutOfTime, ServerFailed, Solid
from scadserve.source.reading import source_of
from scadserve.source.sources import Source
from tests.calls import STAND_IN
from tests.live_case import BUSY, PATIENCE
from tests.stand_in import BOX

# Has a run go on until it is ended; the stand-in answers whatever else in no time.
COSTLY = "//= wait\n"


def source(text: str) -> Source:
    return source_of(text.encode(), "a.scad")


class Queue(unittest.TestCase):
    def setUp(self) -> None:
        folder = tempfile.TemporaryDirectory()
        self.addCleanup(folder.cleanup)
        self.log = Path(folder.name)
        path = f"{os.path.dirname(sys.executable)}{os.pathsep}{os.environ['PATH']}"
        patch = mock.patch.dict(os.environ, {"STAND_IN_LOG": folder.name, "PATH": path})
        patch.start()
        self.addCleanup(patch.stop)
        self.pool = ThreadPoolExecutor(64)
        self.addCleanup(self.pool.shutdown, True)

    def begin(self, jobs: int, seconds: float) -> Exports:
        exports = Exports([STAND_IN], jobs, seconds)
        self.addCleanup(exports.close)
        return exports

    def ask(self, exports: Exports, client: str, text: str, half: bool = False) -> Future[Any]:
        return self.pool.submit(exports.reply, client, source(text), half)

    def hold(self, exports: Exports) -> tuple[threading.Event, Future[Any]]:
        """Keeps a job busy until the event is set."""
        begun, end = threading.Event(), threading.Event()
        self.addCleanup(end.set)

        def work(_: Process, __: float) -> None:
            begun.set()
            end.wait(PATIENCE)

        done = self.pool.submit(exports.alone, "holder", work)
        self.assertTrue(begun.wait(PATIENCE))
        return end, done

    def scripts(self) -> list[bytes]:
        return [it.read_bytes() for it in sorted(self.log.glob("*.script"))]

    def assert_side(self, answer: Future[Any], side: int) -> None:
        """The answer is the stand-in's box with this side."""
        self.assertEqual(answer.result(PATIENCE)[1], Solid(8, 6, BOX.format(side).encode()))

    def until(self, told: Any) -> None:
        """Waits until something holds."""
        end = time.monotonic() + PATIENCE
        while not told():
            self.assertLess(time.monotonic(), end)
            time.sleep(0.01)

    def test_each_client_has_the_answer_to_its_own_source(self) -> None:
        exports = self.begin(2, PATIENCE)
        asked = {n: self.ask(exports, f"c{n}", f"w = {n};") for n in range(1, 41)}
        fault = self.ask(exports, "bad", "w = 1;\nx = 2.5;")
        for n, answer in asked.items():
            self.assert_side(answer, n)
        self.assertEqual(fault.result(PATIENCE)[1], Fault(2, 5, "NotWhole"))

    def test_what_waits_goes_into_one_run_of_up_to_16_clients(self) -> None:
        exports = self.begin(1, PATIENCE)
        end, _ = self.hold(exports)
        asked = [self.ask(exports, f"c{n}", f"w = {n + 1};") for n in range(20)]
        self.until(lambda: len(exports._waiting) == 20)
        end.set()
        for n, answer in enumerate(asked):
            self.assert_side(answer, n + 1)
        self.assertEqual([it.count(b" export\n") for it in self.scripts()], [16, 4])

    def test_whole_and_half_units_are_not_mixed(self) -> None:
        exports = self.begin(1, PATIENCE)
        end, _ = self.hold(exports)
        asked = [self.ask(exports, f"c{n}", f"w = {n + 1};", half=n % 2 == 1) for n in range(6)]
        self.until(lambda: len(exports._waiting) == 6)
        end.set()
        for n, answer in enumerate(asked):
            self.assert_side(answer, n + 1)
        words = sorted(it.read_text() for it in self.log.glob("*.words"))
        self.assertEqual(words, ["run", "run --half"])

    def test_a_newer_text_replaces_the_one_that_waits(self) -> None:
        exports = self.begin(1, PATIENCE)
        end, _ = self.hold(exports)
        older = self.ask(exports, "a", "w = 2;")
        self.until(lambda: len(exports._waiting) == 1)
        newer = self.ask(exports, "a", "w = 3;")
        with self.assertRaises(Replaced):
            older.result(PATIENCE)
        end.set()
        self.assert_side(newer, 3)
        self.assertEqual(len(self.scripts()), 1)

    def test_a_run_past_its_seconds_is_ended_and_its_clients_are_tried_one_by_one(self) -> None:
        exports = self.begin(1, 2.0 * BUSY)
        end, _ = self.hold(exports)
        costly = self.ask(exports, "costly", COSTLY)
        asked = {n: self.ask(exports, f"c{n}", f"w = {n};") for n in range(1, 5)}
        self.until(lambda: len(exports._waiting) == 5)
        end.set()
        for n, answer in asked.items():
            self.assert_side(answer, n)
        with self.assertRaises(OutOfTime):
            costly.result(PATIENCE)
        self.assertEqual([it.count(b" export\n") for it in self.scripts()], [5, 1, 1, 1, 1, 1])

    def test_a_costly_client_is_alone_from_then_on_and_costs_others_no_time(self) -> None:
        exports = self.begin(2, 1.2 * BUSY)
        with self.assertRaises(OutOfTime):
            self.ask(exports, "costly", COSTLY).result(PATIENCE)
        again = self.ask(exports, "costly", COSTLY)
        self.until(lambda: any(it.is_alone for it in exports._under_way))
        for n in range(1, 4):
            self.assert_side(self.ask(exports, "other", f"w = {n};"), n)
        with self.assertRaises(OutOfTime):
            again.result(PATIENCE)
        self.assertFalse([it for it in self.scripts() if b"//= wait" in it and b"w = " in it])
        # A text of it that is answered early ends that.
        exports._seconds = 4 * PATIENCE
        self.assert_side(self.ask(exports, "costly", "w = 7;"), 7)
        self.assertEqual(exports._costly, {})

    def test_a_newer_text_ends_the_run_of_its_client_alone(self) -> None:
        exports = self.begin(2, 2 * PATIENCE)
        exports._costly["a"] = None
        older = self.ask(exports, "a", COSTLY)
        self.until(lambda: len(self.scripts()) == 1)
        began = time.monotonic()
        newer = self.ask(exports, "a", "w = 4;")
        with self.assertRaises(Replaced):
            older.result(PATIENCE)
        self.assert_side(newer, 4)
        self.assertLess(time.monotonic() - began, PATIENCE / 2)

    def test_costly_clients_leave_a_job_to_the_others(self) -> None:
        exports = self.begin(3, 2 * PATIENCE)
        for n in range(6):
            exports._costly[f"costly{n}"] = None
            self.ask(exports, f"costly{n}", COSTLY)
        self.until(lambda: sum(it.is_alone for it in exports._under_way) == 2)
        self.assert_side(self.ask(exports, "other", "w = 5;"), 5)

    def test_a_server_that_fails_is_told_to_its_own_client_alone(self) -> None:
        exports = self.begin(1, PATIENCE)
        end, _ = self.hold(exports)
        bad = self.ask(exports, "bad", "//= status 6")
        good = [self.ask(exports, f"c{n}", f"w = {n + 1};") for n in range(3)]
        self.until(lambda: len(exports._waiting) == 4)
        end.set()
        for n, answer in enumerate(good):
            self.assert_side(answer, n + 1)
        with self.assertRaises(ServerFailed) as failed:
            bad.result(PATIENCE)
        self.assertEqual(failed.exception.status, 6)

    def test_at_the_end_all_runs_are_ended_and_each_waiter_is_told(self) -> None:
        exports = self.begin(1, 2 * PATIENCE)
        running = self.ask(exports, "a", COSTLY)
        self.until(lambda: len(self.scripts()) == 1)
        waiting = self.ask(exports, "b", "w = 1;")
        self.until(lambda: len(exports._waiting) == 1)
        exports.close()
        for it in (running, waiting, self.ask(exports, "c", "w = 1;")):
            with self.assertRaises(Closed):
                it.result(PATIENCE)
        self.until(lambda: not exports._under_way)


if __name__ == "__main__":
    unittest.main()
