"""Runs the tests of what stands round the proved program side by side: tools/check.sh [--jobs N] [--limit SECONDS] [MODULE..]

Each file test_*.py below clients/ is a module, which runs in a process of its own, as many at a time as there are processors. A
module with a line `ALONE = True` measures how fast something is, and runs when all others have ended. A test that takes longer
than the limit fails, and where that doesn't end it, its process is ended. The limit is that of a machine that isn't busy: with
more processes that want to run than processors it is as many times longer. At the end stand the tests that took longest, and
what was skipped, and which program it lacks, with the line that installs these on Debian. The last line says how many tests
passed, failed and were skipped. The status is 1 where one failed or none passed. """

from __future__ import annotations

import argparse
import json
import os
import re
import select
import signal
import subprocess
import sys
import tempfile
import time
import unittest
from collections import Counter
from concurrent.futures import ThreadPoolExecutor
from dataclasses import dataclass, field
from pathlib import Path
from types import FrameType
from typing import Any, Iterable, Optional

LIMIT = 120.0
# A process is ended where its test has not ended this many seconds past its limit.
GRACE = 30.0
PROCESSORS = len(os.sched_getaffinity(0))
LONGEST = 10
ALONE = re.compile(r"^ALONE = True$", re.MULTILINE)
# What a test says that is skipped because programs are missing.
WANTS = re.compile(r"needs ([a-z][\w-]*(?:, [a-z][\w-]*)*)")
# The packages of Debian whose names are not those of the programs.
PACKAGES = {
    "dpkg-deb": "dpkg", "man": "man-db", "nvim": "neovim", "pip": "python3-pip", "systemd-analyze": "systemd", "xz": "xz-utils"
}


class PastLimit(BaseException):
    """A test took longer than it may. (No test takes this for an exception of what it calls.)"""


def busy() -> float:
    """How many times longer all takes than on a machine that has nothing else to do."""
    return max(1.0, os.getloadavg()[0] / PROCESSORS)


@dataclass
class Found:
    """What a module's tests came to: how many passed, which failed, why each other one was skipped, how long each took, by the
    clock and of processors, and how long all took of processors."""

    passed: int = 0
    failed: list[str] = field(default_factory=list)
    skipped: list[str] = field(default_factory=list)
    took: list[tuple[float, float, str]] = field(default_factory=list)
    processors: float = 0
    output: str = ""

    def counts(self) -> str:
        more = f", {len(self.skipped)} skipped" if self.skipped else ""
        return f"{self.passed} passed, {len(self.failed)} failed{more}"


def sum_of(all_found: Iterable[Found]) -> Found:
    """What several modules came to."""
    whole = Found()
    for it in all_found:
        whole.passed += it.passed
        whole.failed += it.failed
        whole.skipped += it.skipped
        whole.took += it.took
    return whole


class Watched(unittest.TextTestResult):
    """Tells each test as it begins, and keeps how long it took. The test is ended at its limit."""

    limit = LIMIT
    report = sys.stdout

    def __init__(self, *words: Any, **more: Any) -> None:
        super().__init__(*words, **more)
        self.found = Found()
        signal.signal(signal.SIGALRM, self._look)

    def startTest(self, test: unittest.TestCase) -> None:
        print(json.dumps(test.id()), file=self.report, flush=True)
        self.began = time.monotonic(), sum(os.times()[:4])
        signal.setitimer(signal.ITIMER_REAL, self.limit, 1)
        super().startTest(test)

    def stopTest(self, test: unittest.TestCase) -> None:
        signal.setitimer(signal.ITIMER_REAL, 0)
        clock, processors = self.began
        self.found.took.append((time.monotonic() - clock, sum(os.times()[:4]) - processors, test.id()))
        super().stopTest(test)

    def _look(self, number: int, frame: Optional[FrameType]) -> None:
        """Ends the test past its limit: again each second, where what it called took the first time for an answer."""
        if time.monotonic() - self.began[0] >= self.limit * busy():
            raise PastLimit(f"it took longer than {self.limit * busy():.0f} seconds")

    def addSuccess(self, test: unittest.TestCase) -> None:
        self.found.passed += 1
        super().addSuccess(test)

    def whole(self) -> Found:
        bad = [it for it, _ in self.failures + self.errors] + self.unexpectedSuccesses
        self.found.failed = sorted({getattr(it, "test_case", it).id() for it in bad})
        self.found.skipped = [why for _, why in self.skipped]
        self.found.processors = sum(os.times()[:4])
        return self.found


def work(folder: str, module: str, limit: float, report: int) -> int:
    """Runs the tests of one module in this process; what they came to is the last line of the report."""
    sys.path.insert(0, folder)
    Watched.limit = limit
    with open(report, "w", encoding="utf-8") as Watched.report:
        runner = unittest.TextTestRunner(stream=sys.stdout, resultclass=Watched)
        result = runner.run(unittest.defaultTestLoader.loadTestsFromName(module))
        assert isinstance(result, Watched)
        print(json.dumps(result.whole().__dict__), file=Watched.report, flush=True)
    return 0


class Check:
    """A run of modules in processes of their own."""

    def __init__(self, folder: str, limit: float) -> None:
        self.folder, self.limit = folder, limit
        self.running: set[subprocess.Popen[bytes]] = set()
        self.is_ended = False

    def run(self, modules: list[str], jobs: int) -> list[Found]:
        """What each of these came to. A line is printed of each as it ends, behind what its tests say where some failed."""
        found = []
        with ThreadPoolExecutor(jobs) as workers:
            try:
                for it in workers.map(self._module, modules):
                    found.append(it)
            finally:
                # (where this is interrupted, what runs ends, and nothing more begins)
                self.is_ended = True
                workers.shutdown(wait=False, cancel_futures=True)
                for process in list(self.running):
                    process.kill()
        return found

    def _module(self, module: str) -> Found:
        reading, writing = os.pipe()
        words = [sys.executable, "-B", os.path.realpath(__file__), self.folder, "--limit", str(self.limit)]
        began = time.monotonic()
        with tempfile.TemporaryFile() as output, open(reading, "rb", buffering=0) as report:
            how: dict[str, Any] = {"stdin": subprocess.DEVNULL, "stdout": output, "stderr": output, "start_new_session": True}
            process = subprocess.Popen([*words, "--report", str(writing), module], pass_fds=[writing], **how)
            os.close(writing)
            self.running.add(process)
            try:
                if self.is_ended:
                    process.kill()
                found = self._heard(module, report.fileno())
            finally:
                os.killpg(process.pid, signal.SIGKILL)
                process.wait()
                self.running.remove(process)
            output.seek(0)
            found.output = output.read().decode(errors="replace")
        if found.failed:
            print(found.output, end="")
        took = f"{time.monotonic() - began:.1f} s, {found.processors:.1f} s of processors"
        print(f"{module}: {found.counts()} ({took})", flush=True)
        return found

    def _heard(self, module: str, report: int) -> Found:
        """What a module's process reports in the end; where it doesn't, the test that was under way failed, and what is behind
        it."""
        heard, test, last = b"", f"{module}, before its first test", time.monotonic()
        while time.monotonic() - last < self.limit * busy() + GRACE:
            if not select.select([report], [], [], 1)[0]:
                continue
            more, last = os.read(report, 1 << 16), time.monotonic()
            if not more:
                break
            *lines, heard = (heard + more).split(b"\n")
            for line in map(json.loads, lines):
                if isinstance(line, dict):
                    return Found(**line)
                test = line
        print(f"{module}: its process ended, or was ended, in the middle of {test}")
        return Found(failed=[test])


def said_at_the_end(found: Found) -> Iterable[str]:
    """The lines behind those of the modules: what failed, what took longest, and what was skipped and why."""
    for test in found.failed:
        yield f"FAILED: {test}"
    yield f"the {LONGEST} tests that took longest, by the clock and of processors:"
    for clock, processors, test in sorted(found.took, reverse=True)[:LONGEST]:
        yield f"{clock:8.1f} s {processors:6.1f} s  {test}"
    wanted: Counter[str] = Counter()
    for why, count in sorted(Counter(found.skipped).items()):
        missing = WANTS.fullmatch(why)
        if missing:
            wanted.update({program: count for program in missing[1].split(", ")})
        else:
            yield f"{count} skipped: {why}"
    if wanted:
        counts = (f"{program} ({count})" for program, count in sorted(wanted.items()))
        yield "skipped because programs are missing: " + ", ".join(counts)
        yield "on Debian this installs them: apt-get install " + " ".join(sorted({PACKAGES.get(it, it) for it in wanted}))


def check(folder: str, names: list[str], limit: float, jobs: int) -> int:
    """Runs these modules, or all, and gives the status."""
    files = sorted(Path(folder).rglob("test_*.py"))
    modules = {
        ".".join(it.relative_to(folder).with_suffix("").parts): bool(ALONE.search(it.read_text("utf-8"))) for it in files
    }
    chosen = [it for it in modules if not names or it in names or it.rpartition(".")[2] in names]
    began = time.monotonic()
    beside = Check(folder, limit).run([it for it in chosen if not modules[it]], jobs)
    found = sum_of(beside + Check(folder, limit).run([it for it in chosen if modules[it]], 1))
    for line in said_at_the_end(found):
        print(line)
    processors = sum(os.times()[:4])
    print(f"{time.monotonic() - began:.0f} seconds by the clock, {processors:.0f} of processors")
    print(found.counts())
    return 0 if found.passed and not found.failed else 1


def main() -> int:
    words = argparse.ArgumentParser(prog="check.sh", description=__doc__, formatter_class=argparse.RawDescriptionHelpFormatter)
    words.add_argument("folder", help=argparse.SUPPRESS)
    words.add_argument("names", nargs="*", metavar="MODULE", help="a module, as test_files; else all")
    words.add_argument("--jobs", type=int, default=PROCESSORS, help="how many modules run at a time")
    words.add_argument("--limit", type=float, default=LIMIT, help="how many seconds a test may take")
    words.add_argument("--report", type=int, help=argparse.SUPPRESS)
    asked = words.parse_intermixed_args()
    if asked.report is not None:
        return work(asked.folder, asked.names[0], asked.limit, asked.report)
    signal.signal(signal.SIGTERM, lambda number, frame: sys.exit(128 + number))
    try:
        return check(asked.folder, asked.names, asked.limit, asked.jobs)
    except KeyboardInterrupt:
        return 128 + signal.SIGINT


if __name__ == "__main__":
    sys.exit(main())
