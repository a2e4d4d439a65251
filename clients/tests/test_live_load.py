"""Many clients of scadlive that type at once, before the proved program: each answer is what scad2off says of the same text.

`SCADLIVE_SECONDS=60 python3 -m unittest tests.test_live_load` types for a minute, and says what was measured.
"""

from __future__ import annotations

import hashlib
import json
import os
import re
import subprocess
import sys
import tempfile
import threading
import time
import unittest
from collections import Counter
from pathlib import Path
from urllib.parse import urlencode

from tests import live_case
from tests.calls import PROGRAM, SCAD2OFF, needs_program
from tests.live_case import Answer

# (many clients at once take all processors)
ALONE = True
CLIENTS = 32
SECONDS = float(os.environ.get("SCADLIVE_SECONDS", "6"))
# Seconds between two keys of a client.
KEY = 0.12
# A server that has answered may keep this many more kilobytes than one that has not.
KEPT = 48 * 1024


def text_of(client: int, key: int) -> str:
    """What a client has typed after a key: a plate with holes, a fault now and then, a body with a slope."""
    wide, holes = 40 + client % 4, key % 7
    if key % 5 == 3:
        return f"cube({wide});\ntranslate([1, {key % 11}.5, 0]) cube(1);\n"
    if key % 5 == 4:
        return f"module rib(n) linear_extrude(2) polygon([[0, 0], [n, 0], [0, {holes + 1}]]);\nrib({wide});\nrib(0);\n"
    cuts = "".join(f"translate([{3 + 5 * it}, 3, -1]) cube([3, {4 + client % 3}, 9]);\n" for it in range(holes))
    return f"difference() {{\ncube([{wide}, 12, 4]);\n{cuts}}}\n"


def name_of(text: str) -> str:
    """The name of the file of a text."""
    return f"t{hashlib.sha256(text.encode()).hexdigest()[:12]}.scad"


def plain(told: str) -> bytes:
    """What is said about a fault, without the calls that led there: on a busy machine scad2off doesn't ask for these."""
    return "".join(it for it in told.splitlines(keepends=True) if ": note: called here" not in it).encode()


class Client(threading.Thread):
    """A client that types for some seconds, and waits for no answer before the next key."""

    def __init__(self, case: Load, number: int, until: float) -> None:
        super().__init__()
        self.case, self.number, self.until = case, number, until
        self.answers: list[tuple[str, Answer, float]] = []
        self.asked: list[threading.Thread] = []

    def run(self) -> None:
        key = 0
        while time.monotonic() < self.until:
            key += 1
            self.ask(text_of(self.number, key))
            time.sleep(KEY)
        for it in self.asked:
            it.join()
        # The last text is answered, whatever was replaced before.
        self.last = text_of(self.number, key)
        self.ask(self.last)
        self.asked[-1].join()

    def ask(self, text: str) -> None:
        def asked() -> None:
            query = urlencode({"client": f"c{self.number}", "file": name_of(text)})
            began = time.monotonic()
            answer = self.case.live.ask("POST", f"/solid?{query}", text.encode())
            self.answers.append((text, answer, time.monotonic() - began))

        # (a browser has six connections to a server)
        self.asked = [it for it in self.asked if it.is_alive()]
        if len(self.asked) > 5:
            self.asked[0].join()
        self.asked.append(threading.Thread(target=asked))
        self.asked[-1].start()


@needs_program
class Load(live_case.Case):
    server = PROGRAM
    words = ("--seconds", "600")

    def memory(self) -> int:
        """How many kilobytes of memory the server holds."""
        with open(f"/proc/{self.live.process.pid}/status", encoding="ascii") as it:
            return int(re.findall(r"^VmRSS:\s+(\d+) kB$", it.read(), re.MULTILINE)[0])

    def told(self, texts: dict[str, str]) -> dict[str, bytes]:
        """What scad2off says of each text, by the name of its file: its 4OFF text, or its fault on standard error."""
        with tempfile.TemporaryDirectory() as folder:
            for name, text in texts.items():
                Path(folder, name).write_text(text)
            how = {**os.environ, "SCADSERVE": PROGRAM}
            words = [*SCAD2OFF, "-d", "out", *texts]
            said = subprocess.run(words, cwd=folder, env=how, stderr=subprocess.PIPE, check=False).stderr.decode()
            faults = re.split(r"^(?=(?:[^ ]+\.scad:\d+:\d+: error: |\d+ files: ))", said, flags=re.MULTILINE)
            found = {it.partition(":")[0]: plain(it) for it in faults[1:-1]}
            found.update({f"{it.stem}.scad": it.read_bytes() for it in Path(folder, "out").iterdir()})
        self.assertEqual(set(found), set(texts), said[-500:])
        return found

    def test_each_answer_is_that_of_scad2off_and_none_is_lost(self) -> None:
        self.live.solid("cube(1);")
        before = self.memory()
        clients = [Client(self, number, time.monotonic() + SECONDS) for number in range(CLIENTS)]
        for it in clients:
            it.start()
        for it in clients:
            it.join()
        counts: Counter[int] = Counter()
        texts: dict[str, str] = {}
        answered: dict[str, set[bytes]] = {}
        for it in clients:
            counts.update(answer.status for _, answer, _ in it.answers)
            for text, answer, _ in it.answers:
                if answer.status != 409:
                    is_solid = answer.status == 200
                    said = answer.body if is_solid else plain(answer.json()["faults"][0]["told"])
                    texts[name_of(text)] = text
                    answered.setdefault(name_of(text), set()).add(said)
            self.assertIn(it.answers[-1][1].status, (200, 422))
            self.assertEqual(it.answers[-1][0], it.last)
        self.assertLessEqual(set(counts), {200, 409, 422}, counts)
        self.assertGreater(counts[200], CLIENTS)
        self.assertGreater(counts[422], CLIENTS // 2)
        told = self.told(texts)
        for name, answers in answered.items():
            self.assertEqual(answers, {told[name]}, texts[name])
        after = self.memory()
        self.assertLess(after, before + KEPT)
        if "SCADLIVE_SECONDS" in os.environ:
            times = sorted(seconds for it in clients for _, answer, seconds in it.answers if answer.status != 409)
            shown = {"middle": times[len(times) // 2], "of 100 slowest": times[int(0.99 * len(times))]}
            print(
                json.dumps({"statuses": counts, "texts": len(told), "seconds": shown, "kB": [before, after]}), file=sys.stderr
            )


if __name__ == "__main__":
    unittest.main()
