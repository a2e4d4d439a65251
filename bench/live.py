#!/usr/bin/env python3
"""Measures the live page in Chromium: bench/live.py [N], with N tries of each (else 10). It prints medians, in milliseconds:

- from the start of `bin/scadlive examples/bracket.scad`, with the browser there, to the drawn bracket;
- from the last key to the drawn solid, in sources of 300 parts: what the page waits, the server takes and the page draws.

SCADSERVE in the environment names another program than ./scadserve. The load of the machine stands before and behind.
"""

from __future__ import annotations

import os
import signal
import subprocess
import sys
import tempfile
import time
from statistics import median

TOP = os.path.dirname(os.path.dirname(os.path.realpath(__file__)))
sys.path.insert(0, os.path.join(TOP, "clients"))
from tests.browser import Browser  # noqa: E402

# Notes when a key went down, and when the answer to it was painted.
NOTED = """
addEventListener("keydown", () => { window.pressed = performance.now(); }, true);
new MutationObserver((records) => {
  if (records.some(({ attributeName }) => attributeName === "data-shown")) {
    const shown = performance.now();
    requestAnimationFrame(() => setTimeout(() => {
      const last = performance.getEntriesByType("resource").filter(({ name }) => name.includes("/solid?")).at(-1);
      Object.assign(window, { painted: Date.now(), times: [last.startTime, last.responseEnd, shown, performance.now()] });
    }));
  }
}).observe(document, { subtree: true, attributes: true, attributeFilter: ["data-shown"] });
"""
#: A plate with 300 pegs, and 300 cubes that stand beside one another and meet: what is typed is the last number of the text.
ROWS = [(at % 20, at // 20, 1 + at % 7) for at in range(299)]
PEGS = "".join(f"translate([{4 + 10 * x}, {4 + 10 * y}, 2]) cube([4, 4, {high}]);\n" for x, y, high in ROWS)
CUBES = "".join(f"translate([{9 * x}, {9 * y}, 0]) cube([10, 10, {high}]);\n" for x, y, high in ROWS)
SOURCES = {
    "plate.scad": f"cube([210, 160, 3]);\n{PEGS}translate([194, 144, 2]) cube(\n4);\n",
    "union.scad": f"{CUBES}translate([171, 126, 0]) cube(\n9);\n",
}


class Page:
    """A page of scadlive over a file or a folder, in a browser that is there, from the start of its server on."""

    def __init__(self, browser: Browser, path: str) -> None:
        self.browser, self.began = browser, time.time()
        words = [os.path.join(TOP, "bin", "scadlive"), path, "--port", "0"]
        self._process = subprocess.Popen(words, stdout=subprocess.PIPE, text=True)
        assert self._process.stdout is not None
        self.address = next(it for it in self._process.stdout.readline().split() if it.startswith("http://"))

    def show(self, name: str = "") -> None:
        """Opens a file, and waits until its solid is painted."""
        self.browser.ask("Page.navigate", url=f"{self.address}{'#' if name else ''}{name}")
        self.browser.wait("window.painted", 100)

    def key(self, key: str) -> list[float]:
        """Types a key, and gives the milliseconds from there to the request, its answer, its showing and its painting."""
        self.browser.run("delete window.times, 0")
        self.browser.key(key)
        return list(self.browser.wait("window.times && times.map((it) => it - pressed)", 100))

    def close(self) -> None:
        """Ends the server."""
        self._process.send_signal(signal.SIGTERM)
        self._process.wait()


def first_solid(browser: Browser) -> float:
    """Milliseconds from the start of the server to the painted bracket."""
    page = Page(browser, os.path.join(TOP, "examples", "bracket.scad"))
    try:
        page.show()
        return float(browser.run("window.painted")) - 1_000 * page.began
    finally:
        browser.ask("Page.navigate", url="about:blank")
        page.close()


def keys(browser: Browser, tries: int) -> None:
    """Prints what keys take in each source."""
    with tempfile.TemporaryDirectory() as folder:
        for name, text in SOURCES.items():
            with open(os.path.join(folder, name), "w", encoding="ascii") as it:
                it.write(text)
        page = Page(browser, folder)
        try:
            for name, text in SOURCES.items():
                browser.ask("Page.navigate", url="about:blank")
                page.show(name)
                code = f"document.querySelector('.CodeMirror').CodeMirror.setCursor({text.count(chr(10)) - 1}, 0)"
                area = f"area.selectionStart = area.selectionEnd = {text.rstrip().rindex(chr(10)) + 1}"
                browser.run(f"(() => {{ const area = document.querySelector('.plain textarea'); area ? {area} : {code}; }})()")
                found = [page.key(str(1 + at % 9)) if at % 2 == 0 else page.key("Backspace") for at in range(2 * tries)]
                asked, answered, shown, painted = (median(it) for it in zip(*found))
                server = browser.run("document.getElementById('time').innerText")
                print(f"{name}: asked {asked:.0f}, answered {answered:.0f}, shown {shown:.0f}, painted {painted:.0f} ms")
                print(f"    the slowest {max(it[-1] for it in found):.0f} ms; the server says {server}")
        finally:
            browser.ask("Page.navigate", url="about:blank")
            page.close()


def main(tries: int) -> int:
    """Prints all."""
    print("load", *(f"{it:.1f}" for it in os.getloadavg()))
    browser = Browser(1100, 700)
    try:
        browser.ask("Page.addScriptToEvaluateOnNewDocument", source=NOTED)
        first = [first_solid(browser) for _ in range(tries)]
        print(f"bracket.scad: {median(first):.0f} ms, the first time {first[0]:.0f}, the slowest {max(first):.0f}")
        keys(browser, tries)
    finally:
        browser.close()
    print("load", *(f"{it:.1f}" for it in os.getloadavg()))
    return 0


if __name__ == "__main__":
    sys.exit(main(int(sys.argv[1]) if len(sys.argv) > 1 else 10))
