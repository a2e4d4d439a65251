#!/usr/bin/env python3
"""Makes the picture of the live page that README.md begins with: tools/picture.py [OUT], else docs/live.png.

It starts scadlive on examples/bracket.scad, opens the page in Chromium without a window, and writes what is seen there as a PNG
of few colours. SCADSERVE in the environment names another program than ./scadserve, as for all tools.
"""

from __future__ import annotations

import os
import subprocess
import struct
import sys
import tempfile
import shutil
import zlib
from collections import Counter
from pathlib import Path

TOP = Path(__file__).resolve().parent.parent
sys.path.insert(0, str(TOP / "clients"))

from tests.browser import BROWSER, Browser  # noqa: E402

OUT = TOP / "docs" / "live.png"
WIDTH, HEIGHT = 1080, 620
_COLOURS = 256


def main(words: list[str]) -> int:
    """Writes the picture, and gives the status."""
    if len(words) > 1 or not BROWSER:
        print(__doc__ if len(words) > 1 else "picture: there is no chromium", file=sys.stderr)
        return 2
    with tempfile.TemporaryDirectory() as folder:
        shutil.copy(TOP / "examples" / "bracket.scad", folder)
        call = [sys.executable, str(TOP / "bin" / "scadlive"), os.path.join(folder, "bracket.scad"), "--port", "0"]
        server = subprocess.Popen(call, stdout=subprocess.PIPE)
        try:
            assert server.stdout is not None
            data = seen(server.stdout.readline().decode().strip())
        finally:
            server.terminate()
            server.wait()
    (Path(words[0]) if words else OUT).write_bytes(with_few_colours(data))
    return 0


def seen(address: str) -> bytes:
    """The page as it is seen, as a PNG."""
    browser = Browser(WIDTH, HEIGHT)
    try:
        browser.visit(address)
        browser.wait("document.documentElement.dataset.shown && Number(view.dataset.frames) > 0")
        # (the time is another one at each run)
        browser.run("document.getElementById('time').parentElement.remove(); document.activeElement.blur()")
        browser.run("new Promise((done) => setTimeout(done, 700))")
        return browser.picture()
    finally:
        browser.close()


def with_few_colours(data: bytes) -> bytes:
    """A PNG of the same picture with a palette of its 256 most frequent colours, each other one as the nearest of these."""
    width, height, pixels = pixels_of(data)
    counts = Counter(pixels)
    palette = [colour for colour, _ in counts.most_common(_COLOURS)]
    numbers = {colour: at for at, colour in enumerate(palette)}
    for colour in counts:
        if colour not in numbers:
            numbers[colour] = min(range(len(palette)), key=lambda at: sum((a - b) ** 2 for a, b in zip(palette[at], colour)))
    rows = b"".join(
        b"\0" + bytes(numbers[it] for it in pixels[width * row : width * (row + 1)]) for row in range(height)
    )
    parts = [(b"IHDR", struct.pack(">IIBBBBB", width, height, 8, 3, 0, 0, 0)), (b"PLTE", b"".join(palette))]
    parts += [(b"IDAT", zlib.compress(rows, 9)), (b"IEND", b"")]
    return b"\x89PNG\r\n\x1a\n" + b"".join(
        struct.pack(">I", len(body)) + kind + body + struct.pack(">I", zlib.crc32(kind + body)) for kind, body in parts
    )


def pixels_of(data: bytes) -> tuple[int, int, list[bytes]]:
    """The width, the height and the pixels of a PNG of eight bits for red, green and blue, with or without how opaque it is."""
    width, height, depth, kind = struct.unpack(">IIBB", data[16:26])
    assert depth == 8 and kind in (2, 6), "another kind of PNG"
    size = 3 if kind == 2 else 4
    body, at = b"", 8
    while at < len(data):
        (length,) = struct.unpack(">I", data[at : at + 4])
        if data[at + 4 : at + 8] == b"IDAT":
            body += data[at + 8 : at + 8 + length]
        at += length + 12
    raw = zlib.decompress(body)
    above = bytearray(size * width)
    pixels: list[bytes] = []
    for row in range(height):
        start = row * (size * width + 1)
        above = unfiltered(raw[start], bytearray(raw[start + 1 : start + 1 + size * width]), above, size)
        pixels += [bytes(above[it : it + 3]) for it in range(0, size * width, size)]
    return width, height, pixels


def unfiltered(kind: int, line: bytearray, above: bytearray, size: int) -> bytearray:
    """A row of a PNG without its filter (PNG specification, 9.2)."""
    for at, value in enumerate(line):
        left = line[at - size] if at >= size else 0
        up = above[at]
        corner = above[at - size] if at >= size else 0
        guess = left + up - corner
        nearest = min((left, up, corner), key=lambda it: abs(guess - it))
        line[at] = (value + (0, left, up, (left + up) // 2, nearest)[kind]) & 255
    return line


if __name__ == "__main__":
    sys.exit(main(sys.argv[1:]))
