#!/usr/bin/env python3
"""Prints what a script is answered, by the definitions alone: model/run.py [--half] SCRIPT

A solid is told as `K solid` alone, without its faces. Each other reply is printed exactly."""

from __future__ import annotations

import sys
from pathlib import Path

sys.path.insert(0, str(Path(__file__).resolve().parent.parent))

from model.script_server import served, with_deep_stack  # noqa: E402


def main(words: list[str]) -> int:
    options, scripts = [word for word in words if word == "--half"], [word for word in words if word != "--half"]
    if len(scripts) != 1:
        print("usage: model/run.py [--half] SCRIPT", file=sys.stderr)
        return 2
    script = Path(scripts[0]).read_bytes()
    told = with_deep_stack(lambda: served(["run", *options], script))
    assert told is not None
    status, text = told
    sys.stdout.buffer.write(text)
    return {"Done": 0, "BadWords": 2, "BadScript": 3}[status]


if __name__ == "__main__":
    sys.exit(main(sys.argv[1:]))
