#!/bin/sh
# Runs the gate from nothing, and prints the processor time in seconds of each crate's proof, of the second proof with
# its tests and of its wrong bodies, and of the whole run. What the gate says goes to the file that is named, or else to
# standard error. Each check is a process of the prover, which is looked at five times a second, so a crate's times are
# a little low; the last line is the system's own count. Nothing else should run on the machine.
set -u
top=$(cd "$(dirname "$0")/.." && pwd) || exit 1
exec python3 - "$top" "$@" <<'PYTHON'
import collections
import os
import resource
import subprocess
import sys
import time

TICKS = os.sysconf("SC_CLK_TCK")
# What tells this run's processes from others: they inherit it.
MARK = f"GATE_TIMES={os.getpid()}"


def check_of(pid):
    """The crate and the kind of check that a process makes, the process, and its processor time so far."""
    with open(f"/proc/{pid}/cmdline", "rb") as it:
        words = it.read().decode(errors="replace").split("\0")
    if os.path.basename(words[0]) != "rattle" or "--crate-name" not in words:
        return None
    with open(f"/proc/{pid}/environ", "rb") as it:
        if MARK.encode() not in it.read().split(b"\0"):
            return None
    crate = words[words.index("--crate-name") + 1]
    is_edited = os.path.basename(os.readlink(f"/proc/{pid}/cwd")).startswith("rt-edit-")
    kind = "edits" if is_edited else "tests" if "--test" in words else "proof"
    with open(f"/proc/{pid}/stat") as it:
        fields = it.read().rpartition(")")[2].split()
    return crate, kind, (pid, fields[19]), (int(fields[11]) + int(fields[12])) / TICKS


def look(seen):
    for pid in filter(str.isdigit, os.listdir("/proc")):
        try:
            found = check_of(pid)
        except OSError:
            # (it has ended)
            continue
        if found:
            crate, kind, process, seconds = found
            seen[crate, kind, process] = seconds


def main():
    name, _, value = MARK.partition("=")
    os.environ[name] = value
    seen, began = {}, time.time()
    top, *files = sys.argv[1:]
    said = open(files[0], "w") if files else sys.stderr
    # (a kit that keeps nothing from one gate to the next has no such word)
    keeps = "--anew" in subprocess.run(["rt", "help"], capture_output=True, text=True).stderr
    gate = subprocess.Popen(["rt", "ci", *["--anew"] * keeps], cwd=top, stdout=said, stderr=said, stdin=subprocess.DEVNULL)
    while gate.poll() is None:
        look(seen)
        time.sleep(0.2)
    sums = collections.defaultdict(collections.Counter)
    for (crate, kind, _), seconds in seen.items():
        sums[crate][kind] += seconds
    kinds = ("proof", "tests", "edits")
    print(f"{'crate':20}" + "".join(f"{it:>8}" for it in kinds))
    for crate, of in sorted(sums.items(), key=lambda it: -it[1].total()):
        print(f"{crate:20}" + "".join(f"{of[it]:8.0f}" for it in kinds))
    print(f"{'all':20}" + "".join(f"{sum(of[it] for of in sums.values()):8.0f}" for it in kinds))
    used = resource.getrusage(resource.RUSAGE_CHILDREN)
    print(f"whole run: {used.ru_utime + used.ru_stime:.0f} seconds of processor time, {time.time() - began:.0f} by the clock")
    return gate.returncode


sys.exit(main())
PYTHON
