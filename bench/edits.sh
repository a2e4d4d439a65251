#!/bin/sh
# Prints what an export costs the proved program after an edit: for a design of 100 parts, one of 300, a plate with 300 holes
# and a sponge of level 3, each with a line of source for each part, the milliseconds (by the clock and of processors, the
# least of 25 runs) and the instructions of the first export, of the same export again, and of the export after one line
# was edited; how much that is of the first one's; and which share of the instructions goes to which phase. Below it stands
# what a source of 4,096 lines takes to be read and evaluated, beside what `openscad` takes, where that is installed. Words
# are handed to `run`, as in `sh bench/edits.sh --workers 1`. Run by hand, after `rt ci` has built the program. Where
# valgrind isn't installed, which counts the instructions, times alone are printed, and the status is 3.
set -u
top=$(cd "$(dirname "$0")/.." && pwd) || exit 1
program=${SCADSERVE:-$top/crates/scadserve/out/scadserve}
if [ ! -x "$program" ]; then
    echo "edits: 'rt ci' builds the program that this measures" >&2
    exit 2
fi
if ! command -v python3 >/dev/null; then
    echo "edits: python3 isn't installed" >&2
    exit 2
fi
. "$top/memory.sh"
exec python3 -B "$top/bench/edits.py" "$program" run "$@"
