#!/bin/sh
# Prints what sources take that are made to cost much, as rows of a table: each family of bench/worst.py at growing sizes,
# with the bytes of its script, the seconds by the clock with one worker, the exponent by which these grow with the size,
# and the answer. Words name families; else all are run. `--largest` prints the last row of each alone, and `--limit SECONDS`
# ends a run earlier than after a minute. Run by hand, with nothing else running, after `rt ci` has built the program, or with
# SCADSERVE as the name of another one.
set -u
top=$(cd "$(dirname "$0")/.." && pwd) || exit 1
program=${SCADSERVE:-$top/crates/scadserve/out/scadserve}
if [ ! -x "$program" ]; then
    echo "worst: 'rt ci' builds the program that this measures" >&2
    exit 2
fi
. "$top/memory.sh"
exec python3 -B "$top/bench/worst.py" "$program" "$@"
