#!/bin/sh
# Writes docs/FIGURES.md and the plots beside it: sh bench/figures.sh [--from FOLDER] [NAME..]. It runs the measurements below,
# one after another, keeps what each prints in FOLDER (else in a temporary one) with the machine, the date and the commit, and
# writes the tables and the plots of that. With NAMEs it runs these alone; the others keep what FOLDER has. `--from FOLDER`
# alone runs nothing, and writes the page of what FOLDER has. Run by hand, on a machine with nothing else to do, after `rt ci`
# has built the program, or with SCADSERVE as the name of another one. All together take some forty minutes.
set -u
top=$(cd "$(dirname "$0")/.." && pwd) || exit 1
exec python3 -B "$top/bench/figures.py" "$@"
