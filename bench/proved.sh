#!/bin/sh
# Builds a program of this folder over the proved crates and runs it: proved.sh PROGRAM CRATE... [-- WORD...]. With words
# it runs once for each of them, as its argument. Where MEASURE names a script of this folder, that is run instead, with the
# program as its argument. The program stands in PROGRAM.txt, since the gate reads each .rt file as a crate's. It is built in
# a folder of its own, which is removed.
set -eu
top=$(cd "$(dirname "$0")/.." && pwd)
. "$top/memory.sh"
program=$1
shift
crates=
while [ $# -gt 0 ] && [ "$1" != -- ]; do
    crates="$crates $1"
    shift
done
work=$(mktemp -d)
trap 'rm -rf "$work"' EXIT
trap 'exit 1' HUP INT TERM
cp -r "$top/crates" "$top/crates.txt" "$top/HANDLES" "$work/"
mkdir -p "$work/crates/$program/src"
cp "$top/bench/$program.txt" "$work/crates/$program/src/main.rt"
echo "$program:$crates" >> "$work/crates.txt"
if ! (cd "$work/crates/$program" && rt run > "$work/log" 2>&1); then
    tail -20 "$work/log"
    exit 1
fi
if [ -n "${MEASURE-}" ]; then
    sh "$top/bench/$MEASURE" "$work/crates/$program/out/$program"
    exit
fi
if [ $# -eq 0 ]; then
    "$work/crates/$program/out/$program"
    exit
fi
shift
for word in "$@"; do
    "$work/crates/$program/out/$program" "$word"
done
