#!/bin/sh
# Prints, for nine designs, the time in which the proved build makes their solids, facets and texts, each the least of five:
# a plate with holes, a row of cubes, a sponge, steps of boxes, tetrahedra, thin tetrahedra, parts and a prism; how many
# parts each has stands in brackets. Below that it prints what one run takes that makes one of them: its instructions, where
# valgrind is installed, the growth, and its peak memory, where GNU time is. The growth is the exponent by which instructions
# grow from half as many parts to all of them: at 1 twice as many parts take twice as much, and at 2 four times. Run by hand,
# with rt in the path; or, as in `sh bench/series.sh PROGRAM`, with a program that was built of bench/series_program.txt.
set -eu
bench=$(cd "$(dirname "$0")" && pwd)
if [ $# -eq 0 ]; then
    export MEASURE=series.sh
    exec sh "$bench/proved.sh" series_program bsp_boolean bsp_tree csg_tree facet_cut off_text plane_predicate plain_text anyhow
fi
program=$1
. "$bench/../memory.sh"
work=$(mktemp -d)
trap 'rm -rf "$work"' EXIT
trap 'exit 1' HUP INT TERM

# The instructions of a run of the program with these words, or nothing where they can't be counted.
instructions() {
    command -v valgrind >/dev/null || return 0
    if ! valgrind --tool=callgrind --callgrind-out-file=/dev/null "$program" "$@" >"$work/said" 2>&1; then
        cat "$work/said" >&2
        return 1
    fi
    sed -n 's/^==.*== Collected : \([0-9]*\).*/\1/p' "$work/said"
}

# The kilobytes of memory that a run of the program with these words has at most.
kilobytes() {
    [ ! -x /usr/bin/time ] || /usr/bin/time -f %M "$program" "$@" 2>&1 >/dev/null
}

"$program"
echo
printf '%-28s %9s %9s %7s %9s\n' "one design" "M instr." "of half" growth "peak MiB"
while read -r number count name; do
    all=$(instructions "$number")
    half=
    [ "$count" -eq 0 ] || half=$(instructions "$number" $((count / 2)))
    peak=$(kilobytes "$number")
    awk -v name="$name" -v all="$all" -v half="$half" -v peak="$peak" '
    function millions(count) { return count ? sprintf("%.1f", count / 1e6) : "-" }
    BEGIN {
        growth = half ? sprintf("%.2f", log(all / half) / log(2)) : "-"
        printf "%-28s %9s %9s %7s %9s\n", name, millions(all), millions(half), growth, peak ? sprintf("%.1f", peak / 1024) : "-"
    }'
done <<END
0 300 plate with 300 holes
1 300 row of 300 cubes
2 0 sponge of level 3
3 60 union of 60 steps
4 60 60 steps, each cut
5 60 60 tetrahedra
6 32 32 slivers
7 200 200 parts
8 30 prism with 61 sides
END
