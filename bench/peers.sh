#!/bin/sh
# Where `openscad` is installed, hands the same sources to it and to the proved program, and prints the processor milliseconds
# of each and how often the one takes the other's: a cube alone, of which the time is mostly the start; plates with holes, rows
# of cubes, Menger sponges, chains of unions, chains of unions and differences, chains of tetrahedra and of thin ones, and the
# parts of the demonstration. A chain of 60 such tetrahedra is beyond the program's limits of size. The proved program is run by
# itself, not by ./scadserve, 50 times, and `openscad` once; what the program's own start takes, which is in each of its
# times, is the first row's. Where valgrind is installed, the program's instructions stand beside it, which a load changes
# little. Run by hand, after `rt ci` has built the program, or with SCADSERVE as the name of another one.
set -u
top=$(cd "$(dirname "$0")/.." && pwd) || exit 1
program=${SCADSERVE:-$top/crates/scadserve/out/scadserve}
if [ ! -x "$program" ]; then
    echo "peers: 'rt ci' builds the program that this times" >&2
    exit 2
fi
if ! command -v openscad >/dev/null; then
    echo "peers: openscad isn't installed" >&2
    exit 2
fi
. "$top/memory.sh"
work=$(mktemp -d) || exit 1
trap 'rm -rf "$work"' EXIT
trap 'exit 1' HUP INT TERM

# The processor milliseconds of a command, of one run of this many; the last run's words are kept.
milliseconds() {
    turns=$1
    shift
    (
        turn=0
        while [ $turn -lt "$turns" ]; do
            "$@" >"$work/said" 2>&1 || touch "$work/failed"
            turn=$((turn + 1))
        done
        times
    ) | awk -v turns="$turns" 'NR == 2 {
        split($1, u, /[ms]/)
        split($2, s, /[ms]/)
        printf "%.1f", 1000 * (u[1] * 60 + u[2] + s[1] * 60 + s[2]) / turns
    }'
}

# One run of the proved program on the script.
ours() {
    "$program" run --workers 1 <"$work/part.script"
}

# The million instructions of one run, where they can be counted.
instructions() {
    command -v valgrind >/dev/null || return 0
    valgrind --tool=callgrind --callgrind-out-file=/dev/null "$program" run --workers 1 <"$work/part.script" 2>&1 >/dev/null |
        sed -n 's/^==.*== Collected : \([0-9]*\).*/\1/p' | awk '{ printf "%.1f", $1 / 1e6 }'
}

# One source through both.
both() {
    "$top/bin/scad2off" --script "$work/part.scad" >"$work/part.script" || exit 1
    ours=$(milliseconds 50 ours)
    said=$(grep -m 1 -E '^[0-9]+ (solid|fault|complex|nomem)' "$work/said")
    theirs=$(milliseconds 1 openscad -o "$work/part.off" "$work/part.scad")
    if [ -e "$work/failed" ] || [ "${said#* solid}" = "$said" ]; then
        echo "peers: $1 has no solid: ${said:-no answer}" >&2
        exit 1
    fi
    awk -v name="$1" -v ours="$ours" -v count="$(instructions)" -v theirs="$theirs" -v said="$said" \
        'BEGIN {
            times = theirs / (ours > 0.1 ? ours : 0.1)
            printf "%-28s %8s ms %8s %8.0f ms %7.0f  %s\n", name, ours, count, theirs, times, said
        }'
}

# Writes the source of a chain of this many tetrahedra, each of four points by the module of these lines, and each joined to
# those before it.
tetrahedra() {
    cat >"$work/part.scad" <<END
module four(points) polyhedron(points, [[0, 1, 2], [0, 2, 3], [0, 3, 1], [3, 2, 1]]);
module chain(n) if (n > 0) union() { chain(n - 1); one(n - 1); }
$1
chain($2);
END
}

echo "$(sed -n 's/^model name[^:]*: //p' /proc/cpuinfo | sort | uniq -c | awk '{ $1 = $1 " of"; print }');" \
    "$(awk '/^MemTotal/ { printf "%.0f GB of memory", $2 / 1e6 }' /proc/meminfo); load $(cut -d' ' -f1 /proc/loadavg)"
echo "source                         scadserve M instr.    openscad   ratio  answer"
echo "cube(1);" >"$work/part.scad"
both "a cube alone"
for n in 1 10 100 300; do
    cat >"$work/part.scad" <<END
difference() {
    cube([81, 61, 4]);
    for (i = [0 : $n - 1]) translate([4 * (i % 20) + 1, 4 * ((i - i % 20) / 20) + 1, -1]) cube([3, 3, 6]);
}
END
    both "plate with $n holes"
done
for n in 1 10 100 300; do
    echo "for (i = [0 : $n - 1]) translate([3 * i, 0, 0]) cube(2);" >"$work/part.scad"
    both "row of $n cubes"
done
for n in 1 2 3; do
    cat >"$work/part.scad" <<END
side = pow(3, $n);
module bars(step) for (i = [0 : 3 * step : side - 1], j = [0 : 3 * step : side - 1]) {
    translate([i + step, j + step, -1]) cube([step, step, side + 2]);
    translate([i + step, -1, j + step]) cube([step, side + 2, step]);
    translate([-1, i + step, j + step]) cube([side + 2, step, step]);
}
difference() { cube(side); for (k = [0 : $n - 1]) bars(pow(3, k)); }
END
    both "Menger sponge of level $n"
done
for n in 10 30 60; do
    cat >"$work/part.scad" <<END
module chain(n) if (n > 0) union() { chain(n - 1); translate([2 * n, 0, n]) cube([5, 5, 3]); }
chain($n);
END
    both "union of $n steps"
done
for n in 10 30 60; do
    cat >"$work/part.scad" <<END
module chain(n) if (n > 0) difference() {
    union() { chain(n - 1); translate([2 * n, 0, n]) cube([5, 5, 3]); }
    translate([2 * n + 1, 1, n + 1]) cube([2, 2, 3]);
}
chain($n);
END
    both "$n steps, each cut"
done
one="module one(i) four([[7 * i, i % 5, 0], [7 * i + 20, i % 3, 1], [7 * i + 2, 19, 2], [7 * i + 5, 4, 17]]);"
for n in 10 20 40; do
    tetrahedra "$one" "$n"
    both "$n tetrahedra"
done
one="module one(i) thin(3 * i, 7 * i % 11);
module thin(x, y) four([[x, y, 0], [x + 40, y + 1, 3], [x + 39, y + 3, 2], [x + 3, y + 2, 21]]);"
for n in 8 16 32; do
    tetrahedra "$one" "$n"
    both "$n slivers"
done
for n in 100 200; do
    cat >"$work/part.scad" <<END
module part(i) { translate([7*i, 0, 0]) difference() { cube(4); translate([1, 1, 0]) cube([2, 2, 2]); } }
for (i = [1 : $n]) part(i);
END
    both "$n parts"
done
