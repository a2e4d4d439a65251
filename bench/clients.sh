#!/bin/sh
# Prints by the clock, in milliseconds, the median of 15 runs, what clients take who are served at the same time by the proved
# build, on one processor and on four, with one worker each and with four: eight clients with 100 parts of their own each,
# eight with the same ones, and one client with a sponge, with 200 parts, and with 40 tetrahedra that are joined by halves.
# The first rows are their peer: the eight clients with parts of their own, each served by a program of its own, so that they
# share nothing but the machine. Each row is taken with the settings of memory.sh and without them. Run by hand, on a machine
# with four processors that has nothing else to do, after `rt ci` has built the program, or with SCADSERVE as the name of
# another one.
set -u
top=$(cd "$(dirname "$0")/.." && pwd) || exit 1
program=${SCADSERVE:-$top/crates/scadserve/out/scadserve}
if [ ! -x "$program" ]; then
    echo "clients: 'rt ci' builds the program that this times" >&2
    exit 2
fi
if [ "$(nproc)" -lt 4 ]; then
    echo "clients: four processors are wanted" >&2
    exit 2
fi
unset GLIBC_TUNABLES
work=$(mktemp -d) || exit 1
trap 'rm -rf "$work"' EXIT
trap 'exit 1' HUP INT TERM

# The nanoseconds that the scripts of a folder take, each by a program of its own, all at the same time, on this many processors
# with this many workers.
nanoseconds() {
    began=$(date +%s%N)
    runs=
    for script in "$work/$1"/*; do
        taskset -c "0-$(($2 - 1))" "$program" run --workers "$3" <"$script" >"$work/out.${script##*/}" &
        runs="$runs $!"
    done
    for run in $runs; do
        wait "$run" || exit 1
    done
    echo $(($(date +%s%N) - began))
}

# The median in milliseconds of 15 such numbers in a file.
median() {
    sort -n "$1" | awk 'NR == 8 { printf "%.1f", $1 / 1e6 }'
}

# The rows of a folder of scripts, whose runs take turns, so that a busy moment hits all of them.
rows() {
    rm -f "$work"/with.* "$work"/without.*
    for _turn in 1 2 3 4 5 6 7 8 9 10 11 12 13 14 15; do
        for row in 1.1 1.4 4.1 4.4; do
            nanoseconds "$1" ${row%.*} ${row#*.} >>"$work/without.$row"
            (. "$top/memory.sh" && nanoseconds "$1" ${row%.*} ${row#*.}) >>"$work/with.$row" || exit 1
        done
    done
    for row in 1.1 1.4 4.1 4.4; do
        with=$(median "$work/with.$row")
        printf '%-30s %10s %8s %14s %11s\n' "$2" ${row%.*} ${row#*.} "$with" "$(median "$work/without.$row")"
    done
}

# The lines of a client whose parts have this height.
client() {
    hollow="difference() { cube([4, 4, $2]); translate([1, 1, 0]) cube([2, 2, 2]); }"
    echo "$1 put 1 module part(i) { translate([7*i, 0, 0]) $hollow }"
    echo "$1 put 2 for (i = [1 : $3]) part(i);"
    echo "$1 export"
}

mkdir "$work/apart" "$work/own" "$work/same" "$work/parts" "$work/sponge" "$work/tetrahedra"
for number in 1 2 3 4 5 6 7 8; do
    client "c$number" $((number + 2)) 100 >"$work/apart/$number"
    client "c$number" $((number + 2)) 100 >>"$work/own/1"
    client "c$number" 4 100 >>"$work/same/1"
done
client a 4 200 >"$work/parts/1"
cat >"$work/sponge/1" <<'END'
a put 1 module bars(step) for (i = [0 : 3 * step : 26], j = [0 : 3 * step : 26]) {
a put 2 translate([i + step, j + step, -1]) cube([step, step, 29]);
a put 3 translate([i + step, -1, j + step]) cube([step, 29, step]);
a put 4 translate([-1, i + step, j + step]) cube([29, step, step]);
a put 5 }
a put 6 difference() { cube(27); for (k = [0 : 2]) bars(pow(3, k)); }
a export
END
cat >"$work/tetrahedra/1" <<'END'
a put 1 for (i = [0 : 39]) polyhedron([[7 * i, i % 5, 0], [7 * i + 20, i % 3, 1], [7 * i + 2, 19, 2], [7 * i + 5, 4, 17]],
a put 2 [[0, 1, 2], [0, 2, 3], [0, 3, 1], [3, 2, 1]]);
a export
END

echo "$(sed -n 's/^model name[^:]*: //p' /proc/cpuinfo | sort | uniq -c | awk '{ $1 = $1 " of"; print }');" \
    "$(awk '/^MemTotal/ { printf "%.0f GB of memory", $2 / 1e6 }' /proc/meminfo); load $(cut -d' ' -f1 /proc/loadavg)"
echo "clients                        processors workers with memory.sh  without it"
rows apart "8, a program each"
rows own "8, own designs"
rows same "8, the same design"
rows sponge "1, sponge of level 3"
rows parts "1, 200 parts"
rows tetrahedra "1, 40 tetrahedra by halves"
