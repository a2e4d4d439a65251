#!/bin/sh
# Prints what clients gain who are served at the same time by the proved build, in one run: the time of the demonstration's
# script with 8 clients for 1, 2 and 4 workers on as many processors, beside one client alone; an export that is repeated
# beside its first; and solids with a memo that keeps nothing beside solids without a memo. Run by hand, after `rt ci` has
# built the program. Times are the least of three.
set -u
top=$(cd "$(dirname "$0")/.." && pwd) || exit 1
program=$top/crates/scadserve/out/scadserve
if [ ! -x "$program" ]; then
    echo "sharing: 'rt ci' builds the program that this times" >&2
    exit 2
fi
. "$top/memory.sh"
work=$(mktemp -d) || exit 1
trap 'rm -rf "$work"' EXIT
trap 'exit 1' HUP INT TERM

# The lines of one client of the demonstration's script, whose holes have this height.
client() {
    echo "$1 put 1 module part(i) { translate([7*i, 0, 0]) difference() { cube(4); translate([1, 1, 0]) cube([2, 2, $2]); } }"
    echo "$1 put 2 for (i = [1 : 100]) part(i);"
}

# The least time in milliseconds of three runs of a script on this many processors.
least() {
    script=$1
    processors=$2
    shift 2
    best=
    for _turn in 1 2 3; do
        start=$(date +%s%N)
        taskset -c "0-$((processors - 1))" "$program" run "$@" <"$script" >"$work/out" || exit 1
        time=$((($(date +%s%N) - start) / 1000))
        if [ -z "$best" ] || [ "$time" -lt "$best" ]; then best=$time; fi
    done
    awk -v t="$best" 'BEGIN { printf "%.1f", t / 1000 }'
}

ratio() {
    awk -v a="$1" -v b="$2" 'BEGIN { printf "%.1f", a / (b > 0 ? b : 0.1) }'
}

client a 2 >"$work/one"
echo "a export" >>"$work/one"
alone=$(least "$work/one" 1 --workers 1)
echo "one client alone, 1 worker, 1 processor:          $alone ms"
number=0
while [ $number -lt 8 ]; do
    number=$((number + 1))
    client "c$number" $((number % 3 + 1))
    echo "c$number export"
done >"$work/eight"
first=
for processors in 1 2 4; do
    time=$(least "$work/eight" $processors --workers $processors)
    [ -n "$first" ] || first=$time
    faster=$(ratio "$first" "$time")
    echo "8 clients, $processors workers each, $processors processors:       $time ms, $faster times as fast as on 1"
done
cp "$work/one" "$work/again"
for _turn in 1 2 3 4 5 6 7 8 9 10; do echo "a export"; done >>"$work/again"
eleven=$(least "$work/again" 1 --workers 1)
again=$(awk -v a="$eleven" -v b="$alone" 'BEGIN { printf "%.2f", (a - b) / 10 }')
echo "an export that is repeated:                        $again ms, the first $(ratio "$alone" "$again") times as long"
sh "$top/bench/proved.sh" sharing_program plane_predicate csg_tree bsp_boolean text_place scad_lexer scad_parser scad_ast \
    scad_eval tree_export script_reader script_service script_server reply_text memo_core anyhow
