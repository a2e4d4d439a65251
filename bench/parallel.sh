#!/bin/sh
# Prints the seconds in which 1,024 plates with holes are converted by one call of `scad2off`, and by GNU parallel in calls
# of 256 files, as many side by side as there are processors; and says whether both gave the same texts. Run by hand, after
# `rt ci` has built the program, where `parallel` is installed (Debian's package of that name).
set -eu
top=$(cd "$(dirname "$0")/.." && pwd)
if ! command -v parallel >/dev/null; then
    echo "parallel: GNU parallel isn't installed" >&2
    exit 2
fi
work=$(mktemp -d)
trap 'rm -rf "$work"' EXIT
trap 'exit 1' HUP INT TERM
mkdir "$work/parts"
for number in $(seq 1024); do
    cat >"$work/parts/plate$number.scad" <<END
n = $((number % 8 + 1));
h = $((number / 8 + 1));
difference() {
  cube([4 * n + 2, 4 * n + 2, h]);
  for (x = [0 : n - 1], y = [0 : n - 1]) translate([4 * x + 2, 4 * y + 2, 0]) cube([2, 2, h]);
}
END
done

seconds() {
    began=$(date +%s.%N)
    "$@" 2>"$work/said"
    awk -v began="$began" -v ended="$(date +%s.%N)" 'BEGIN { printf "%.1f", ended - began }'
}

echo "one call: $(seconds "$top/bin/scad2off" -d "$work/one" "$work"/parts/*.scad) s"
echo "parallel: $(seconds parallel --will-cite -n 256 "$top/bin/scad2off" -d "$work/many" ::: "$work"/parts/*.scad) s"
if diff -r "$work/one" "$work/many" >/dev/null; then
    echo "the same $(ls "$work/one" | wc -l) texts"
else
    echo "the texts differ"
    exit 1
fi
