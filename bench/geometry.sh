#!/bin/sh
# Prints how many sides and cuts a second the proved build makes, and before that how many sides the same sums of products
# make in plain Rust. Run by hand, with rt and rustc in the path.
set -eu
bench=$(cd "$(dirname "$0")" && pwd)
plain=$(mktemp)
trap 'rm -f "$plain"' EXIT
rustc -O -C target-cpu=x86-64-v2 -o "$plain" "$bench/sides.rs"
"$plain"
sh "$bench/proved.sh" geometry_program plane_polygon plane_predicate plain_text anyhow
