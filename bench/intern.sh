#!/bin/sh
# Prints the time in which the proved build makes a store of the union of 64, 256 and 1,024 different half spaces, joined by
# halves: the fastest of 20, with the growth from one to the next. Run by hand, with rt in the path.
set -eu
bench=$(cd "$(dirname "$0")" && pwd)
sh "$bench/proved.sh" intern_program csg_tree plane_predicate plain_text anyhow
