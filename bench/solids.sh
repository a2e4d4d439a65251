#!/bin/sh
# Prints the time and the size of the union of separate cubes in a row, joined by halves, and of a plate from which square
# holes are taken one after another, for 1, 2, 4, .. 256 of them, with the growth from one to the next. Run by hand, with
# rt in the path.
set -eu
bench=$(cd "$(dirname "$0")" && pwd)
sh "$bench/proved.sh" solids_program bsp_boolean bsp_tree csg_tree plane_polygon plane_predicate plain_text anyhow
