#!/bin/sh
# Prints the time in which the proved build makes hulls of 8, 32 and 128 points: on a round surface, on a grid and at random
# in a box. Run by hand, with rt in the path.
set -eu
bench=$(cd "$(dirname "$0")" && pwd)
sh "$bench/proved.sh" hull_program scad_hull primitives text_place anyhow
