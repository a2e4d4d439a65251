#!/bin/sh
# Prints how many facets and how many bytes of 4OFF a second the proved build makes of a plate with 100 and with 300 square
# holes, and how much longer the larger one takes. Run by hand, with rt in the path.
set -eu
bench=$(cd "$(dirname "$0")" && pwd)
sh "$bench/proved.sh" facets_program bsp_boolean bsp_tree csg_tree facet_cut off_text \
    plane_polygon plane_predicate plain_text anyhow
