#!/bin/sh
# Prints the time in which the proved build evaluates 250, 500 and 1,000 calls of a module in a loop, and chains of 15, 30
# and 60 modules that call one another, and how often each takes the time of the one before. Run by hand, with rt in the
# path.
set -eu
bench=$(cd "$(dirname "$0")" && pwd)
sh "$bench/proved.sh" modules_program scad_lexer scad_parser scad_ast scad_eval csg_tree plane_predicate text_place anyhow
