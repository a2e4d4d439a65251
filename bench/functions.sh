#!/bin/sh
# Prints how many calls of a recursive function, and how many indexes of a variable list of 1,000 items, the proved build
# evaluates a second. Run by hand, with rt in the path.
set -eu
bench=$(cd "$(dirname "$0")" && pwd)
sh "$bench/proved.sh" functions_program scad_lexer scad_parser scad_ast scad_value scad_scope scad_func text_place anyhow
