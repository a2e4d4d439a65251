#!/bin/sh
# Prints the time in which the proved build evaluates sources of 1,024, 2,048 and 4,096 lines with a name each, of variables,
# special names, functions and modules, and of assignments to one name four times, and how many times the one before that is.
# Run by hand, with rt in the path.
set -eu
bench=$(cd "$(dirname "$0")" && pwd)
sh "$bench/proved.sh" names_program scad_lexer scad_parser scad_ast scad_eval plane_predicate text_place anyhow
