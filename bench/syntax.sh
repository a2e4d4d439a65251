#!/bin/sh
# Prints how many bytes a second the proved build lexes and parses, and the time of both together, on sources of 1 MB and of
# 4 MB: ordinary ones, and dense ones with a token for each one and a half bytes. Each is read in a process of its own, three
# times: first on fresh memory, which the system hands out page by page, and then again on the memory that the process has,
# as a server reads its next export. Run by hand, on a quiet machine, with rt in the path.
set -eu
bench=$(cd "$(dirname "$0")" && pwd)
sh "$bench/proved.sh" syntax_program scad_lexer scad_parser scad_ast text_place anyhow -- \
    ordinary-1 ordinary-1 ordinary-1 ordinary-4 ordinary-4 ordinary-4 dense-1 dense-1 dense-1 dense-4 dense-4 dense-4
