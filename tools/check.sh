#!/bin/sh
# Runs all tests of what surrounds the proved program, side by side. They need only Python 3.9 or later. Tests of the program
# itself are skipped where it is not built and SCADSERVE names none, and others where they need a program that isn't installed.
# The last line says how many passed, failed and were skipped. tools/check.py says more, and so does --help.
set -u
top=$(dirname "$(dirname "$(readlink -f "$0")")")
exec python3 -B "$top/tools/check.py" "$top/clients" "$@"
