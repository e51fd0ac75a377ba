#!/bin/sh
# Counts the memory that a reply's plan takes beyond the rows of the view, the constraint and the structure text: what a
# request for data holds at most, less what one for the structure does, with the same constraint. It may be 64 KB for
# each array of texts, and half as much more while its marks are made, 16 bytes for each part that is sent, 64 for each
# page of rows, and 32 for each variable of the collection. docs/OPERATING.md names what a plan holds. It shows its
# figures, and ends with 1 where one is larger.
# Use: bench/plan_memory.sh [PROGRAM]; by default the proved program, which 'make build' leaves.
set -eu
. "$(dirname "$0")/common.sh"
use_program "$@"
make_folder
cc -shared -fPIC -O2 -Wall -o "$folder/held.so" "$top/bench/held_memory.c"
python3 -B "$top/bench/plan_memory.py" "$program" "$folder"
