#!/bin/sh
# Shows the time and the memory that the proved program takes for `load 7 400`: it makes 400 files, 6.7 MB with 26,000
# times, puts them one after the other, and reads four views of the collection. Ends with status 1 where the line is
# another than it must be, or where the fastest of five runs takes over two seconds.
# Use: bench/made.sh [PROGRAM]; by default the proved program, which 'make build' leaves.
set -eu
. "$(dirname "$0")/common.sh"
use_program "$@"
PYTHONPATH=$top/bench python3 -B - "$program" << 'MEASURE'
import sys

from figures import fastest

took, most, said = fastest([sys.argv[1], "load", "7", "400"])
if said != "files 400 rows 26000 best 2459 run 65 offset 400 forecast 11 sum 98319914\n":
    sys.exit(said)
print("load 7 400: %.2f s, %.0f MiB" % (took, most))
if took > 2:
    sys.exit("that is over two seconds")
MEASURE
