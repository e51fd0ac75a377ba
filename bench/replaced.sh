#!/bin/sh
# Shows the memory of what went: a large file is replaced by itself some times, and then taken back, with no other
# operation and no request between. Each time one file may be resident at most, and none once it was taken back.
# Use: bench/replaced.sh [PROGRAM [MEBIBYTES]]; by default the proved program, which 'make build' leaves, and 256.
set -eu
. "$(dirname "$0")/common.sh"
use_program "$@"
make_folder
python3 -B "$top/bench/replaced.py" "$program" "$folder" "${2:-256}"
