#!/bin/sh
# Runs the built program at its limits and at sizes between: files and prototypes up to 512 MiB, replies up to the limit
# and a number over it, 4,096 files, 262,144 times, long texts, long heads, many declarations, steps, requests, workers,
# folders and operations. Each answer has to be the defined one, byte for byte, and not that memory ran out. What isn't
# as it should be is shown, and the last line counts.
# Use: tests/limits.sh [PROGRAM] [WORD..]; by default the proved program, which 'make build' leaves. With words, only
# cases in whose names one of them stands are run. All take about three minutes and 2.5 GB of memory. The word `sum`
# alone runs the one case that else is left out: 3 GiB of held files, which take 5 GB of memory.
set -eu
. "$(dirname "$0")/../bench/common.sh"
use_program "$@"
[ $# = 0 ] || shift
make_folder
export PYTHONPATH="$top/bench:$top/tests"
status=0
python3 -B "$top/tests/limits_once.py" "$program" "$folder" "$@" || status=1
python3 -B "$top/tests/limits_serve.py" "$program" "$folder" "$@" || status=1
exit $status
