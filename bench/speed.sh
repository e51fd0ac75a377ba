#!/bin/sh
# Runs the measures that have aims, one after the other: slabs and texts (bench/slabs.sh), editions and constraints
# (bench/times.sh), the memory of a plan (bench/plan_memory.sh) and dear requests (bench/slow_requests.sh). Each shows
# its figures. It names those that miss an aim or fail, and ends with 1 where one does.
# Use: bench/speed.sh [PROGRAM]; by default the proved program, which 'make build' leaves. It wants a quiet machine, and
# takes some 20 minutes where the gate ran before; else bench/times.sh proves what it stands on, up to an hour.
set -eu
. "$(dirname "$0")/common.sh"
use_program "$@"
missed=

# Runs a script with its words, and notes where it doesn't end with 0.
measure() {
    script=$1
    shift
    echo "$script:"
    "$top/bench/$script" "$@" || missed="$missed $script"
}

measure slabs.sh "$program"
measure times.sh
measure plan_memory.sh "$program"
measure slow_requests.sh "$program"
[ -z "$missed" ] || { echo "aims are missed:$missed"; exit 1; }
echo "all aims are met"
