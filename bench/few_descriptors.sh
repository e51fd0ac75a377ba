#!/bin/sh
# Has 300 clients ask a server that may have no more than 64 descriptors. Each has to get its whole reply, those that
# wait in the system's queue too, and another one has to be served once all have gone. A line has to say that no
# connection can be taken, and another one that they are taken again.
# Use: bench/few_descriptors.sh [PROGRAM]; by default the proved program, which 'make build' leaves. It ends within a
# minute, with status 0 where all is as it must be.
set -eu
. "$(dirname "$0")/common.sh"
use_program "$@"
make_folder
python3 -B "$top/bench/few_descriptors.py" "$program" "$folder"
