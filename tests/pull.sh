#!/bin/sh
# Reads replies of a server of the program back by `fmrcd pull`, and those of peers that reply otherwise, over sockets.
# Use: tests/pull.sh [PROGRAM]; by default the proved program. Ends with status 0 where each line is as it must be.
set -eu
. "$(dirname "$0")/../bench/common.sh"
use_program "$@"
make_folder
start_server "$(free_port)" > "$folder/end"
for name in gfs_20240101_0000.nc gfs_20240101_0600.nc; do
    bring "$data/$name" "$name"
    wait_for "$inbox/done/$name"
done
python3 "$top/tests/pull.py" "$program" "$address"
