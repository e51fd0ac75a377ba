#!/bin/sh
# Serves while files arrive: 400 files come into a folder in 40 seconds, and 16 clients read for a minute, over
# connections of 50 requests. Each reply has to be, byte for byte, the one over the files of its revision, and the last
# line and the status have to be right. Beside it another server takes a file back and lets old runs expire. It shows
# how much was served, how long a file takes from its rename to its verdict, and the memory at the end, which may be
# that of the files and 64 MiB.
# Use: [WORKERS=1] bench/serve.sh [PROGRAM]; by default the proved program, which 'make build' leaves, with 4 workers.
# It ends within two minutes.
set -eu
. "$(dirname "$0")/common.sh"
use_program "$@"
make_folder
python3 -B "$top/bench/serve_clients.py" "$program" "$folder"
