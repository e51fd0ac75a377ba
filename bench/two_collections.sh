#!/bin/sh
# Serves two collections by one server, while files arrive in both: a hundred each, of other runs. Twelve clients ask of
# both in turns over one connection each. Each reply has to be, byte for byte, the one over the files of its collection
# and its revision, and no connection may see a revision of a collection fall. Each folder has its own verdicts, and the
# server ends with a line for each collection.
# Use: [WORKERS=1] bench/two_collections.sh [PROGRAM]; by default the proved program, with 4 workers. It ends within a
# minute, with status 0 where all is as it must be.
set -eu
. "$(dirname "$0")/common.sh"
use_program "$@"
make_folder
python3 -B "$top/bench/two_collections.py" "$program" "$folder"
