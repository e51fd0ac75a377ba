#!/bin/sh
# Fails each system call that the worker of a folder makes, once and for two seconds, with each error that it can have,
# under a running server. Then what had to wait has to come, and all that comes later; lines have to say that calls
# failed and work again. In the same way it fails the calls by which a connection is accepted and set up: one that can't
# be set up has to be dropped, and all others have to get their replies. It also does to folders and files what people
# and other programs do to them. What isn't as it should be is shown, and the last line counts.
# Use: tests/faults.sh [PROGRAM] [WORD..]; by default the proved program, which 'make build' leaves. With words, only
# cases in whose names one of them stands are run. It takes some four minutes, and ends with status 0 where all is as it
# should be. It wants root, and runs servers as nobody. strace is installed where it is missing.
set -eu
. "$(dirname "$0")/../bench/common.sh"
use_program "$@"
[ "$(id -u)" = 0 ] || { echo "only root may fail the calls of a server that runs as another user" >&2; exit 2; }
[ $# = 0 ] || shift
"$top/bench/packages.sh" strace=strace
make_folder
chmod 755 "$folder"
PYTHONPATH=$top/bench python3 -B "$top/tests/faults.py" "$program" "$folder" "$@"
