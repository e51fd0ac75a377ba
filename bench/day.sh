#!/bin/sh
# A day of four servers in an hour. Some 500 times runs arrive in the folder of each, are corrected or are taken back,
# which is far faster than usual. A run is kept for an hour, and most that arrive are nearly that old, so that at each
# minute some go. 200 clients come, read, stall, reset and go. Folders become unreadable and readable again. The disk is
# full for a while, descriptors run out for a while, and each server is killed and started again twice. Each reply has
# to be the defined one at its revision, after the operations that the server's lines say, and these have to be the
# right ones. No run stays longer than it is kept and a minute. At the end each file lies where its verdict says, and
# memory and descriptors are what they were. What isn't so is shown, and the status is 1.
# Use: bench/day.sh [PROGRAM] [MINUTES] [WORD..]; by default the proved program and 60 minutes; with fewer than five it
# may be that no run goes. With words, only these of `unreadable`, `full`, `descriptors` and `killed` are done. It wants
# root, and runs servers as nobody.
set -eu
. "$(dirname "$0")/common.sh"
use_program "$@"
[ "$(id -u)" = 0 ] || { echo "only root may mount a small disk, and run servers as another user" >&2; exit 2; }
minutes=${2:-60}
if [ $# -lt 2 ]; then shift $#; else shift 2; fi
make_folder
chmod 755 "$folder"
mount -t tmpfs -o size=64m,mode=755 tmpfs "$folder"
trap 'umount -l "$folder"; rmdir "$folder"' EXIT
python3 -B "$top/bench/day.py" "$program" "$folder" "$top/package/fmrcd-bring-back" "$minutes" "$@"
