#!/bin/sh
# Searches for requests that cost a worker more than 5 ms beyond the bytes that it sends: over a collection of 4,096
# files with 600 variables and 262,144 times, one of 4,096 files of 64 times whose runs are 6 hours apart, one of 64
# files with 4,096 times each, and one of large arrays. The views, the services and HEAD are asked with constraints of
# up to 16 KB of each kind, and with mixtures of these by chance.
# What a worker costs is its time on a processor, as the kernel counts it: the least of three turns, and of twelve where
# those seem dear. What its bytes cost is measured by plain requests for numbers or texts of the same view, less their
# heads. It shows these, the ten dearest of all requests and the dearest of each view, and ends with 1 where one is over
# 5 ms beyond its bytes.
# Use: bench/slow_requests.sh [PROGRAM] [COUNT]; by default the proved program, and 400 mixtures for each collection. It
# takes some minutes, a gigabyte of memory and one of the disk, and wants a quiet machine.
set -eu
. "$(dirname "$0")/common.sh"
use_program "$@"
make_folder
python3 -B "$top/bench/slow_requests.py" "$program" "$folder" "${2:-400}"
