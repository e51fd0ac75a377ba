#!/bin/sh
# Shows the time and the memory that `check` takes for the largest file that is taken, 512 MiB, beside a C program that
# reads the same file whole into memory.
# Use: bench/check.sh [PROGRAM]. PROGRAM answers `PROGRAM check FILE`; by default it is the proved program.
set -eu
. "$(dirname "$0")/common.sh"
use_program "$@"
make_folder

# A file of exactly 512 MiB: one fixed variable of Floats, and records of a Double.
python3 - "$folder/large.nc" << 'PYTHON'
import struct
import sys

SIZE = 536870912
RECORDS = 1024


def words(*numbers):
    return struct.pack(">%dI" % len(numbers), *numbers)


def header(floats, begin):
    dims = words(10, 2, 4) + b"time" + words(0, 1) + b"n\0\0\0" + words(floats)
    time = words(4) + b"time" + words(1, 0, 0, 0, 6, 8, begin)
    field = words(1) + b"v\0\0\0" + words(1, 1, 0, 0, 5, 4 * floats, begin + 8 * RECORDS)
    return b"CDF\1" + words(RECORDS) + dims + words(0, 0, 11, 2) + time + field


length = len(header(1, 0))
floats = (SIZE - length - 8 * RECORDS) // 4
with open(sys.argv[1], "wb") as file:
    file.write(header(floats, length))
    file.truncate(SIZE)
PYTHON

cc -O2 -o "$folder/whole" "$top/bench/read_whole.c"
PYTHONPATH=$top/bench python3 -B - "$program" "$folder" << 'PYTHON'
import os
import sys

from figures import fastest

program, folder = sys.argv[1:]
path = os.path.join(folder, "large.nc")
reading = fastest([os.path.join(folder, "whole"), path])
check = fastest([program, "check", path])
if not reading[2].startswith("read 536870912 "):
    sys.exit("the program in C " + reading[2])
print("reading in C: %.3f s, %.0f MiB" % reading[:2])
print("check:        %.3f s, %.0f MiB (%s)" % (check[0], check[1], check[2].strip()))
if check[1] > 512 + 16:
    sys.exit("check takes more memory than the file and 16 MiB")
PYTHON
