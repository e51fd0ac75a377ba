#!/bin/sh
# Shows how long the program takes to check a header against the number of names in one of its lists.
# Use: bench/names.sh [PROGRAM]. PROGRAM answers `PROGRAM check FILE`; by default one is built from
# the header reader.
set -eu
. "$(dirname "$0")/common.sh"
make_folder
program=${1:-$("$top/bench/reader.sh" "$folder")}

# make LIST COUNT FILE: a CDF-1 header with COUNT names in the list of dimensions, attributes or variables.
make() {
    python3 - "$1" "$2" "$3" <<'PYTHON'
import struct
import sys


def word(number):
    return struct.pack(">I", number)


def name(number):
    text = b"name_%07d" % number
    return word(len(text)) + text


which, count, path = sys.argv[1], int(sys.argv[2]), sys.argv[3]
items = {
    "dimensions": (10, lambda n: name(n) + word(1)),
    "attributes": (12, lambda n: name(n) + word(2) + word(1) + b"a\0\0\0"),
    "variables": (11, lambda n: name(n) + word(0) + 2 * word(0) + word(1) + word(1) + word(0)),
}
with open(path, "wb") as file:
    file.write(b"CDF\x01" + word(0))
    for list_name in ["dimensions", "attributes", "variables"]:
        tag, item = items[list_name]
        if list_name == which:
            file.write(word(tag) + word(count))
            for number in range(count):
                file.write(item(number))
        else:
            file.write(2 * word(0))
PYTHON
}

for list in dimensions attributes variables; do
    for count in 1000 10000 100000; do
        make "$list" "$count" "$folder/header.nc"
        start=$(date +%s%N)
        answer=$("$program" check "$folder/header.nc")
        end=$(date +%s%N)
        echo "$list $count: $(((end - start) / 1000000)) ms, $answer"
    done
done
