#!/bin/sh
# Shows the time and the memory that the proved program takes for 10,000 requests over one standard input, and for a
# reply of 100 MB: files of fields of 250,000 numbers at 100 times, which are put and asked for whole.
# Use: bench/once.sh [PROGRAM]; by default the proved program, which 'make build' leaves.
set -eu
. "$(dirname "$0")/common.sh"
use_program "$@"
make_folder
sample=$data/gfs_20240101_0000.nc

# Runs the words, and says the time, the most memory and the bytes of the output.
measure() {
    name=$1 input=$2
    shift 2
    /usr/bin/time -f '%e s, %M KiB at most' -o "$folder/took" "$program" "$@" < "$input" > "$folder/out"
    echo "$name: $(cat "$folder/took"), $(wc -c < "$folder/out") bytes"
}

python3 - "$folder" << 'MAKE'
import struct, sys

folder = sys.argv[1]
request = b'GET /thredds/dodsC/gfs/gfs_best.ncd.%s HTTP/1.1\r\n\r\n'
with open(folder + '/many', 'wb') as out:
    out.write(request % b'dds' * 10000)
with open(folder + '/one', 'wb') as out:
    out.write(request % b'dods?t')

def word(*numbers):
    return b''.join(struct.pack('>I', n) for n in numbers)

def text(name):
    return word(len(name)) + name + b'\0' * (-len(name) % 4)

times, side = 100, 500
units = b'seconds since 1970-01-01 00:00:00'
names = [(b'time', 0), (b'lat', side), (b'lon', side)]
head_len = 276
lat, lon = head_len, head_len + 4 * side
first = lon + 4 * side
head = b'CDF\1' + word(times, 10, 3) + b''.join(text(n) + word(size) for n, size in names) + word(0, 0, 11, 4)
head += text(b'time') + word(1, 0, 12, 1) + text(b'units') + word(2, len(units)) + units + b'\0' * (-len(units) % 4)
head += word(4, 4, first)
head += text(b'lat') + word(1, 1, 0, 0, 5, 4 * side, lat) + text(b'lon') + word(1, 2, 0, 0, 5, 4 * side, lon)
head += text(b't') + word(3, 0, 1, 2, 0, 0, 5, 4 * side * side, first + 4)
assert len(head) == head_len
with open(folder + '/gfs_20240101_0000.nc', 'wb') as out:
    out.write(head + b'\0' * (8 * side))
    for k in range(times):
        out.write(word(1704067200 + 3600 * k) + b'\x3f\x80\0\0' * (side * side))
MAKE

measure "10,000 requests" "$folder/many" once --name gfs --proto "$sample" "put:$sample" ask:10000
large=$folder/gfs_20240101_0000.nc
measure "a reply of 100 MB over a file of 100 MB" "$folder/one" once --name gfs --proto "$large" "put:$large" ask:1
