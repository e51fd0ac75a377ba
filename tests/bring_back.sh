#!/bin/sh
# What fmrcd-bring-back brings back. A server is killed and started again as docs/fmrcd@.service does it, and its reply
# has to be the same as before. Then, without a server, which files come where some are too old or there are too many.
# Use: [WORKERS=1] tests/bring_back.sh [PROGRAM] [PORT]; by default the proved program, which 'make build' leaves, with
# 4 workers.
set -eu
. "$(dirname "$0")/../bench/common.sh"
use_program "$@"
port=${2:-18089}
make_folder

start() {
    start_server "$port" --workers "${WORKERS:-4}"
    wait_for "$inbox/done"
}

# Brings a file under a name, and waits for its verdict.
arrive() {
    bring "$1" "$2"
    wait_for "$inbox/done/$2"
}

read_reply() {
    curl -sSg --retry 20 --retry-connrefused "http://127.0.0.1:$port/thredds/dodsC/gfs/gfs_best.ncd.dods?time,time_run"
}

# Brings back with these words, and compares the line and the files that then lie in the folder.
compare() {
    line=$1 files=$2
    shift 2
    said=$("$top/package/fmrcd-bring-back" "$@")
    [ "$said" = "$line" ] || { echo "it says '$said', not '$line'"; exit 1; }
    came=$(cd "$inbox" && find . -maxdepth 1 -type f | sort | sed 's/^..//' | tr "\n" " ")
    [ "$came" = "$files" ] || { echo "brought back: $came, not $files"; exit 1; }
}

start
arrive "$data/gfs_20240101_0000.nc" gfs_20240101_0000_first.nc
arrive "$data/gfs_20240101_0600.nc" gfs_20240101_0600_second.nc
arrive "$data/gfs_20240101_0600.nc" gfs_20240101_0600_third.nc
arrive /dev/null gfs_20240101_0600_third.nc.retract
arrive "$data/gfs_20240101_0600.nc" gfs_20240101_0600_fourth.nc
arrive /dev/null gfs_20240101_0600_fourth.nc.retract
arrive "$data/gfs_20240101_0600.nc" gfs_20240101_0600_fourth.nc
read_reply > "$folder/before"
end_process
touch "$inbox/STOP"
compare "brought back 3, stay: older 0, taken back 0, without room 0" \
    "gfs_20240101_0000_first.nc gfs_20240101_0600_fourth.nc gfs_20240101_0600_second.nc " "$inbox"
start
wait_for "$inbox/done/gfs_20240101_0600_second.nc"
read_reply > "$folder/after"
cmp "$folder/before" "$folder/after"
end_process

# Makes an empty folder of a server.
afresh() {
    rm -r "$inbox"
    mkdir "$inbox" "$inbox/done" "$inbox/later" "$inbox/refused" "$inbox/taken"
}

# The first bytes of a file with this number of records.
records() {
    printf 'CDF\1'
    # shellcheck disable=SC2059  # the bytes of a number
    printf "$(printf '\\%03o\\%03o\\%03o\\%03o' 0 0 $(($1 / 256)) $(($1 % 256)))"
    printf '\0\0\0\12\0\0\0\1\0\0\0\4time\0\0\0\0'
}

# By age: the name says the run; without one, the time at which it was written does.
afresh
late=$(date -u -d "1 hour ago" +gfs_%Y%m%d_%H%M.nc)
early=$(date -u -d "9 hours ago" +gfs_%Y%m%d_%H%M.nc)
gone=$(date -u -d "11 hours ago" +gfs_%Y%m%d_%H%M.nc)
for name in "$late" "$early" "$gone" new.nc old.nc; do
    records 3 > "$inbox/done/$name"
done
touch -d "11 hours ago" "$inbox/done/old.nc"
compare "brought back 3, stay: older 2, taken back 0, without room 0" "$early $late new.nc " "$inbox" --keep 36000

# The file in `later` is the one that came last. A word that came before a file takes nothing back, one that came after
# it does, also where it lies in `refused`. A file that lies in the folder stays the one of its name.
afresh
for name in a b c d; do
    records 3 > "$inbox/done/gfs_20240101_0000_$name.nc"
done
: > "$inbox/done/gfs_20240101_0000_a.nc.retract"
sleep 0.1
records 5 > "$inbox/later/gfs_20240101_0000_a.nc"
: > "$inbox/refused/gfs_20240101_0000_b.nc.retract"
records 5 > "$inbox/gfs_20240101_0000_c.nc"
compare "brought back 2, stay: older 0, taken back 1, without room 0" \
    "gfs_20240101_0000_a.nc gfs_20240101_0000_c.nc gfs_20240101_0000_d.nc " "$inbox"
records 5 | cmp - "$inbox/gfs_20240101_0000_a.nc"
records 5 | cmp - "$inbox/gfs_20240101_0000_c.nc"

# Files of this number of records each, of the runs from one number to another.
many() {
    # shellcheck disable=SC2046  # a file a word
    records "$1" | tee $(seq -f "$inbox/done/gfs_2024%g_0000.nc" "$2" "$3") > /dev/null
}

# Brings back, and compares the line and the name of the first file that stays.
compare_many() {
    said=$("$top/package/fmrcd-bring-back" "$inbox")
    stays=$(cd "$inbox/done" && echo *.nc)
    [ "$said" = "$1" ] && [ "$stays" = "$2" ] || { echo "it says '$said', and there stays $stays"; exit 1; }
}

# The newest come where there is no room for all: by the number of files, of times, and of bytes.
afresh
for first in 1000 2000 3000 4000; do
    many 3 $first $((first + 499))
    many 3 $((first + 500)) $((first + 999))
done
many 3 5000 5097
compare_many "brought back 4096, stay: older 0, taken back 0, without room 2" \
    "gfs_20241000_0000.nc gfs_20241001_0000.nc"
afresh
many 4096 1000 1065
mv "$inbox/done/gfs_20241000_0000.nc" "$inbox"
compare_many "brought back 63, stay: older 0, taken back 0, without room 2" "gfs_20241001_0000.nc gfs_20241002_0000.nc"
afresh
many 3 1001 1007
truncate -s 536870912 "$inbox"/done/*.nc
compare_many "brought back 6, stay: older 0, taken back 0, without room 1" gfs_20241001_0000.nc

# The unit's line that deletes what came longer ago than runs are kept.
afresh
many 3 1001 1002
: > "$inbox/done/gfs_20241001_0000.nc.retract"
sleep 2.5
many 3 1003 1003
line=$(sed -n 's/^ExecStartPre=-.usr.bin.\(find .*\)/\1/p' "$top/docs/fmrcd@.service")
(cd "$folder" && KEEP=2 sh -fc "$line")
[ "$(ls "$inbox/done")" = gfs_20241003_0000.nc ] || { echo "there is left $(ls "$inbox/done")"; exit 1; }
echo "what was held came back, and the newest where there is no room for all; what is old was deleted"
