#!/bin/sh
# Fuzzes the built program by AFL++ of Debian, in four ways: `check` of a file; `once` with it as the prototype and as
# a file of it; `once` with it as a file over the sample; and `once` with it as a stream of requests. Seeds are the
# sample files and what rows describe. The program isn't instrumented, so its answers guide the fuzzer:
# bench/fuzz_target.c. No run may end by a signal, with a status or a line that may not be, or after more than a
# second; inputs have at most 64 KB. What is found is left in a folder that is named at the end, and the status is 1.
# Use: bench/fuzz.sh [PROGRAM] [SECONDS] [check|proto|load|stream ..]; by default the proved program, an hour for each
# of the four ways. Its package is installed where it is missing, which wants root.
set -eu
. "$(dirname "$0")/common.sh"
use_program "$@"
seconds=${2:-3600}
if [ $# -lt 2 ]; then shift $#; else shift 2; fi
[ $# -gt 0 ] || set -- check proto load stream
"$top/bench/packages.sh" afl-fuzz=afl++
make_folder
wrong=0
# What was found stays.
trap '[ $wrong != 0 ] || rm -r "$folder"' EXIT
sample=$folder/gfs_20240101_0600.nc
cp "$data/gfs_20240101_0600.nc" "$sample"
best=/thredds/dodsC/gfs/gfs_best.ncd
printf 'GET %s.das HTTP/1.1\r\n\r\nGET %s.dods HTTP/1.1\r\n\r\n' "$best" "$best" > "$folder/requests"
python3 -B "$top/bench/fuzz_seeds.py" "$top" "$folder/seeds"
cc -O2 -Wall -o "$folder/target" "$top/bench/fuzz_target.c" /usr/lib/afl/afl-compiler-rt.o

# The number of a field in what the fuzzer counts.
count() {
    sed -n "s/^$2 *: *//p" "$folder/$1/default/fuzzer_stats"
}

# How many of the inputs that took over a second still do alone: others ran while the machine was busy.
slow_alone() {
    slow=0
    for found in "$folder/$1/default/hangs/id"*; do
        [ -e "$found" ] || continue
        cp "$found" "$2"
        got=0
        timeout 1 "$folder/target" "$program" "$1" "$sample" "$folder/requests" "$2" > "$folder/$1.alone" 2>&1 || got=$?
        [ "$got" = 0 ] || { slow=$((slow + 1)); echo "$found: $got" >&2; }
    done
    echo "$slow"
}

export AFL_SKIP_CPUFREQ=1 AFL_NO_UI=1 AFL_NO_AFFINITY=1 AFL_I_DONT_CARE_ABOUT_MISSING_CRASHES=1 AFL_FAST_CAL=1
for mode in "$@"; do
    seeds=files
    [ "$mode" != stream ] || seeds=streams
    input=$folder/at.$mode/gfs_20240101_0000.nc
    mkdir "$folder/at.$mode"
    timeout $((seconds + 600)) afl-fuzz -i "$folder/seeds/$seeds" -o "$folder/$mode" -V "$seconds" -t 1000 -m none \
        -G 65536 -f "$input" -- \
        "$folder/target" "$program" "$mode" "$sample" "$folder/requests" "$input" > "$folder/$mode.log" 2>&1 || {
        tail -n 20 "$folder/$mode.log" >&2
        wrong=1
        break
    }
    crashes=$(count "$mode" saved_crashes)
    slow=$(slow_alone "$mode" "$input")
    echo "$mode: $(count "$mode" execs_done) runs in $seconds s," \
        "$(count "$mode" corpus_found) more inputs with other answers, $crashes wrong, $slow over a second"
    [ "$crashes$slow" = 00 ] || wrong=1
done
[ $wrong = 0 ] || echo "what was found lies in $folder, as MODE/default/crashes and hangs"
exit $wrong
