#!/bin/sh
# Proves and builds a program whose source the caller wrote into a folder of bench/crates.sh, and prints where it lies.
# It uses what the gate proved on this machine. What isn't kept there is proved first, which may take an hour.
# Without arguments the program has to write nothing, since `rt ci` runs it so.
# Use: bench/build.sh FOLDER NAME.
set -eu
folder=$1 name=$2
program=$folder/crates/$name/out/$name
(cd "$folder/crates/$name" && rt fmt) > "$folder/build.log" 2>&1 || { cat "$folder/build.log" >&2; exit 2; }
(cd "$folder" && rt ci) > "$folder/build.log" 2>&1 || true
[ -x "$program" ] || { tail -n 60 "$folder/build.log" >&2; exit 2; }
echo "$program"
