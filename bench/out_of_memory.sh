#!/bin/sh
# Lets memory run out under the built program, in three ways. Each request for memory of runs of `once` is refused in
# turn, and of `serve` with a folder, and with two connections at once. The address space of runs of both is made
# smaller step by step. And all memory is refused to a server for a while. Each run has to end with its status or with
# 4. On a connection whole replies are sent, and then nothing or the reply that says so. Each file lies where its
# verdict says. Once memory is back the server answers.
# Use: bench/out_of_memory.sh [PROGRAM]; by default the proved program, which 'make build' leaves. It shows its figures,
# and ends with status 0 where all is as it has to be. It takes some four minutes.
set -eu
. "$(dirname "$0")/common.sh"
use_program "$@"
make_folder
cc -shared -fPIC -O2 -Wall -o "$folder/refused.so" "$top/bench/refused_memory.c"
status=0
python3 -B "$top/bench/out_of_memory_once.py" "$program" "$folder" "$data" || status=1
python3 -B "$top/bench/out_of_memory_serve.py" "$program" "$folder" "$data" || status=1
exit $status
