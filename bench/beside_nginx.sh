#!/bin/sh
# Measures the server beside nginx, which sends files of the same bytes: requests a second of the best view's structure
# text, and of a few of its times, over 400 small files; and bytes a second of a variable of 12 MB and of slabs of it.
# Each with 1 and 4 kept connections, while no file arrives and while one does each second. Both servers are loaded in
# turns by one program, `wrk`, for a second each; the middle one of the ratios is what counts, since the machine may be
# doing other work. It also shows how long it takes from a file's rename until a reply has it, and the memory beside
# that of the files. It ends with 1 where a ratio is below 0.85, or that of an area below 0.6.
# Use: bench/beside_nginx.sh [PROGRAM] [TURNS]; by default the proved program, and 5 turns, which take four minutes.
# nginx and wrk are installed where they are missing.
set -eu
. "$(dirname "$0")/common.sh"
use_program "$@"
"$top/bench/packages.sh" nginx=nginx wrk=wrk
make_folder
python3 -B "$top/bench/beside_nginx.py" "$program" "$folder" "${2:-5}"
