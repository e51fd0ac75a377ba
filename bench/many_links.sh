#!/bin/sh
# Measures the server while 10,000 connections are open and idle and 1,000 readers take a variable of 12 MB at 20 KB a
# second, beside nginx, which sends files of the same bytes and has none of them: requests a second of the best view's
# structure text and bytes a second of the variable, over 64 connections and over 1,000, as bench/beside_nginx.sh does
# it. It also shows the memory of an idle connection and of a slow reader, whether all of these are kept and readers get
# their bytes, and how long it takes from a file's rename until a reply has it. 100 more links send a byte each five
# seconds beside them, and have to be ended 30 to 32 seconds after they came. Once all have gone, memory and descriptors
# have to be as before.
# Use: bench/many_links.sh [PROGRAM] [TURNS]; by default the proved program, and 3 turns, which take four minutes. More
# than 5 would outlast the patience with an idle connection. The status is 1 where something isn't reached. nginx and
# wrk are installed where they are missing.
set -eu
. "$(dirname "$0")/common.sh"
use_program "$@"
"$top/bench/packages.sh" nginx=nginx wrk=wrk
make_folder
python3 -B "$top/bench/many_links.py" "$program" "$folder" "${2:-3}"
