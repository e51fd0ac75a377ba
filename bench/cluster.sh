#!/bin/sh
# Runs three servers on loopback addresses behind nginx, or behind HAProxy, as docs/CLUSTER.md says. Producers bring
# runs into a spool, correct them and take them back, and `fmrcd-feed` brings them to each server by rsync. 32 clients,
# each with an address of its own, read for two minutes. Meanwhile one server is killed and started again as its unit
# does it, the way from the spool to another one is silent for 20 seconds, the third is itself silent for 10, and all
# are for 2. Each reply has to be the defined one for its server at its revision, after the operations that the server's
# lines say. Each request has its reply within 3 seconds; one whose reply is cut as its server dies is made again in
# that time. Only where a server had just fallen silent it may take 12. No client comes to a server before it holds
# again what it held. At the end all servers hold what lies in the spool, and `pull` has the same sum at each. Then 1, 2
# and 3 of them are loaded through nginx. What isn't so is shown, and the status is 1.
# Use: [PULL=COMMAND] bench/cluster.sh [PROGRAM] [SECONDS] [nginx | haproxy]; by default the proved program, 120 seconds
# and nginx. COMMAND stands for the program's `pull`. nginx, rsync, HAProxy and wrk are installed where they are
# missing.
set -eu
. "$(dirname "$0")/common.sh"
use_program "$@"
"$top/bench/packages.sh" nginx=nginx rsync=rsync haproxy=haproxy wrk=wrk
make_folder
# The daemon of rsync may read as another user.
chmod 755 "$folder"
python3 -B "$top/bench/cluster.py" "$program" "$folder" "${2:-120}" "${3:-nginx}"
