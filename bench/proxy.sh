#!/bin/sh
# Runs two servers behind nginx on this machine, with docs/nginx.conf but for its ports and its folders. It checks that
# replies through nginx are those that the servers give, also HEAD, errors, compressed replies, a large reply and TLS;
# that nccopy copies the same where it asks for compression; that `fmrcd pull` says the same of each reply; that the
# page, the fields for other sites and the log are there; and that connections are kept on both sides. While files
# arrive, no reply may be older than one that any client had before it asked, also from the cache, nor may one come from
# the cache that is of before the server was started again.
# Use: [WORKERS=1] bench/proxy.sh [PROGRAM]; by default the proved program, which 'make build' leaves, with 8 workers a
# server. It ends within a minute, with status 0 where all is as it must be. nginx, openssl and nccopy are installed
# where they are missing.
set -eu
. "$(dirname "$0")/common.sh"
use_program "$@"
"$top/bench/packages.sh" nginx=nginx openssl=openssl nccopy=netcdf-bin
make_folder
python3 -B "$top/bench/proxy_checks.py" "$program" "$folder"
