#!/bin/sh
# Opens the page web/index.html in headless Chromium, behind nginx with docs/nginx.conf. The page stays open while files
# arrive and one is taken back. What it says of itself (revision, rows, runs, marks) and the bars that it has drawn are
# compared each time with the files that the server holds. On a screen of a phone nothing may lie outside.
# Use: tests/page.sh [PROGRAM] [PICTURE]; by default the proved program, which 'make build' leaves. A picture of the
# page is written to PICTURE, where that is given. It ends within a minute, with status 0 where all is as it must be.
# Chromium and nginx are installed where they are missing.
set -eu
. "$(dirname "$0")/../bench/common.sh"
use_program "$@"
"$top/bench/packages.sh" nginx=nginx openssl=openssl chromium=chromium
make_folder
PYTHONPATH=$top/bench python3 -B "$top/tests/page.py" "$program" "$folder" "${2-}"
