#!/bin/sh
# Serves the two sample runs as the collection `gfs`, says what can be opened and how, and waits until it is ended.
# Use: tests/serve.sh [PROGRAM] [PORT]; by default the proved program, which 'make build' leaves, and port 8080.
set -eu
. "$(dirname "$0")/../bench/common.sh"
use_program "$@"
port=${2:-8080}
make_folder
start_server "$port" > "$folder/end"

# Brings a sample file, and waits for its verdict.
arrive() {
    bring "$data/$1" "$1"
    while [ ! -e "$inbox/done/$1" ]; do
        kill -0 "$process" 2> /dev/null || {
            process=
            echo "The server ended: $(cat "$folder/end"). Another port may do: make serve PORT=8081" >&2
            exit 1
        }
        sleep 0.05
    done
}

arrive gfs_20240101_0000.nc
arrive gfs_20240101_0600.nc
base=http://127.0.0.1:$port/thredds/dodsC/gfs
cat << END

A server holds two runs of 2024-01-01, of 00:00 and of 06:00. Its datasets:

  best time series           $base/gfs_best.ncd
  best, 6 hours on at least  $base/best/gfs_BestGE_21600s
  a run                      $base/runs/gfs_RUN_20240101T060000Z
  6 hours after each run     $base/offset/gfs_Offset_21600s
  12:00 of each run          $base/forecast/gfs_ConstantForecast_20240101T120000Z

To open one:

  curl -g '$base/gfs_best.ncd.dds'
  ncdump $base/gfs_best.ncd
  python3 -c 'import xarray; print(xarray.open_dataset("$base/gfs_best.ncd"))'

To take a run back, and to bring it again:

  touch $inbox/gfs_20240101_0600.nc.retract
  mv $inbox/done/gfs_20240101_0600.nc $inbox/

Ctrl-C ends the server.
END
wait "$process"
