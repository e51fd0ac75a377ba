#!/bin/sh
# Reads from the built program by the clients that users have, unchanged: ncdump, nccopy, getdap, ncks, CDO, and
# Python's netCDF4 and xarray. Five files of overlapping runs come into a folder. Each client reads each view: whole
# variables, slabs, dates and attributes have to be what it reads in the files themselves, where the file and the time
# of each row are worked out here. The same views are written as files by `extract`, in both versions, and ncdump, CDO
# and xarray read these. A request over the limit has to fail, and the server has to go on. Two collections of one
# server are read in turns. At the end stands whether what docs/CLIENTS.md says that a client cannot do is still so.
# Clients that are missing are installed by apt-get, which asks for root. It ends within four minutes after that, with
# status 0 where nothing differs.
# Use: [WORKERS=1] clients/clients.sh [PROGRAM]; by default the proved program, which 'make build' leaves, with 4
# workers.
set -eu
. "$(dirname "$0")/../bench/common.sh"
use_program "$@"
python=/usr/bin/python3

has_all() {
    for name in ncdump nccopy getdap ncks cdo; do
        command -v "$name" > /dev/null || return 1
    done
    "$python" -c 'import netCDF4, xarray' 2> /dev/null
}

as_root() {
    if [ "$(id -u)" = 0 ]; then "$@"; else sudo "$@"; fi
}

install() {
    as_root env DEBIAN_FRONTEND=noninteractive apt-get -qq -o DPkg::Lock::Timeout=300 install -y \
        --no-install-recommends netcdf-bin libdap-bin nco cdo python3-netcdf4 python3-xarray > "$folder/apt" 2>&1
}

make_folder
has_all || install || { as_root apt-get -qq update && install; } || { cat "$folder/apt" >&2; exit 2; }
has_all || { echo "a client is missing" >&2; exit 2; }
dpkg-query -W -f '${Package} ${Version}\n' netcdf-bin libnetcdf19 libdap-bin nco cdo python3-netcdf4 python3-xarray \
    2> "$folder/none" || true

# Clients look for settings in the home folder, and libdap leaves some there.
HOME=$folder TMPDIR=$folder LC_ALL=C.UTF-8 no_proxy=127.0.0.1 "$python" -B "$top/clients/check.py" "$program"
