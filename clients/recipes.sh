#!/bin/sh
# Runs the recipes of docs/USING.md over files that the tools themselves make. Each file is refused with its number, is
# converted by the page's own words, and is taken then. What comes out is served, and the values and dates that the
# server shows are those of the file. The page's lines for these tools are run too.
# It ends within two minutes, with status 0 where all is as it must be. Tools that are missing are installed by
# apt-get, which asks for root.
# Use: clients/recipes.sh [PROGRAM]; by default the proved program, which 'make build' leaves.
set -eu
. "$(dirname "$0")/../bench/common.sh"
use_program "$@"
"$top/bench/packages.sh" ncgen=netcdf-bin ncatted=nco cdo=cdo curl=curl
make_folder
cd "$folder"
export LC_ALL=C.UTF-8 HOME="$folder" no_proxy=127.0.0.1
failures=0
refusals=0
servers=0
shown=0

# Says what is wrong, and goes on.
wrong() {
    echo "$1: $2"
    failures=$((failures + 1))
}

# A run as text: its first value, the type and the attributes of `t`, the units and the values of its times, and the
# latitudes.
text_of_run() {
    cat << END
netcdf run {
dimensions: time = UNLIMITED ; lat = 3 ; lon = 4 ;
variables:
    double time(time) ; time:units = "$4" ; time:calendar = "standard" ; time:axis = "T" ;
    double lat(lat) ; lat:units = "degrees_north" ; lat:standard_name = "latitude" ;
    double lon(lon) ; lon:units = "degrees_east" ; lon:standard_name = "longitude" ;
    $2 t(time, lat, lon) ; $3
data:
    time = $5 ; lat = $6 ; lon = 0, 10, 20, 30 ;
    t = $(seq -s ', ' "$1" "$(($1 + $(echo "$5" | tr ',' '\n' | wc -l) * 12 - 1))") ;
}
END
}

# A file of a kind of the format, of a run as text_of_run says it.
made() {
    text_of_run "$((270 + $3))" "$4" "$5" "$6" "$7" "$8" | ncgen -k "$2" -o "$1" -
}

kelvin='t:units = "K" ;'
since="hours since 2024-01-01"
south="10, 20, 30"

# The file that most recipes begin with: its name, the hour of its run, and the kind of the format.
plain() {
    made "$1" "${3:-classic}" "$2" float "$kelvin" "$since" "$(hours_of "$2")" "$south"
}

# Three times from an hour on.
hours_of() {
    echo "$1, $(($1 + 1)), $(($1 + 2))"
}

# The name of the run of an hour.
named() {
    printf 'gfs_20240101_%02d00.nc' "$1"
}

# Sees that a file is refused with a number over a prototype.
refused() {
    refusals=$((refusals + 1))
    "$program" once --name gfs --proto "$2" "put:$3" > none 2> line || true
    [ "$(cat line)" = "refused $3 code $4" ] || wrong "$1" "'$(cat line)' before, not code $4"
}

# Sees that it is taken.
taken() {
    "$program" once --name gfs --proto "$2" "put:$3" > none 2> line || wrong "$1" "'$(cat line)' after"
}

# Runs words, for which the page's words stand first.
run() {
    grep -qF -e "\`$1\`" "$top/docs/USING.md" || wrong "docs/USING.md" "it has no \`$1\`"
    (eval "$2") > told 2>&1 || wrong "$1" "it fails: $(head -c 300 told)"
}

# Runs words of the page from one file to another.
by_page() {
    run "$1" "$(echo "${1% IN OUT}" | sed "s|PROTOTYPE|$proto|") '$2' '$3'"
}

# A recipe: its name, the number of the fault, the hour of the run, the file, and the page's words.
recipe() {
    file=$(named "$3")
    mv "$4" "$file"
    refused "$1" "$proto" "$file" "$2"
    by_page "$5" "$file" "out/$file"
    taken "$1" "$proto" "out/$file"
}

# Starts a server of a name over a prototype.
start() {
    name=$1
    mkdir -p "served/$name"
    servers=$((servers + 1))
    port=$((20000 + $$ % 20000 + servers))
    "$program" serve --name gfs --proto "$2" --listen "127.0.0.1:$port" --workers 2 "served/$name" > none 2>&1 &
    process=$!
}

# Brings it a file, and sees that the file comes to a folder within ten seconds.
brought() {
    cp "$1" "served/$name/part"
    mv "served/$name/part" "served/$name/$(basename "$1")"
    wait_for "served/$name/$2/$(basename "$1")" 2> told || wrong "$name" "$1 doesn't come to $2"
}

# The values of a variable as text, and the dates of the times.
values() {
    ncdump -p 9,17 -v "$1" "$2" | sed -n "/^data:/,\$p" | sed -n "/^ $1 =/,/;/p"
    ncdump -t -v time "$2" | sed -n "/^data:/,\$p" | sed -n "/^ time =/,/;/p"
}

# Serves these files over a prototype, and compares what their runs show with what they hold, or what the file of the
# name in `same` holds.
served() {
    var=$3
    start "$1" "$2"
    shift 3
    for file; do
        brought "$file" "done"
        run=$(basename "$file" .nc | sed 's/^gfs_\(........\)_\(....\)$/\1T\200Z/')
        same=same/$(basename "$file")
        [ -e "$same" ] || same=$file
        values "$var" "$same" > held
        nccopy "http://127.0.0.1:$port/thredds/dodsC/gfs/runs/gfs_RUN_$run" copy.nc > told 2>&1 || : > copy.nc
        values "$var" copy.nc > seen 2>> told || true
        if [ ! -s held ] || ! cmp -s held seen; then
            wrong "$name" "$var of $file is shown otherwise: $(diff held seen | head -n 5) $(head -c 200 told)"
        fi
        shown=$((shown + 1))
    done
    end_process
}

proto=$folder/proto.nc
plain "$proto" 0
mkdir out packed grib unpacked same

echo "formats"
plain four.nc 1 netCDF-4
recipe "netCDF-4" 1 1 four.nc 'nccopy -k 64-bit-offset IN OUT'
plain five.nc 2 cdf5
recipe "CDF-5" 2 2 five.nc 'nccopy -k 64-bit-offset IN OUT'

echo "GRIB"
for hour in 0 3; do
    plain "grib/$hour.nc" "$hour"
    cdo -s -f grb copy "grib/$hour.nc" "grib/$hour.grb"
    by_page 'cdo -f nc2 copy IN OUT' "grib/$hour.grb" "grib/$(named "$hour")"
done
refused "GRIB" "$proto" grib/3.grb 1
var=$(ncks -m --cdl "grib/$(named 3)" | sed -n 's/^ *float \([A-Za-z0-9_]*\)(time.*/\1/p')
served GRIB "grib/$(named 0)" "$var" "grib/$(named 0)" "grib/$(named 3)"

echo "packing"
for hour in 0 4; do
    plain "packed/$hour.nc" "$hour"
    ncpdq -O -P all_new "packed/$hour.nc" "packed/$(named "$hour")"
    by_page 'ncpdq -U IN OUT' "packed/$(named "$hour")" "unpacked/$(named "$hour")"
done
refused "packing" "packed/$(named 0)" "packed/$(named 4)" 57
start "another packing" "packed/$(named 0)"
brought "packed/$(named 0)" "done"
brought "packed/$(named 4)" refused
end_process
served unpacked "unpacked/$(named 0)" t "unpacked/$(named 0)" "unpacked/$(named 4)"

echo "attributes"
made unit.nc classic 5 float 't:units = "degK" ;' "$since" "$(hours_of 5)" "$south"
recipe "unit" 57 5 unit.nc 'ncatted -O -a units,t,o,c,K IN OUT'
made fill.nc classic 6 float "$kelvin t:_FillValue = -9.f ;" "$since" "$(hours_of 6)" "$south"
recipe "fill value" 57 6 fill.nc 'ncatted -O -a _FillValue,t,d,, IN OUT'

echo "times"
made days.nc classic 7 float "$kelvin" "days since 2024-01-01" "0.2916666666666667, 0.3333333333333333, 0.375" "$south"
recipe "hours in days" 46 7 days.nc 'cdo settunits,hours IN OUT'
made after.nc classic 8 float "$kelvin" "hours after 2024-02-28" "$(hours_of 8)" "$south"
recipe "units" 15 8 after.nc "ncatted -O -a units,time,m,c,'hours since 2024-02-28 00:00:00' IN OUT"
plain calendar.nc 9
ncatted -O -a calendar,time,o,c,usual calendar.nc
recipe "calendar" 16 9 calendar.nc 'ncatted -O -a calendar,time,o,c,standard IN OUT'
made day.nc classic 10 float "$kelvin" "$since" "$(seq -s ', ' 10 33)" "$south"
ncks -O -d time,23 day.nc last.nc
ncrcat -O day.nc last.nc twice.nc 2> told
recipe "a time twice" 48 10 twice.nc 'ncks -d time,0,23 IN OUT'

echo "runs"
plain x.nc 11
refused "no run in the name" "$proto" x.nc 45
cp x.nc "out/$(named 11)"
taken "no run in the name" "$proto" "out/$(named 11)"
words='run=0.0; run@units="hours since 2024-01-01 06:00:00"; run@standard_name="forecast_reference_time"'
by_page "ncap2 -s '$words' IN OUT" x.nc run.nc
taken "no run anywhere" "$proto" run.nc
plain each.nc 12
ncap2 -s 'reftime=time*0; reftime@standard_name="forecast_reference_time"' each.nc reftime.nc
recipe "a run for each time" 45 12 reftime.nc 'ncks -x -v reftime IN OUT'

echo "grids"
made north.nc classic 13 float "$kelvin" "$since" "$(hours_of 13)" "30, 20, 10"
recipe "from north to south" 51 13 north.nc 'cdo invertlat IN OUT'
made other.nc classic 14 float "$kelvin" "$since" "$(hours_of 14)" "8, 18, 32"
recipe "another grid" 51 14 other.nc 'cdo remapbil,PROTOTYPE IN OUT'

echo "variables"
made double.nc classic 15 double "$kelvin" "$since" "$(hours_of 15)" "$south"
recipe "another kind" 50 15 double.nc "ncap2 -s 't=float(t)' IN OUT"
plain turned.nc 16
ncks -O --fix_rec_dmn time turned.nc fixed.nc
ncpdq -O -a lat,lon,time fixed.nc turned.nc
recipe "time last" 50 16 turned.nc 'ncpdq -a time,lat,lon IN OUT'
ncap2 -O -s 'u=t*2; w=t*3' "$proto" more.nc
plain lacking.nc 17
ncap2 -O -s 'u=t*2' lacking.nc "$(named 17)"
refused "a variable that isn't there" more.nc "$(named 17)" 49
by_page 'ncks -v t,u IN OUT' more.nc fewer.nc
taken "a variable that isn't there" fewer.nc "$(named 17)"
ncrename -O -v t,10m.wind "$proto" point.nc > told 2>&1
refused "a name with a point" point.nc point.nc 43
by_page 'ncrename -O -v 10m.wind,wind10m IN OUT' point.nc wind.nc
cp wind.nc "$(named 0)"
taken "a name with a point" wind.nc "$(named 0)"

echo "sizes"
made many.nc classic 18 float "$kelvin" "$since" "$(seq -s ', ' 18 4114)" "$south"
mv many.nc "$(named 18)"
refused "4,097 times" "$proto" "$(named 18)" 53
by_page 'cdo splitsel,4096 IN OUT' "$(named 18)" part
mv "$(find . -name 'part0*.nc' | sort | head -n 1)" "out/$(named 18)"
head -c 600 "$proto" > "$(named 19)"
refused "a file that is still written" "$proto" "$(named 19)" 14
plain "out/$(named 19)" 19

# Units as wgrib2, ROMS and SCHISM write them, an hour alone, and a date without hyphens, which ncdump reads otherwise:
# dates are compared with those of the same file before.
echo "units that are taken"
hour=20
for units in "2024-01-01 00:00:00.0 0:00" "2024-01-01 00:00:00 GMT" "2024-01-01 00:00:00 +0000" "20240101T00Z"; do
    plain "same/$(named "$hour")" "$hour"
    ncatted -O -a "units,time,m,c,hours since $units" "same/$(named "$hour")" "out/$(named "$hour")"
    hour=$((hour + 1))
done

echo "lines for tools"
start tools "$proto"
brought "out/$(named 1)" "done"
brought "out/$(named 2)" "done"
export URL="http://127.0.0.1:$port/thredds/dodsC/gfs/gfs_best.ncd"
# shellcheck disable=SC2016  # the page's words
for words in 'ncdump -h "$URL"' 'ncdump -v t "$URL?t[0:1:0][0:1:1][0:1:1]"' 'nccopy "$URL" best.nc' \
    'cdo -timmean -selname,t "$URL" mean.nc' 'ncks -v t -d time,0,3 "$URL" first.nc' \
    'curl -gf "$URL.dds?t[0:1:3][0:1:1][0:1:1]"'; do
    run "$words" "$words"
done
end_process

echo "served"
served all "$proto" t out/gfs_*.nc
echo "$refusals refusals, $shown files shown, $failures wrong"
[ "$failures" = 0 ]
