#!/bin/sh
# Runs the built program as a person would, and compares its exit statuses and which stream each line goes to.
# Use: tests/exits.sh [PROGRAM]; by default the proved program. Ends with status 0 where all runs are as they must be.
set -u
. "$(dirname "$0")/../bench/common.sh"
use_program "$@"
make_folder
failures=0
runs=0

sample=$folder/gfs_20240101_0000.nc
cp "$data/gfs_20240101_0000.nc" "$sample"
head -c 351 "$sample" > "$folder/cut.nc"
: > "$folder/none"
printf 'GET /thredds/dodsC/gfs/gfs_best.ncd.dds HTTP/1.1\r\n\r\n' > "$folder/request"
head -c 20 "$folder/request" > "$folder/begun"
printf 'POST /\r\n\r\n' > "$folder/other"
cp "$sample" "$folder/none.nc"
truncate -s 536870912 "$folder/most.nc"
truncate -s 536870913 "$folder/long.nc"

# Whether a stream holds a text: "" is none, "*" any, and "~" and a text one in which that stands.
holds() {
    case $1 in
        "*") ;;
        "~"*) grep -qF -- "${1#\~}" "$2" ;;
        *) [ "$(cat "$2")" = "$1" ] ;;
    esac
}

# Compares the last run: its name, its status, the status that is wanted, and what each stream is to hold.
compare() {
    runs=$((runs + 1))
    wrong=
    [ "$2" = "$3" ] || wrong="status $2, not $3"
    holds "$4" "$folder/out" || wrong="$wrong; standard output holds '$(head -c 200 "$folder/out")'"
    holds "$5" "$folder/err" || wrong="$wrong; standard error holds '$(head -c 200 "$folder/err")'"
    if [ -n "$wrong" ]; then
        echo "$1: $wrong"
        failures=$((failures + 1))
    fi
}

# Runs the program with this name of the run, the wanted status and texts, the input, and the words.
run() {
    name=$1 wanted=$2 out=$3 err=$4 input=$5
    shift 5
    "$program" "$@" < "$input" > "$folder/out" 2> "$folder/err"
    compare "$name" $? "$wanted" "$out" "$err"
}

# Sees that a run on a terminal, with these words behind a name and a line, says why they are bad in that line alone,
# after its own.
tells() {
    name=$1 line=$2
    shift 2
    runs=$((runs + 1))
    script -qec "'$program' $*" /dev/null < "$folder/none" 2>&1 | tr -d '\r' > "$folder/screen"
    [ "$(cat "$folder/screen")" = "bad words
$line" ] || {
        echo "$name: a person isn't told '$line', but '$(head -c 400 "$folder/screen")'"
        failures=$((failures + 1))
    }
}

# Sees that a run with these words behind a name and a text writes a text to standard output that has this one.
shows() {
    name=$1 text=$2
    shift 2
    run "$name" 0 "*" "" "$folder/none" "$@"
    grep -qF -e "$text" "$folder/out" || {
        echo "$name: no '$text'"
        failures=$((failures + 1))
    }
}

once="once --name gfs --proto $sample put:$sample ask:1"

# Texts that are asked for.
shows "the help" "Usage: fmrcd <COMMAND>" --help
for command in serve many once twod extract pull check load; do
    shows "the help of $command" "Usage: fmrcd $command" "$command" --help
done
version=$(sed -n 's/^## \([0-9][0-9.]*\).*/\1/p' "$top/CHANGELOG.md" | head -n 1)
run "the version" 0 "fmrcd $version" "" "$folder/none" --version
"$program" --help > /dev/full 2> "$folder/err"; status=$?; : > "$folder/out"
compare "a full device for the help" $status 7 "" ""

# `check` reports to standard output. Where words are bad, standard error says why.
no_file="fmrcd: the following required arguments were not provided: <FILE>; see 'fmrcd check --help'"
run "a sound file" 0 "ok CDF-1 dims 3 vars 4 records 3" "" "$folder/none" check "$sample"
run "a file cut short" 3 "refused $folder/cut.nc code 14" "" "$folder/none" check "$folder/cut.nc"
run "check without a file" 2 "bad words" "$no_file" "$folder/none" check
tells "check without a file on a terminal" "$no_file" check
missing="a command is missing: serve, many, once, twod, extract, pull, check or load"
run "no words" 2 "bad words" "fmrcd: $missing; see 'fmrcd --help'" "$folder/none"
run "a file that isn't there" 10 "no file $folder/absent" "" "$folder/none" check "$folder/absent"
run "a file of 512 MiB" 3 "refused $folder/most.nc code 1" "" "$folder/none" check "$folder/most.nc"
run "a file over 512 MiB" 10 "too long $folder/long.nc 536870913" "" "$folder/none" check "$folder/long.nc"
run "a folder" 5 "file fault $folder" "" "$folder/none" check "$folder"
run "a path through a file" 5 "file fault $sample/x" "" "$folder/none" check "$sample/x"

# `load` reports to standard output. The sums are those of a slow program that was written from the definitions alone.
run "one made file" 0 "files 1 rows 65 best 65 run 65 offset 1 forecast 1 sum 4478978" "" "$folder/none" load 1 1
run "40 made files" 0 "files 40 rows 2600 best 299 run 65 offset 40 forecast 11 sum 13936700" "" \
    "$folder/none" load 1 40
run "400 made files" 0 "files 400 rows 26000 best 2459 run 65 offset 400 forecast 11 sum 98319914" "" "$folder/none" \
    load 7 400
no_made="fmrcd: invalid value '0' for '<FILES>': it must be a number from 1 to 400, without leading zeros; \
see 'fmrcd load --help'"
run "no made file" 2 "bad words" "$no_made" "$folder/none" load 1 0
tells "no made file on a terminal" "$no_made" load 1 0

# `once` replies to standard output and reports to standard error.
# shellcheck disable=SC2086
{
run "a request" 0 "*" "" "$folder/request" $once
[ "$(wc -c < "$folder/out")" -eq 540 ] || { echo "a request: the reply isn't 540 bytes"; failures=$((failures + 1)); }
run "once without a step" 2 "" "bad words" "$folder/none" once --name gfs
tells "once without a step on a terminal" \
    "fmrcd: the following required arguments were not provided: --proto <PATH> <STEP>...; see 'fmrcd once --help'" \
    once --name gfs
run "input that ends" 11 "" "input ended" "$folder/begun" $once
run "no input" 11 "" "input ended" "$folder/none" $once
run "a head that is none" 0 "*" "" "$folder/other" $once
grep -q '^HTTP/1.1 400 Bad Request' "$folder/out" ||
    { echo "a head that is none: not refused"; failures=$((failures + 1)); }
run "a name without a run" 3 "" "refused $folder/none.nc code 45" "$folder/request" \
    once --name gfs --proto "$sample" "put:$folder/none.nc" ask:1
run "options behind the steps" 0 "*" "" "$folder/request" once "put:$sample" ask:1 --proto "$sample" --name=gfs
run "a prototype that isn't there" 10 "" "no file $folder/absent" "$folder/none" \
    once --name gfs --proto "$folder/absent" "put:$sample" ask:1
run "a folder as the file" 5 "" "file fault $folder" "$folder/none" \
    once --name gfs --proto "$sample" "put:$folder" ask:1
run "a word of once that isn't text" 2 "" "bad words" "$folder/none" once "$(printf '\377')"
no_text="fmrcd: word 2 isn't UTF-8 text; see 'fmrcd check --help'"
run "a word that isn't text" 2 "bad words" "$no_text" "$folder/none" check "$(printf '\377')"
run "a first word that isn't text" 2 "bad words" "fmrcd: word 1 isn't UTF-8 text; see 'fmrcd --help'" "$folder/none" \
    "$(printf 'once\377')"
tells "a word that isn't text on a terminal" "$no_text" check "$(printf '\377')"
run "a word of 100,000 bytes" 2 "bad words" "*" "$folder/none" "$(head -c 100000 /dev/zero | tr '\0' a)"
[ "$(wc -c < "$folder/err")" -lt 300 ] || { echo "a word of 100,000 bytes: a long line"; failures=$((failures + 1)); }

# `twod` writes its view to standard output and reports to standard error.
twod="twod --name gfs --proto $sample --service dds"
# shellcheck disable=SC2086
{
run "a two-dimensional view" 0 "~} gfs_fmrc;" "" "$folder/request" $twod "put:$sample"
run "a two-dimensional view without a run" 3 "" "refused twod code 37" "$folder/none" $twod expire:2024-01-01T00:00:00Z
run "twod with a request" 2 "" "bad words" "$folder/request" $twod "put:$sample" ask:1
"$program" $twod "put:$sample" > /dev/full 2> "$folder/err"; status=$?; : > "$folder/out"
compare "a full device for a two-dimensional view" $status 9 "" "link fault"
}

# `extract` writes its file to standard output and reports to standard error. A file that is made of all of a view is
# one that `check` takes.
extract="extract --name gfs --proto $sample --view gfs_best.ncd --format"
# shellcheck disable=SC2086
{
run "a view as a file" 0 "*" "" "$folder/request" $extract 2 "put:$sample"
cp "$folder/out" "$folder/view.nc"
run "a check of a view as a file" 0 "ok CDF-2 dims 3 vars 6 records 0" "" "$folder/none" check "$folder/view.nc"
run "a view as a file without a run" 3 "" "refused extract code 37" "$folder/none" \
    $extract 1 expire:2024-01-01T00:00:00Z
run "extract with a request" 2 "" "bad words" "$folder/request" $extract 1 "put:$sample" ask:1
"$program" $extract 1 "put:$sample" > /dev/full 2> "$folder/err"; status=$?; : > "$folder/out"
compare "a full device for a view as a file" $status 9 "" "link fault"
}

# `pull` reports to standard output.
run "a server that isn't there" 9 "link fault" "" "$folder/none" pull --connect 127.0.0.1:1 /x
run "an address that is none" 9 "link fault" "" "$folder/none" pull --connect nowhere /x
run "pull without a target" 2 "bad words" "*" "$folder/none" pull --connect 127.0.0.1:1

# `serve` reports to standard output, and tells what happens on standard error. Its inbox stops at once, and its one
# worker ends after one connection.
serve="serve --name gfs --proto $sample --listen"
port=$(free_port)
whole="$serve 127.0.0.1:$port --workers 1 --connections 1 $folder/inbox"
mkdir "$folder/inbox"
: > "$folder/inbox/STOP"

# Connects to the server that is run next, as soon as it listens.
connect() {
    curl -s --retry 20 --retry-connrefused --retry-delay 1 "http://127.0.0.1:$port/" > "$folder/reply" &
}

connect
nothing="published 0 retracted 0 expired 0 held 0 rows 0 revision 0"
run "a server that ends" 0 "$nothing" \
    "~Z serving gfs at 127.0.0.1:$port, 1 workers, folders $folder/inbox, room for " "$folder/none" $whole
wait
grep -q 'code = 32' "$folder/reply" || { echo "a server that ends: no reply"; failures=$((failures + 1)); }
connect
run "a quiet server" 0 "$nothing" "" "$folder/none" $whole --quiet
wait
connect
"$program" $whole > "$folder/out" 2> /dev/full; status=$?; : > "$folder/err"
compare "a full device for the lines of a server" $status 0 "$nothing" ""
wait
connect
cp "$sample" "$folder/inbox"
cp "$folder/cut.nc" "$folder/inbox"
: > "$folder/inbox/x.nc.retract"
run "a server that tells verdicts" 0 "published 1 retracted 0 expired 0 held 1 rows 3 revision 1" \
    "~Z published gfs_20240101_0000.nc revision 1 held 1 rows 3" "$folder/none" $whole
wait
for line in "refused cut.nc code 14 " "not held x.nc revision 1"; do
    grep -qF "Z $line" "$folder/err" || { echo "a server that tells verdicts: no '$line'"; failures=$((failures + 1)); }
done
grep -qvE '^[0-9]{4}-[0-9]{2}-[0-9]{2}T[0-9]{2}:[0-9]{2}:[0-9]{2}Z ' "$folder/err" && {
    echo "a server that tells verdicts: a line without the time"
    failures=$((failures + 1))
}
# A pipe that nobody reads takes 65,536 bytes. The lines after them are lost, and hold nothing up.
mkfifo "$folder/pipe"
sleep 100 < "$folder/pipe" &
reader=$!
for number in $(seq 1 1500); do
    : > "$folder/inbox/$number.nc"
done
connect
timeout 60 "$program" $whole > "$folder/out" 2> "$folder/pipe"; status=$?; : > "$folder/err"
compare "a pipe that nobody reads" $status 0 "$nothing" ""
kill $reader
wait
connect
"$program" $whole --quiet > /dev/full 2> "$folder/err"; status=$?; : > "$folder/out"
compare "a full device for the line of a server" $status 7 "" ""
wait
run "a door that can't be opened" 6 "door fault 0" "~failing nowhere: it can't be opened: " "$folder/none" \
    $serve nowhere "$folder/inbox"
run "an address of another machine" 6 "door fault 0" \
    "~failing 192.0.2.1:8080: it can't be opened: Cannot assign requested address (os error 99)" "$folder/none" \
    $serve 192.0.2.1:8080 "$folder/inbox"
if [ "$(id -u)" -eq 0 ] && command -v setpriv > /dev/null; then
    # A user without rights of its own, for whom folders have modes.
    chmod 755 "$folder"
    cp "$program" "$folder/fmrcd"
    mkdir -m 0 "$folder/closed"
    setpriv --reuid 54321 --clear-groups "$folder/fmrcd" $serve 127.0.0.1:0 "$folder/closed" \
        < "$folder/none" > "$folder/out" 2> "$folder/err"
    compare "an inbox that is not allowed" $? 8 "inbox fault 0" \
        "~failing $folder/closed: it can't be opened: Permission denied (os error 13)"
    # The same user, who may have one thread. The address can't be opened, and isn't asked for.
    setpriv --reuid 54321 --clear-groups prlimit --nproc=1 "$folder/fmrcd" $serve nowhere "$folder/inbox" \
        < "$folder/none" > "$folder/out" 2> "$folder/err"
    compare "threads that can't be started" $? 4 "no memory" ""
fi
run "an inbox that isn't there" 8 "inbox fault 0" "~failing $folder/absent: it can't be opened: No such file" \
    "$folder/none" $serve 127.0.0.1:0 "$folder/absent"
run "an inbox without a name" 8 "inbox fault 0" "~failing : it can't be opened: " "$folder/none" $serve 127.0.0.1:0 ""
run "a second inbox that is a file" 8 "inbox fault 1" "~failing $sample: it can't be opened: Not a directory" \
    "$folder/none" $serve 127.0.0.1:0 "$folder/inbox" "$sample"
run "a folder twice" 8 "inbox fault 1" "~failing $folder/inbox: the folder is in use" "$folder/none" \
    $serve 127.0.0.1:0 "$folder/inbox" "$folder/inbox"
run "a server whose prototype is cut short" 3 "refused $folder/cut.nc code 14" "" "$folder/none" \
    serve --name gfs --proto "$folder/cut.nc" --listen nowhere "$folder/inbox"
run "a server whose prototype isn't there" 10 "no file $folder/absent" "" "$folder/none" \
    serve --name gfs --proto "$folder/absent" --listen nowhere "$folder/inbox"
run "a second prototype that isn't there" 10 "no file $folder/absent" "" "$folder/none" \
    many --listen nowhere "gfs=$sample=$folder/inbox" "wave=$folder/absent=$folder/other"
run "a second collection whose folder isn't there" 8 "inbox fault 1" \
    "~Z wave failing $folder/absent: it can't be opened: No such file" "$folder/none" \
    many --listen 127.0.0.1:0 "gfs=$sample=$folder/inbox" "wave=$sample=$folder/absent"
no_folder="fmrcd: the following required arguments were not provided: <INBOX>...; see 'fmrcd serve --help'"
run "serve without a folder" 2 "bad words" "$no_folder" "$folder/none" $serve nowhere
tells "serve without a folder on a terminal" "$no_folder" $serve nowhere

# A stream that is closed or full.
"$program" check "$sample" > /dev/full 2> "$folder/err"; status=$?; : > "$folder/out"
compare "a full device" $status 7 "" ""
"$program" load 1 1 > /dev/full 2> "$folder/err"; status=$?
compare "a full device for the line of a load" $status 7 "" ""
"$program" check "$sample" >&- 2> "$folder/err"; status=$?
compare "standard output closed" $status 7 "" ""
"$program" check "$folder/cut.nc" > /dev/full 2> "$folder/err"; status=$?
compare "a full device for a line of another status" $status 3 "" ""
"$program" $once < "$folder/request" > /dev/full 2> "$folder/err"; status=$?
compare "a full device for a reply" $status 9 "" "link fault"
"$program" $once < "$folder/request" >&- 2> "$folder/err"; status=$?
compare "a reply to a closed stream" $status 9 "" "link fault"
"$program" $once <&- > "$folder/out" 2> "$folder/err"; status=$?
compare "input closed" $status 9 "" "link fault"
"$program" $once < "$folder/begun" > "$folder/out" 2> /dev/full; status=$?; : > "$folder/err"
compare "a report to a full device" $status 11 "" ""
}

echo "$runs runs, $failures wrong"
[ "$failures" -eq 0 ]
