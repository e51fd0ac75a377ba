#!/bin/sh
# What fmrcd-feed hands over from a spool to the folder of a server, without a server: files that are new or corrected,
# words that take one back and files that come after them; and what it says and does where the command fails, where a
# file and its word lie in the spool at once, and where it is started again.
# Use: tests/feed.sh. It ends within a minute. rsync is installed where it is missing.
set -eu
. "$(dirname "$0")/../bench/common.sh"
"$top/bench/packages.sh" rsync=rsync
make_folder
cd "$folder"
mkdir spool inbox
name=gfs_20240101_0000.nc

# The command fails while a file `broken` lies there.
cat > copy.sh << 'COPY'
[ ! -e broken ] && exec rsync --dirs --times --modify-window=-1 --delete --include='*.nc' --include='*.nc.retract' \
    --exclude='*' spool/ mirror/
COPY

start() {
    "$top/package/fmrcd-feed" --every 0.1 mirror inbox sh copy.sh 2>> said &
    process=$!
}

# Lets some turns pass, and compares what lies in the inbox.
compare() {
    sleep 1.5
    came=$(cd inbox && find . -type f | sort | sed 's/^..//' | tr '\n' ' ')
    [ "$came" = "$1" ] || { echo "$2: there lies '$came', not '$1'"; exit 1; }
}

# Puts a file into the spool, with this text and moment.
put() {
    rm -f "spool/$1.retract"
    printf %s "$2" > spool/part
    touch -d "$3" spool/part
    mv spool/part "spool/$1"
}

# Waits until a file lies in the inbox under its own name, and says how long it is then.
length_of() {
    python3 -c 'import os, sys, time
until = time.monotonic() + 20
while time.monotonic() < until:
    try:
        sys.exit(print(os.stat(sys.argv[1]).st_size))
    except FileNotFoundError:
        time.sleep(0.0005)' "inbox/$1"
}

start
truncate -s 256M spool/part
mv spool/part spool/large.nc
large=$(length_of large.nc)
[ "$large" = 268435456 ] || { echo "a large file has '$large' bytes when it comes"; exit 1; }
rm inbox/* spool/large.nc
put $name first "2024-01-01 01:00:00.1"
put other.nc other "2024-01-01 01:00:00"
put notes.txt notes "2024-01-01 01:00:00"
compare "$name other.nc " "new files"
rm inbox/*
compare "" "files that were handed over"
put $name again "2024-01-01 01:00:00.2"
compare "$name " "a corrected file of the same length and second"
[ "$(cat inbox/$name)" = again ] || { echo "it isn't the corrected file"; exit 1; }

rm spool/$name
: > spool/$name.retract
compare "$name.retract " "a word, while the file still waits"
put $name later "2024-01-01 02:00:00"
compare "$name " "a file, while the word still waits"
rm inbox/* spool/other.nc
compare "" "a file that is deleted in the spool"

: > spool/$name.retract
compare "" "a file and its word at once"
rm spool/$name
compare "$name.retract " "the word that is left"

: > broken
sleep 0.5
put third.nc third "2024-01-01 03:00:00"
compare "$name.retract " "a command that fails"
rm broken
compare "$name.retract third.nc " "a command that works again"

rm inbox/*
end_process
start
compare "" "another start"
end_process
rm mirror.handed
start
compare "$name.retract third.nc " "another start without what was handed over"
end_process

cat > right << SAID
waiting: $name and $name.retract lie in the spool at once
failing: sh ended with 1
working
SAID
sed 's/^[^ ]* //' said | cmp - right || { echo "it says:"; cat said; exit 1; }
echo "files, corrections and words were handed over once each, and nothing where the spool wasn't clear"
