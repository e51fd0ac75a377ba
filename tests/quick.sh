#!/bin/sh
# Runs each stored run, the rows among them, compiled with checks and not proved. Without words it first
# compares docs/SAFETY.md with the public calls, by tests/safety_page.sh. What fails is shown, and the last line counts;
# the status is 1 where something failed. Words that a crate has in a file `slow` are left to the gate, and their rows
# aren't counted.
# Use: tests/quick.sh [CRATE..]
set -eu
cd "$(dirname "$0")/.."

# The words of a stored run that aren't slow.
words() {
    if [ -f slow ]; then grep -vxFf slow args; else cat args 2> /dev/null || true; fi
}

# What these words have to print.
wanted() {
    if [ -f slow ]; then
        # shellcheck disable=SC2046  # a file a line
        rows=$(cd data && cat $(cat ../slow) | grep -c '^name:')
        awk -v rows="$rows" '{ $1 -= rows; print }' stdout
    else
        cat stdout
    fi
}

# One crate's stored run, in a folder that holds the files and folders of its data/.
try_program() {
    input=/dev/null
    [ ! -f stdin ] || input=stdin
    want=0
    [ ! -f status ] || want=$(cat status)
    files=$([ ! -d data ] || find data -type f | sed 's|^data/\(.*\)|--data \1=&|')
    got=0
    # shellcheck disable=SC2046,SC2086  # a word a line
    rt try --seconds 600 $files -- $(words) < "$input" > "$logs/$crate.out" 2> "$logs/$crate.err" || got=$?
    [ "$got" = "$want" ] && wanted | cmp -s - "$logs/$crate.out"
}

try_one() {
    crate=$1
    cd "crates/$crate"
    try_program && echo "$crate passed" || {
        echo "$crate FAILED"
        tail -n 20 "$logs/$crate.out" "$logs/$crate.err"
    }
}

if [ "${1-}" = --one ]; then
    logs=$2
    try_one "$3"
    exit
fi

logs=$(mktemp -d)
trap 'rm -rf "$logs"' EXIT
page=0
if [ $# = 0 ]; then
    tests/safety_page.sh || page=1
    # The crates that stand highest come first, since they take longest.
    set -- $(for crate in $(sed -n 's/^\([a-z0-9_]*\)[ :].*/\1/p' crates.txt | tac); do
        if [ -f "crates/$crate/stdout" ]; then echo "$crate"; fi
    done)
fi
printf '%s\n' "$@" | xargs -P "$(nproc)" -n 1 "$0" --one "$logs" | tee "$logs/all"
failed=$(grep -c ' FAILED$' "$logs/all" || true)
echo "quick: $(($# - failed)) passed, $((failed + page)) failed"
[ "$failed$page" = 00 ]
