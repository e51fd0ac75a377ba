#!/bin/sh
# Tries the wrong bodies of bench/plants, which the gate leaves out: the prover has to refuse each. They lie in a folder
# for each crate, in the form of crates/NAME/must-fail. The work is done on a copy of the tree, with the libraries that
# `make build` or `rt check` left in it. A weaker definition may be proved in its own crate; then the crate of its laws,
# which a file `laws` in the folder names, or one between them has to refuse it. It ends with status 1 where a wrong
# body is proved, can no longer be applied, or wasn't tried.
# Use: bench/plants.sh [CRATE..]
set -eu
top=$(cd "$(dirname "$0")/.." && pwd)
copy=$(mktemp -d)
trap 'rm -rf "$copy"' EXIT
tree=$copy/tree
cd "$top"
mkdir "$tree"
# shellcheck disable=SC2046  # a file a word
tar -cf - HANDLES crates.txt $(git ls-files crates) $(ls -d crates/*/out/rlib 2> "$copy/none" || true) |
    tar -xf - -C "$tree"
git init -q "$tree"
rm -rf "$tree"/crates/*/must-fail

# Puts an edit into the sources of a crate. A file that changes is a new one, since others may have a link to the old.
put_in() {
    python3 - "$1" "$2" << 'PYTHON'
import os
import sys

for line in open(sys.argv[1]).read().splitlines():
    word, _, rest = line.partition(": ")
    if word == "file":
        path = os.path.join(sys.argv[2], rest)
    elif word == "old":
        old = rest
    elif word == "new":
        text = open(path).read()
        assert text.count(old) == 1, old
        os.remove(path)
        open(path, "w").write(text.replace(old, rest))
PYTHON
}

# Whether a crate is proved after an edit, and the crate of its laws isn't.
refused_by_laws() {
    rm -rf "$copy/trial"
    cp -al "$tree" "$copy/trial"
    put_in "bench/plants/$1/$2.edit" "$copy/trial/crates/$1"
    (cd "$copy/trial/crates/$1" && rt lib) > "$copy/log" 2>&1 || return 1
    ! (cd "$copy/trial/crates/$laws" && rt check) > "$copy/log" 2>&1 && grep -q "^logic=not-proved" "$copy/log"
}

# shellcheck disable=SC2046
[ $# -gt 0 ] || set -- $(ls bench/plants)
status=0
for crate; do
    mkdir "$tree/crates/$crate/must-fail"
    cp "bench/plants/$crate/"*.edit "$tree/crates/$crate/must-fail/"
    (cd "$tree" && rt must-fail "$crate") > "$copy/log.first" 2>&1 || true
    rm -r "$tree/crates/$crate/must-fail"
    grep "must-fail $crate/" "$copy/log.first" | cut -c1-160 || true
    laws=$(cat "bench/plants/$crate/laws" 2> "$copy/none" || true)
    for edit in "bench/plants/$crate/"*.edit; do
        name=$(basename "$edit" .edit)
        grep -q "must-fail $crate/$name.edit: refused, as it must be" "$copy/log.first" && continue
        if [ -n "$laws" ] && refused_by_laws "$crate" "$name"; then
            echo "rt: $crate/$name.edit: refused by $laws"
        else
            echo "$crate/$name.edit wasn't refused"
            tail -n 5 "$copy/log.first"
            status=1
        fi
    done
done
exit $status
