#!/bin/sh
# Tries bodies that say for large input that memory ran out, and two that go wrong once it does. Each meets its
# contract, so no proof refuses it, and running has to. The work is done on a copy of the tree, where one body after the
# other is put in. The rows and tests/limits.sh are run, unproved, until one of them refuses it. Three bodies show only
# where memory is refused. They are tried only by their names, and first by bench/out_of_memory.sh or
# bench/refused_publisher.sh, which want a proof; the libraries that `make build` or `rt check` left in the tree are
# used. Before any body all has to pass without one. It says for each body what refused it. The status is 1 where
# nothing did, and where a body can't be put in any more or doesn't compile.
# Use: bench/planted_memory.sh [BODY..]; by default those that need no proof, which takes some hours.
set -eu
. "$(dirname "$0")/common.sh"
make_folder
cd "$top"
mkdir "$folder/tree"
# shellcheck disable=SC2046  # a file a word
tar -cf - HANDLES crates.txt $(git ls-files crates bench) $(ls -d crates/*/out/rlib 2> "$folder/none" || true) |
    tar -xf - -C "$folder/tree"
git init -q "$folder/tree"
python3 -B bench/planted_memory.py "$top" "$folder" "$@"
