#!/bin/sh
# Compares the tables of docs/SAFETY.md with the public calls of each crate of crates.txt. Each call has to be named in
# a row of its crate, or be of a type whose calls a row speaks of; and what a row names has to be there. What isn't so
# is shown, and the status is 1. It takes a second, and builds nothing.
# Use: tests/safety_page.sh
set -eu
top=$(cd "$(dirname "$0")/.." && pwd)
python3 -B "$top/tests/safety_page.py" "$top"
