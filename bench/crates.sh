#!/bin/sh
# Copies crates, and those that they stand on by crates.txt and bench/crates.list, into a folder with a crates.txt of
# its own. There a crate NAME may use them all, whose source the caller writes. What their checks kept is copied too;
# edits that must fail are left out. The files of bench/crates end in .txt, since the gate reads sources below crates/
# alone.
# Use: bench/crates.sh FOLDER NAME CRATE..
set -eu
top=$(cd "$(dirname "$0")/.." && pwd)
folder=$1 name=$2
shift 2
mkdir -p "$folder/crates/$name/src"

# Each list has lower crates first, so one turn from the last line finds all that are needed.
cat "$top/crates.txt" "$top/bench/crates.list" | tac | awk -v wanted="$*" '
    BEGIN { count = split(wanted, names, " "); for (i = 1; i <= count; i++) needed[names[i]] = 1 }
    { crate = $1; sub(/:.*/, "", crate) }
    crate in needed { print; sub(/^[^:]*:/, ""); for (i = 1; i <= NF; i++) needed[$i] = 1 }
' | tac > "$folder/crates.txt"
crates=$(sed 's/[ :].*//' "$folder/crates.txt" | tr '\n' ' ')
for crate; do
    case " $crates" in
        *" $crate "*) ;;
        *) echo "No crates.txt has a crate $crate" >&2; exit 2 ;;
    esac
done
for crate in $crates; do
    from=$top/crates
    [ -d "$from/$crate" ] || from=$top/bench/crates
    tar -C "$from" --exclude=incremental --exclude=must-fail -cf - "$crate" | tar -C "$folder/crates" -xf -
    find "$folder/crates/$crate" -name '*.rt.txt' -o -name '*.antt.txt' | while read -r file; do
        mv "$file" "${file%.txt}"
    done
done
cp "$top/HANDLES" "$folder/"
echo "$name: $crates" >> "$folder/crates.txt"
