# shellcheck shell=sh disable=SC2034  # scripts use what it sets
# What scripts share: where the tree is, the program that they run, a folder of their own, a server that they start, a
# port. A script of any folder of the tree begins with it.

top=$(cd "$(dirname "$0")/.." && pwd)

# The sample files.
data=$top/crates/fmrcd/data

# Names the program that a script runs: its first word, or the proved one.
use_program() {
    program=${1:-$top/crates/fmrcd/out/fmrcd}
    [ -x "$program" ] || { echo "no program $program: 'make build' makes one" >&2; exit 2; }
    # A script may go to another folder.
    program=$(cd "$(dirname "$program")" && pwd)/$(basename "$program")
}

# Makes an empty folder, which goes when the script ends. So does the process whose number the script leaves in
# `process`.
make_folder() {
    folder=$(mktemp -d) || exit 2
    process=
    trap leave EXIT
    trap 'exit 1' HUP INT TERM
}

leave() {
    [ -z "$process" ] || kill "$process" 2> /dev/null || true
    rm -r "$folder"
}

# Starts the program at a port as a server of the collection `gfs` over the folder `inbox`, with the options behind it.
start_server() {
    address=127.0.0.1:$1
    shift
    inbox=$folder/inbox
    mkdir -p "$inbox"
    "$program" serve --name gfs --proto "$data/gfs_20240101_0000.nc" --listen "$address" "$@" "$inbox" &
    process=$!
}

# Brings it a file under a name.
bring() {
    cp "$1" "$inbox/part"
    mv "$inbox/part" "$inbox/$2"
}

# Ends the process, which still has to run.
end_process() {
    kill "$process"
    wait "$process" 2> /dev/null || true
    process=
}

# Waits until a file is there, for ten seconds at most.
wait_for() {
    for _ in $(seq 200); do
        [ ! -e "$1" ] || return 0
        sleep 0.05
    done
    echo "$1 doesn't come" >&2
    return 1
}

# A port at which nothing listens.
free_port() {
    python3 -c 'import socket; s = socket.socket(); s.bind(("127.0.0.1", 0)); print(s.getsockname()[1])'
}

# Proves and runs a crate that bench/crates.sh laid into the folder, with the words behind its name, and names its
# program.
run_crate() {
    crate=$folder/crates/$1
    program=$crate/out/$1
    shift
    (cd "$crate" && rt run "$@") > "$folder/build.log" 2>&1 || { cat "$folder/build.log" >&2; exit 1; }
}
