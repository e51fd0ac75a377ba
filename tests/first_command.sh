#!/bin/sh
# Does what README begins with, in a fresh clone: 'make serve' has to print the addresses of five datasets, each of
# which a client can open, and to end with its server where it is told to. The lines behind it, which serve one file,
# are run as they stand there, but for the port, and their server ends by STOP.
# Use: tests/first_command.sh [PROGRAM]; by default the clone proves its own, which takes as long as 'make build'.
set -eu
. "$(dirname "$0")/../bench/common.sh"
make_folder
git clone -q "$top" "$folder/clone"
if [ $# -gt 0 ]; then
    mkdir "$folder/clone/crates/fmrcd/out"
    cp "$1" "$folder/clone/crates/fmrcd/out/fmrcd"
fi
port=$(free_port)
make -s -C "$folder/clone" serve "PORT=$port" > "$folder/said" 2>&1 &
process=$!
while ! grep -q "Ctrl-C" "$folder/said"; do
    kill -0 "$process" || { process=; cat "$folder/said"; exit 1; }
    sleep 0.1
done
count=0
for address in $(grep -o "^  .* http://[^ ]*$" "$folder/said" | grep -v ncdump | sed "s/.* //"); do
    curl -sSgf "$address.dds" > "$folder/structure"
    grep -q "^} ${address##*/};$" "$folder/structure" || { echo "$address: $(cat "$folder/structure")"; exit 1; }
    count=$((count + 1))
done
[ "$count" = 5 ] || { echo "$count datasets are named"; cat "$folder/said"; exit 1; }
# The lines to type, but for those that need more than this machine may have.
eval "$(grep "^  curl " "$folder/said")" > "$folder/typed" 2> "$folder/none"
grep -q "gfs_best.ncd" "$folder/typed"
# shellcheck disable=SC2016  # README has these signs
sed -n '/^    PATH=\$PATH/,/^    sleep/s/^    //p' "$folder/clone/README.md" | sed "s/8080/$(free_port)/" \
    > "$folder/lines"
echo "touch inbox/STOP; wait" >> "$folder/lines"
(cd "$folder/clone" && timeout 60 sh "$folder/lines") > "$folder/typed" 2> "$folder/none"
for line in "} gfs_best.ncd;" "published 1 retracted 0 expired 0 held 1 rows 3 revision 1"; do
    grep -qx "$line" "$folder/typed" || { echo "README's lines say:"; cat "$folder/typed" "$folder/none"; exit 1; }
done
echo "README's lines serve a file"
end_process
for _ in 1 2 3 4 5 6 7 8 9 10; do
    curl -s "http://127.0.0.1:$port/" > "$folder/none" || { echo "5 datasets opened, and the server ended"; exit 0; }
    sleep 0.2
done
echo "the server goes on"
exit 1
