#!/bin/sh
# Makes the Debian package, and installs it by apt in a fresh system, which debootstrap makes in a folder. There it says
# its version, runs `check` and `once`, serves as the unit does, and replies to a request; what it held comes back after
# a kill. Then the package is removed, and none of its files may be left, but all that was brought.
# Use: tests/package.sh [PROGRAM]; by default the proved program, which 'make build' leaves. It wants root and Debian's
# registry, and takes two minutes. debootstrap is installed where it is missing.
set -eu
. "$(dirname "$0")/../bench/common.sh"
use_program "$@"
"$top/bench/packages.sh" debootstrap=debootstrap
make_folder
root=$folder/root
end() {
    [ -z "$process" ] || kill "$process"
    # Whatever debootstrap mounted goes before the files do.
    grep -o " ${root}[^ ]*" /proc/mounts | sort -r | while read -r mounted; do umount "$mounted"; done
    rm -r --one-file-system "$folder"
}
trap end EXIT
fail() {
    echo "$1" >&2
    exit 1
}

"$top/package/build.sh" "$program" "$folder"
package=$(basename "$folder"/fmrcd_*.deb)
# The host's own release, from its own registry.
release=$(sed -n 's/^VERSION_CODENAME=//p' /etc/os-release)
debootstrap --variant=minbase "$release" "$root" > "$folder/log" 2>&1 || { tail "$folder/log" >&2; exit 2; }
cp /etc/resolv.conf "$root/etc/resolv.conf"
cp "$folder/$package" "$root/tmp/"
inside() {
    chroot "$root" env DEBIAN_FRONTEND=noninteractive LC_ALL=C.UTF-8 "$@"
}
inside apt-get -qq install -y --no-install-recommends "/tmp/$package" > "$folder/log" 2>&1 || {
    tail "$folder/log" >&2
    exit 1
}
inside dpkg --verify fmrcd
# shellcheck disable=SC2016  # dpkg-query reads it
[ "$(inside fmrcd --version)" = "fmrcd $(inside dpkg-query -W -f '${Version}' fmrcd)" ] ||
    fail "it says the version $(inside fmrcd --version)"
cmp "$program" "$root/usr/bin/fmrcd"
inside dpkg -L fmrcd > "$folder/files"
for name in fmrcd fmrcd-serve fmrcd-once fmrcd-twod fmrcd-pull fmrcd-check fmrcd-load fmrcd-bring-back fmrcd-feed; do
    zcat "$root/usr/share/man/man1/$name.1.gz" | grep -q '^\.Dt' || fail "no page of $name"
done
bash -n "$root/usr/share/bash-completion/completions/fmrcd"
echo "$package is installed: $(wc -l < "$folder/files") files and folders"

# As docs/OPERATING.md says it, with the sample files.
home=/var/lib/fmrcd/gfs
inside install -d -o fmrcd -g fmrcd -m 755 "$home"
inside install -d -o fmrcd -g fmrcd -m 2775 "$home/inbox"
install -m 644 "$data/gfs_20240101_0000.nc" "$root$home/proto.nc"
[ "$(inside fmrcd check "$home/proto.nc")" = "ok CDF-1 dims 3 vars 4 records 3" ] || fail "check says something else"
inside fmrcd once --name gfs --proto "$home/proto.nc" "put:$home/proto.nc" < /dev/null > "$folder/said" 2>&1 &&
    fail "once takes a file without a run"
grep -qx "refused $home/proto.nc code 45" "$folder/said" || fail "once says $(cat "$folder/said")"
cp "$data/gfs_20240101_0000.nc" "$root/tmp/"
printf 'GET /thredds/dodsC/gfs/gfs_best.ncd.dds HTTP/1.1\r\n\r\n' > "$folder/request"
inside fmrcd once --name gfs --proto "$home/proto.nc" put:/tmp/gfs_20240101_0000.nc ask:1 < "$folder/request" \
    > "$folder/reply"
head -n 1 "$folder/reply" | grep -q '^HTTP/1.1 200 OK' || fail "once replies $(head -n 1 "$folder/reply")"
echo "check and once run"

port=$(free_port)
view="http://127.0.0.1:$port/thredds/dodsC/gfs/gfs_best.ncd.dods?time,time_run"

# Serves as the unit's user, in its folder.
serve() {
    chroot --userspec=fmrcd:fmrcd "$root" /bin/sh -c "cd $home && umask 002 && exec fmrcd serve --name gfs \
        --proto proto.nc --listen 127.0.0.1:$port --workers 16 inbox" &
    process=$!
}

serve
for name in gfs_20240101_0000.nc gfs_20240101_0600.nc; do
    install -m 644 "$data/$name" "$root$home/inbox/part"
    mv "$root$home/inbox/part" "$root$home/inbox/$name"
    wait_for "$root$home/inbox/done/$name"
done
curl -sSgf "$view" > "$folder/first"
grep -aq "Int32 time_run\[time = 4\];" "$folder/first" || fail "the best time series is $(cat "$folder/first")"
end_process
chroot --userspec=fmrcd:fmrcd "$root" fmrcd-bring-back "$home/inbox" | grep "^brought back 2," ||
    fail "not all was brought back"
serve
wait_for "$root$home/inbox/done/gfs_20240101_0600.nc"
curl -sSgf "$view" | cmp - "$folder/first"
end_process
echo "it serves, and what it held comes back"

inside apt-get -qq purge -y fmrcd > "$folder/log" 2>&1 || { tail "$folder/log" >&2; exit 1; }
while read -r path; do
    [ -d "$root$path" ] || [ ! -e "$root$path" ] || fail "$path is left"
done < "$folder/files"
[ ! -e "$root/usr/share/fmrcd" ] || fail "a folder is left"
[ -e "$root$home/inbox/done/gfs_20240101_0600.nc" ] || fail "what was brought is gone"
echo "it is removed, and what was brought is there"
