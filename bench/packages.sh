#!/bin/sh
# Installs packages of Debian whose commands are missing, by apt-get, which asks for root.
# Use: bench/packages.sh COMMAND=PACKAGE..
set -eu
missing=
for pair; do
    command -v "${pair%%=*}" > /dev/null || missing="$missing ${pair#*=}"
done
[ -n "$missing" ] || exit 0

as_root() {
    if [ "$(id -u)" = 0 ]; then "$@"; else sudo "$@"; fi
}

install() {
    # shellcheck disable=SC2086  # several packages
    as_root env DEBIAN_FRONTEND=noninteractive apt-get -qq -o DPkg::Lock::Timeout=300 install -y \
        --no-install-recommends $missing > "$told" 2>&1
}

told=$(mktemp)
trap 'rm "$told"' EXIT
install || { as_root apt-get -qq update && install; } || { cat "$told" >&2; exit 2; }
