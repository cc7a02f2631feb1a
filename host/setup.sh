#!/bin/sh
# Installs the Debian packages that the host side is built from and tested with, and those that are named as arguments,
# where any is missing; does nothing where all are there.
set -eu

missing=
for package in librust-clap-dev librust-png-dev librust-tempfile-dev librust-ctrlc-dev librust-serde-json-dev \
    librust-same-file-dev g++ man-db pkg-config "$@"; do
    state=$(dpkg-query --show --showformat='${db:Status-Status}' "$package" 2>/dev/null || true)
    [ "$state" = installed ] || missing="$missing $package"
done
[ -n "$missing" ] || exit 0

echo "installing$missing" >&2
as_root=
[ "$(id -u)" -eq 0 ] || as_root=sudo
$as_root apt-get update -qq >&2
# shellcheck disable=SC2086
DEBIAN_FRONTEND=noninteractive $as_root apt-get install -y -qq --no-install-recommends $missing >&2
