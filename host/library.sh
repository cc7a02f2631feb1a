#!/bin/sh
# Proves and builds a static library of crates/: `sh host/library.sh NAME` leaves target/staticlib/libNAME.a in the repository.
set -eu

root=$(cd "$(dirname "$0")/.." && pwd)
(cd "$root/crates/$1" && rt lib)
mkdir -p "$root/target/staticlib"
cp "$root/crates/$1/out/lib$1.a" "$root/target/staticlib/lib$1.a"
