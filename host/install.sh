#!/bin/sh
# Builds and installs the tool with its man page, the C header and the static library with its pkg-config file:
#     sh host/install.sh PREFIX
# The library is proved and built, unless INTERFACE_LIBRARY names one; the tool is built for release, unless TOOL_PROGRAM
# names one, and for that host/setup.sh installs the Debian packages that are missing. With DESTDIR every file goes
# below that folder, as packages are made; the pkg-config file names PREFIX alone.
# Every file is complete before it takes its name, so that a failure leaves an old file as it was.
# Where only root may write to PREFIX, build as yourself (by installing elsewhere), then install what is built:
#     sudo INTERFACE_LIBRARY=target/staticlib/libinterface.a TOOL_PROGRAM=target/host/release/dhiirqobaal \
#         sh host/install.sh PREFIX
set -eu

usage='usage: sh host/install.sh PREFIX
PREFIX is the folder under which bin, include, lib and share are filled, such as /usr/local'

fail() {
    echo "install.sh: $2" >&2
    exit "$1"
}

case $#,${1-} in
1,-h | 1,--help)
    echo "$usage"
    exit
    ;;
1,-* | 1,) fail 2 "'$1' is not a folder to install under
$usage" ;;
1,*) ;;
*) fail 2 "one PREFIX is needed, and $# words are given
$usage" ;;
esac

# The whole path of a name that may be relative to the folder from which this was called.
whole() {
    realpath -ms -- "$1"
}

prefix=$(whole "$1")
prefix=${prefix%/}
case $prefix in
*[\#\$\"]*) fail 2 "a PREFIX with #, \$ or \" cannot stand in a pkg-config file" ;;
esac
place=${DESTDIR:+$(whole "$DESTDIR")}$prefix
root=$(realpath -- "$(dirname -- "$(realpath -- "$0")")/..")
library=$(whole "${INTERFACE_LIBRARY:-$root/target/staticlib/libinterface.a}")
CARGO_TARGET_DIR=$(whole "${CARGO_TARGET_DIR:-$root/target/host}")
export CARGO_TARGET_DIR
tool=$(whole "${TOOL_PROGRAM:-$CARGO_TARGET_DIR/release/dhiirqobaal}")
cd "$root"

# Before the long work: is there a place to write to?
for folder in bin include lib lib/pkgconfig share/man/man1; do
    if ! install -d -- "$place/$folder" || [ ! -w "$place/$folder" ]; then
        fail 1 "no file can be written to $place/$folder"
    fi
done

if [ -n "${INTERFACE_LIBRARY:-}" ]; then
    export INTERFACE_LIBRARY="$library"
else
    sh host/library.sh interface
fi
if [ -z "${TOOL_PROGRAM:-}" ]; then
    sh host/setup.sh
    cargo build --release --offline --quiet --jobs 2 --manifest-path host/Cargo.toml -p dhiirqobaal
fi

header=host/include/dhiirqobaal.h
manual=host/tool/man/dhiirqobaal.1
description=host/pkgconfig/dhiirqobaal.pc.in
for file in "$tool" "$manual" "$header" "$library" "$description"; do
    [ -f "$file" ] || fail 1 "there is no file $file"
done
version=$(sed -n 's/^#define DHIIRQOBAAL_VERSION_TEXT "\(.*\)"$/\1/p' "$header")
[ -n "$version" ] || fail 1 "$header names no version"

temporary=$(mktemp -d)
trap 'rm -rf -- "$temporary"; [ -z "${unfinished:-}" ] || rm -f -- "$unfinished"' EXIT
trap 'exit 129' HUP
trap 'exit 130' INT
trap 'exit 143' TERM
{
    printf 'prefix=%s\n' "$prefix"
    sed "s/@VERSION@/$version/" "$description"
} >"$temporary/dhiirqobaal.pc"

# put MODE SOURCE TARGET: copies beside the target, then renames.
put() {
    unfinished=$(mktemp -- "$place/$3.XXXXXX")
    install -m "$1" -- "$2" "$unfinished"
    mv -fT -- "$unfinished" "$place/$3"
    unfinished=
    echo "installed $place/$3"
}
put 644 "$header" include/dhiirqobaal.h
put 644 "$library" lib/libdhiirqobaal.a
put 644 "$temporary/dhiirqobaal.pc" lib/pkgconfig/dhiirqobaal.pc
put 644 "$manual" share/man/man1/dhiirqobaal.1
put 755 "$tool" bin/dhiirqobaal
