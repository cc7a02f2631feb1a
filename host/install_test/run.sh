#!/bin/sh
# Installs into a temporary folder, builds a C program against what lies there by pkg-config and runs it on streams of the
# installed tool, whole and broken off. The last line is 'N passed, M failed'.
# INTERFACE_LIBRARY and TOOL_PROGRAM name a built library and tool, as in host/install.sh, which builds both otherwise.
set -u

root=$(realpath "$(dirname "$0")/../..")
folder=$(mktemp -d)
trap 'rm -rf "$folder"' EXIT
trap 'exit 130' INT HUP TERM
cd "$folder" || exit 1
passed=0
failed=0

# expect NAME COMMAND...: the command has to succeed.
expect() {
    name=$1
    shift
    if "$@" >output 2>&1; then
        passed=$((passed + 1))
    else
        failed=$((failed + 1))
        echo "wrong: $name"
        sed 's/^/    /' output
    fi
}

# ends STATUS TEXT COMMAND...: the command has to end with the status and to print the text.
ends() {
    wanted=$1 text=$2
    shift 2
    "$@" >printed 2>&1
    status=$?
    cat printed
    [ $status -eq "$wanted" ] || { echo "status $status, not $wanted" && return 1; }
    grep -qF -- "$text" printed || { echo "no '$text' in this" && return 1; }
}

same() {
    [ "$#,$1" = "2,${2-}" ] || { printf '%s\nis not\n%s\n' "$1" "${2-}" && return 1; }
}

install_under() {
    sh "$root/host/install.sh" "$@"
}

# What lies under a folder: mode and name of every file.
listed() {
    (cd "$1" && find . ! -type d -printf '%m %P\n' | sort -k 2)
}
five='755 bin/dhiirqobaal
644 include/dhiirqobaal.h
644 lib/libdhiirqobaal.a
644 lib/pkgconfig/dhiirqobaal.pc
644 share/man/man1/dhiirqobaal.1'

wrong_usage() {
    expect "no PREFIX" ends 2 'PREFIX' install_under
    expect "an empty PREFIX" ends 2 'not a folder' install_under ''
    expect "two folders" ends 2 'one PREFIX is needed' install_under a b
    expect "an option" ends 2 'not a folder' install_under --prefix=a
    for sign in '#' '$' '"'; do
        expect "a PREFIX with $sign" ends 2 'pkg-config' install_under "a${sign}b"
    done
    expect "help" ends 0 'usage: sh host/install.sh PREFIX' install_under --help
    expect "wrong usage leaves nothing" same "$(find . -mindepth 1 ! -name output ! -name printed)" ''
}

# A failure leaves no file that is new or half: here there is no tool, then a folder stands where the library should go.
failures() {
    expect "no tool" ends 1 'there is no file' env TOOL_PROGRAM="$folder/none" sh "$root/host/install.sh" empty
    expect "no tool: no file" same "$(listed empty)" ''
    mkdir -p blocked/lib/libdhiirqobaal.a
    expect "a folder in the library's place" ends 1 'libdhiirqobaal.a' install_under blocked
    expect "a folder in the library's place: no half file" same "$(listed blocked)" '644 include/dhiirqobaal.h'
}

# Twice: the second time over the first.
installed() {
    for time in first second; do
        expect "$time: every file is named" ends 0 "installed $folder/place/bin/dhiirqobaal" install_under place
        expect "$time: the files" same "$(listed place)" "$five"
    done
    export PKG_CONFIG_PATH="$folder/place/lib/pkgconfig"
    expect "what the library needs from outside" same \
        "$(nm -u place/lib/libdhiirqobaal.a | awk '$1 == "U" { print $2 }' | sort -u | tr '\n' ' ')" 'memcpy memset '
    expect "the header" cmp "$root/host/include/dhiirqobaal.h" place/include/dhiirqobaal.h
    expect "the man page" same "$(man -M place/share/man -w dhiirqobaal)" "$folder/place/share/man/man1/dhiirqobaal.1"
    version=$(pkg-config --modversion dhiirqobaal)
    expect "the tool's version" ends 0 "dhiirqobaal $version" place/bin/dhiirqobaal --version
    echo '#include <dhiirqobaal.h>
DHIIRQOBAAL_VERSION_TEXT' >version.c
    # shellcheck disable=SC2046
    expect "the header's version" same "$(cc -E -P $(pkg-config --cflags dhiirqobaal) version.c | tail -n 1)" "\"$version\""
}

# Packages are made below DESTDIR; a folder's name may have a space.
below() {
    prefix="$folder/panel shots"
    DESTDIR=package
    export DESTDIR
    expect "DESTDIR" ends 0 "installed $folder/package$prefix/bin" install_under "$prefix"
    unset DESTDIR
    expect "DESTDIR: the files" same "$(listed "package$prefix")" "$five"
    expect "DESTDIR: nothing elsewhere" [ ! -e "$prefix" ]
    flags=$(PKG_CONFIG_PATH="package$prefix/lib/pkgconfig" pkg-config --cflags dhiirqobaal)
    eval "expect 'DESTDIR: the pkg-config file' same ${flags:-none} '-I$prefix/include'"
}

# The picture of 8 by 4 samples of docs/FORMAT.md, its stream, and what that page shows of the stream cut to 36 bytes.
picture='12 12 14 90 200 40 41 43
12 13 20 120 220 60 44 40
13 16 60 180 90 50 46 45
15 15 15 16 14 15 16 15'
stream=0000003201030208000800040107000600020001000\
29a803fc01bcdcb013f3e18f95b283101ecc8265ca382099d808e19ad18176034
cut='56 37 18 110 202 121 19 21
27 31 36 98 160 69 33 29
0 26 54 80 106 58 46 45
0 26 54 78 102 59 16 15'

bench() {
    # shellcheck disable=SC2046
    expect "a program against the library" cc -std=c99 -Wall -Wextra -pedantic -Werror -o bench "$root/host/install_test/bench.c" \
        $(pkg-config --cflags --libs dhiirqobaal)
    printf 'P2 8 4 255\n%s\n' "$picture" >panel.pgm
    expect "a stream of the tool" place/bin/dhiirqobaal encode panel.pgm panel.stream --rect 6,2,1,2 --kernel 3 --levels 2
    expect "the stream's bytes" same "$(od -An -v -tx1 panel.stream | tr -d ' \n')" "$stream"
    expect "the whole stream" ends 0 '54 of 54 bytes arrived' ./bench panel.stream
    expect "the whole stream: the picture at level 2" same "$(./bench panel.stream | sed -n 3p)" '0 109'
    expect "the whole stream: the picture" same "$(./bench panel.stream | tail -n 4)" "$picture"
    for length in 36 35 22 21; do head -c $length panel.stream >part.$length; done
    expect "36 bytes" ends 0 '36 of 54 bytes arrived' ./bench part.36
    expect "36 bytes are exact" same "$(./bench part.36 | sed -n 2p)" 'exact: every marked bit arrived'
    expect "36 bytes: the picture at level 2" same "$(./bench part.36 | sed -n 3p)" '0 109'
    expect "36 bytes: the picture" same "$(./bench part.36 | tail -n 4)" "$cut"
    expect "35 bytes" ends 1 'not exact' ./bench part.35
    expect "22 bytes, the header alone" ends 1 '22 of 54 bytes arrived' ./bench part.22
    expect "21 bytes" ends 3 'refused 12: the stream is shorter than its header' ./bench part.21
    expect "no rectangle" place/bin/dhiirqobaal encode panel.pgm bare.stream
    head -c 20 bare.stream >bare.part
    expect "no rectangle, whole" ends 0 'no rectangle: every bit of the picture arrived' ./bench bare.stream
    expect "no rectangle, broken off" ends 1 'no rectangle: not every bit of the picture arrived' ./bench bare.part
    { cat panel.stream && echo; } >longer
    expect "55 bytes" ends 3 'refused 12' ./bench longer
}

wrong_usage
failures
installed
below
bench
echo "$passed passed, $failed failed"
[ $failed -eq 0 ]
