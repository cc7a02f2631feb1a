#!/bin/sh
# Builds the static libraries and, for release, the benchmark, the comparison
# with the earlier passes and the measuring of the stack, runs them and writes
# docs/BENCHMARKS.md. Arguments name sections of the benchmark: these alone are then
# run and printed, and nothing is written. If INTERFACE_LIBRARY, COMPARISON_LIBRARY or
# BASE_LIBRARY names a library, a file lib*.a by its whole path, that one is taken.
set -eu

root=$(cd "$(dirname "$0")/../.." && pwd)
cd "$root"

sh host/setup.sh
# Without OpenJPEG the rest is timed all the same.
sh host/setup.sh libopenjp2-7-dev || true
[ -n "${INTERFACE_LIBRARY:-}" ] || sh host/library.sh interface >&2
[ -n "${COMPARISON_LIBRARY:-}" ] || sh host/library.sh comparison >&2

CARGO_TARGET_DIR=$root/target/host cargo build --release --offline --quiet -j 2 --manifest-path host/Cargo.toml \
    -p benchmark -p comparison -p dhiirqobaal

# The base is a library to compare with, as that of an earlier commit, which BASE_LIBRARY names.
BASE="the library that BASE_LIBRARY names"
export BASE

# Two libraries with the same names cannot be in one program: the same program is
# built twice. Without a base the section says so.
unset BODY_TIMES_BASE BODY_TIMES_NOW
if [ -n "${BASE_LIBRARY:-}" ]; then
    INTERFACE_LIBRARY=$BASE_LIBRARY CARGO_TARGET_DIR=$root/target/base cargo build --release --offline --quiet -j 2 \
        --manifest-path host/Cargo.toml -p benchmark --bin body_times
    BODY_TIMES_BASE=$root/target/base/release/body_times
    BODY_TIMES_NOW=$root/target/host/release/body_times
    export BODY_TIMES_BASE BODY_TIMES_NOW
fi

# The demonstration's panel, which the tool draws.
target/host/release/dhiirqobaal demo target/host/benchmark_demo >/dev/null
PANEL=$root/target/host/benchmark_demo/panel.pgm
export PANEL

# OpenJPEG's 5/3 is called inside the archive, since the shared library hides
# it; outside_53.c knows the records of version 2.5.0 alone.
unset OUTSIDE_53 OUTSIDE_CODEC
archive=$(cc -print-file-name=libopenjp2.a)
version=$(dpkg-query -W -f '${Version}' libopenjp2-7-dev 2>/dev/null || echo none)
case $version in
2.5.0*)
    cc -O2 -o target/host/release/outside_53_program tools/outside_53/outside_53.c "$archive" -lm -lpthread
    OUTSIDE_53=$root/target/host/release/outside_53_program
    export OUTSIDE_53
    ;;
esac

# Its encoder and decoder are public; a decoder that takes a cut codestream came
# with 2.5.0.
if pkg-config --exists 'libopenjp2 >= 2.5.0'; then
    # shellcheck disable=SC2046
    cc -O2 -o target/host/release/outside_codec_program tools/outside_codec/outside_codec.c \
        $(pkg-config --cflags --libs libopenjp2)
    OUTSIDE_CODEC=$root/target/host/release/outside_codec_program
    export OUTSIDE_CODEC
fi

if [ $# -gt 0 ]; then
    exec target/host/release/benchmark "$@"
fi

# The first value of a field of /proc/cpuinfo or /proc/meminfo.
field() {
    sed -n "s/^$1[[:space:]]*: *//p" "$2" | head -n 1
}

# Sizes of the first processor's caches.
caches() {
    for cache in /sys/devices/system/cpu/cpu0/cache/index*; do
        [ -r "$cache/size" ] || continue
        printf ' L%s %s %s,' "$(cat "$cache/level")" "$(cat "$cache/type")" "$(cat "$cache/size")"
    done | sed 's/,$//'
}

machine() {
    echo "- Processor: $(field 'model name' /proc/cpuinfo), $(grep -c '^processor' /proc/cpuinfo) in view of the system; one is used"
    echo "- Caches of one:$(caches)"
    echo "- Memory: $(field MemTotal /proc/meminfo)"
    echo "- System: $(uname -s -r -m)"
    echo "- Reference and benchmark: $(rustc --version), release build"
    if [ "$version" = none ]; then
        echo "- OpenJPEG: libopenjp2-7-dev is not installed"
    else
        echo "- OpenJPEG: libopenjp2-7-dev $version, one thread; its 5/3 alone is timed in version 2.5.0 only"
    fi
}

mkdir -p docs
out=docs/BENCHMARKS.md
tables=$(target/host/release/benchmark)
earlier=$(target/host/release/comparison)
stack=$(INTERFACE_LIBRARY=${INTERFACE_LIBRARY:-$root/target/staticlib/libinterface.a} host/stack/run.sh || true)
{
    echo "# Benchmarks"
    echo
    echo "Written by host/benchmark/run.sh; not a test. Times are milliseconds, the best of several rounds of one run. Pictures of depth 8, width by height. Every answer timed was the same as the reference's, and kernel 3's the same as OpenJPEG's where that was timed; the sections Base and A whole shot beside OpenJPEG say what was compared there."
    echo
    echo "- library: the static library of the C interface, with every test that it makes of its arguments."
    echo "- reference: host/reference, plain Rust written for clearness, built for release."
    echo "- OpenJPEG, in Transform and Undo: its 5/3 on the same picture with rows and columns exchanged, in place on 32-bit numbers, without any test."
    echo "- copy: the floor. The same buffers copied once: transform, each sample into its coefficient's cell; undo, plane into undone; mask, region into mask; write and read, plane, mask and stream."
    echo "- mask: the region is eight rectangles over a tenth of the picture."
    echo "- write and read: kernel 2, five levels, the plane of the same picture; the writer derives the mask, and so does the reader. Mbit/s: millions of bits of the body a second, by the library."
    echo
    echo "## Machine"
    echo
    machine
    echo
    echo "$tables"
    echo
    echo "## Earlier passes"
    echo
    echo "One level over a 2,048 by 2,048 picture, by the passes before paper 3 of document 02 (crates/earlier_passes) and by the library's; planes and undone numbers were the same."
    echo
    echo "$earlier" | grep '^|'
    echo
    echo "## Stack"
    echo
    echo "The deepest that each C function was seen to go on pictures of 4,096 by 4,096, 4,095 by 257 and 257 by 4,095 with five levels, over all kernels, and the limit that the C header states. Below 256 bytes nothing is told apart."
    echo
    echo "$stack" | grep '^|'
} >"$out"
echo "wrote $out"
