#!/bin/sh
# Builds the example as C99, as C11 and as C++, and runs each: its verdict is 'N passed, M failed'. The library is the one
# that INTERFACE_LIBRARY names, else that of the repository, which is proved and built first.
set -eu

root=$(cd "$(dirname "$0")/../.." && pwd)
cd "$root"

[ -n "${INTERFACE_LIBRARY:-}" ] || sh host/library.sh interface
library=${INTERFACE_LIBRARY:-target/staticlib/libinterface.a}
folder=${CARGO_TARGET_DIR:-target/host}
mkdir -p "$folder"

status=0
# Compiles with the given compiler and standard, and runs; what does not compile is one failure.
try() {
    "$@" -Wall -Wextra -pedantic -Werror -O1 -pthread -I host/include -o "$folder/worked" host/c_example/*.c -x none "$library" ||
        { echo "0 passed, 1 failed"; status=1; return; }
    "$folder/worked" || status=1
}
try cc -std=c99
try cc -std=c11
try c++ -x c++ -std=c++11
exit $status
