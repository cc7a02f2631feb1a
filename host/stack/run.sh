#!/bin/sh
# Builds the program that measures the stack of the C functions and calls them on threads with little stack, and runs it.
# The library is the one that INTERFACE_LIBRARY names, else that of the repository, which is proved and built first.
set -eu

root=$(cd "$(dirname "$0")/../.." && pwd)
cd "$root"

[ -n "${INTERFACE_LIBRARY:-}" ] || sh host/library.sh interface
library=${INTERFACE_LIBRARY:-target/staticlib/libinterface.a}
folder=${CARGO_TARGET_DIR:-target/host}
mkdir -p "$folder"

# The number in each function's description is that of its macro.
awk '
    /^#define DHIIRQOBAAL_STACK_/ { limit[$2] = $3; limits++ }
    / \* It needs at most .* bytes of stack, / {
        number = $6; name = $10
        gsub(/,/, "", number); sub(/\.$/, "", name)
        if (limit[name] == number) { right++ } else { print "wrong: " $0 }
    }
    END { print right + 0 " passed, " limits - right " failed"; exit right != limits }
' host/include/dhiirqobaal.h

# -z now: looking up memcpy and memset at their first call would use the stack of that call.
cc -std=c11 -Wall -Wextra -pedantic -Werror -O2 -pthread -Wl,-z,now -I host/include -o "$folder/stack" host/stack/*.c "$library"
"$folder/stack"
