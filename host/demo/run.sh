#!/bin/sh
# Installs what is missing, proves and builds the static library, builds the tool and runs the demonstration.
# Usage: run.sh [DIR]; the pictures and streams go to DIR (default: target/demo in the repository).
set -eu

root=$(cd "$(dirname "$0")/../.." && pwd)
folder=${1:-"$root/target/demo"}

sh "$root/host/setup.sh"
sh "$root/host/library.sh" interface
(cd "$root/host" && CARGO_TARGET_DIR="$root/target/host" cargo build --release --offline --jobs 2 -p dhiirqobaal)
"$root/target/host/release/dhiirqobaal" demo "$folder"
