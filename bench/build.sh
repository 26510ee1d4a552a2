#!/usr/bin/env bash
# bench/build.sh SRC OUT [LINKED_HASH_MAP_LIB_RS]
# Builds OUT/bench, the Rust beside which ours is timed; run.sh says what the arguments are. The sources are copied into
# OUT and are no part of this repository; what stands in for the rest of the crate is in ../compare/standins.
set -euo pipefail
if [[ $# -lt 2 || $# -gt 3 ]]; then
    echo "usage: bench/build.sh SRC OUT [LINKED_HASH_MAP_LIB_RS]" >&2
    exit 2
fi
here=$(cd "$(dirname "${BASH_SOURCE[0]}")" && pwd)
flags=(-C opt-level=3 -C target-cpu=x86-64-v2 -C debug-assertions=off)
source "$here/../compare/standins/build.sh" "$@"
BENCH_SOURCES="$out" compile --edition 2021 --crate-name bench -o "$out/bench" "$here/rust/main.rs"
