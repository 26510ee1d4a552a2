#!/usr/bin/env bash
# bench/run.sh SRC OUT [LINKED_HASH_MAP_LIB_RS]
# Prints for each unit of work the nanoseconds of a call, ours and the Rust's, and ours divided by the Rust's.
# SRC is the folder of the crate cedar-policy-core 4.14.0 (it has src/ast/policy_set.rs), OUT where the Rust program and
# what was measured go. The third argument is src/lib.rs of the crate linked-hash-map 0.5.6; without it a stand-in with
# linear look-ups is compiled. ROUNDS=N runs both programs N times by turns (3) and takes the lowest of the medians.
set -euo pipefail
if [[ $# -lt 2 || $# -gt 3 ]]; then
    echo "usage: bench/run.sh SRC OUT [LINKED_HASH_MAP_LIB_RS]" >&2
    exit 2
fi
here=$(cd "$(dirname "${BASH_SOURCE[0]}")" && pwd)
ours=$here/../crates/bench
"$here/build.sh" "$@"
out=$(cd "$2" && pwd)
if ! log=$(cd "$ours" && rt run --backend llvm </dev/null 2>&1); then
    printf '%s\n' "$log" >&2
    exit 1
fi

rm -f "$out"/rust.[0-9]* "$out"/ours.[0-9]*
for ((round = 1; round <= ${ROUNDS:-3}; round++)); do
    "$out/bench" >"$out/rust.$round" 2>>"$out/rust.quartiles"
    "$ours/out/bench" time >"$out/ours.$round" 2>>"$out/ours.quartiles"
done
awk -f "$here/table.awk" "$out"/rust.[0-9]* "$out"/ours.[0-9]*
