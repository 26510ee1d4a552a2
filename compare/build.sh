#!/usr/bin/env bash
# Builds OUT/driver: the Rust PolicySet of cedar-policy-core 4.14.0, driven by a script of calls.
# SRC is the crate's folder in a checkout of https://github.com/cedar-policy/cedar (it has src/ast/policy_set.rs); its
# files are copied into OUT and are no part of this repository. The third argument is src/lib.rs of the crate
# linked-hash-map 0.5.6; without it a stand-in is compiled.
set -euo pipefail
if [[ $# -lt 2 || $# -gt 3 ]]; then
    echo "usage: compare/build.sh SRC OUT [LINKED_HASH_MAP_LIB_RS]" >&2
    exit 2
fi
here=$(cd "$(dirname "${BASH_SOURCE[0]}")" && pwd)
flags=(-O -C debug-assertions=on)
source "$here/standins/build.sh" "$@"
COMPARE_SOURCES="$out" compile --edition 2021 --crate-name driver -o "$out/driver" "$here/driver/main.rs"
