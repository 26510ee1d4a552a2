#!/usr/bin/env bash
# Compares the console with the Rust PolicySet: builds the driver in OUT, then gives both programs COUNT generated scripts
# of NCALLS calls and the scripts at the limits, and the console alone COUNT damaged scripts. Fails on any difference.
# SRC is the folder of cedar-policy-core, CONSOLE the built program. JOBS says how many scripts are answered at a time,
# FIRST the seed of the first.
set -uo pipefail
if [[ $# -lt 3 || $# -gt 5 ]]; then
    echo "usage: compare/run.sh SRC OUT CONSOLE [COUNT [NCALLS]]" >&2
    exit 2
fi
here=$(cd "$(dirname "${BASH_SOURCE[0]}")" && pwd)
source=$1
out=$2
console=$(realpath "$3") || exit 2
count=${4:-200}
ncalls=${5:-150}
jobs=${JOBS:-2}
first=${FIRST:-1}
export PYTHONDONTWRITEBYTECODE=1

"$here/build.sh" "$source" "$out" || exit 1
driver=$(realpath "$out")/driver
status=0
python3 "$here/compare.py" "$driver" "$console" "$first" "$count" "$ncalls" --jobs "$jobs" --stats || status=1
python3 "$here/limits.py" "$driver" "$console" || status=1
python3 "$here/damage.py" "$console" "$first" "$count" --jobs "$jobs" --keep "$out/failed" || status=1
if [[ $status -eq 0 ]]; then
    echo "no difference"
else
    echo "there are differences"
fi
exit $status
