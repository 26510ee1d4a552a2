#!/usr/bin/env bash
# Prints, as a Markdown table, how large each crate of crates.txt is: lines of src/ without tests, of specs/ and of proofs/,
# functions, must-fail edits. Lines are all lines, with blank ones and comments. The last column is left to be filled in.
set -euo pipefail
cd "$(dirname "$0")/.."

# The .rt files of a crate that are not tests: a module under `#[cfg(test)]` is left out, with its folder.
sources() { # CRATE
    local root=crates/$1/src file module
    local -a tests=()
    while IFS= read -r file; do
        while IFS= read -r module; do
            tests+=(! -path "$root/$module.rt" ! -path "$root/$module/*")
        done < <(grep -A1 -F '#[cfg(test)]' "$file" | sed -nE 's/^ *(pub )?mod ([a-z_0-9]+);$/\2/p')
    done < <(find "$root" -maxdepth 1 -name '*.rt')
    find "$root" -name '*.rt' "${tests[@]}"
}

lines() { xargs -r cat | wc -l; } # of the files that are named on standard input

functions() { # of the files that are named on standard input
    xargs -r cat | sed 's|//.*||' | grep -cE '^ *(pub(\([a-z]+\))? )?(const )?(unsafe )?fn [a-z_0-9]+' || true
}

files_in() { [[ -d $1 ]] && find "$1" -name "$2" || true; } # FOLDER PATTERN

row() { printf '| %s | %s | %s | %s | %s | %s | |\n' "$@"; }

echo '| crate | lines of `src/` | lines of `specs/` | lines of `proofs/` | functions | must-fail edits | seconds to check from nothing |'
echo '|---|---|---|---|---|---|---|'
total=(0 0 0 0 0)
while IFS= read -r crate; do
    numbers=(
        "$(sources "$crate" | lines)"
        "$(files_in "crates/$crate/specs" '*.antt' | lines)"
        "$(files_in "crates/$crate/proofs" '*.antt' | lines)"
        "$(sources "$crate" | functions)"
        "$(files_in "crates/$crate/must-fail" '*.edit' | wc -l)"
    )
    for i in "${!numbers[@]}"; do total[i]=$((total[i] + numbers[i])); done
    row "\`$crate\`" "${numbers[@]}"
done < <(sed -nE 's/^([a-z_0-9]+):.*/\1/p' crates.txt)
row all "${total[@]}"
