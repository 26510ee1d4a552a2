# To be sourced with SRC OUT [LINKED_HASH_MAP_LIB_RS], where `flags` is an array of what rustc is given beside:
# copies the crate's three files into OUT, builds there what stands in for the rest, goes to OUT, and leaves `out` and `compile`.
standins=$(cd "$(dirname "${BASH_SOURCE[0]}")" && pwd)
mkdir -p "$2"
out=$(cd "$2" && pwd)
for file in policy_set policy annotation; do
    cp "$1/src/ast/$file.rs" "$out/$file.rs"
    chmod u+w "$out/$file.rs"
done
# Where the test module was cut off, its last attribute hangs in the air; a whole file ends otherwise.
sed -i '${/^#\[expect(clippy::panic, clippy::indexing_slicing, reason = "tests")\]$/d}' "$out/policy_set.rs"
map=$standins/linked_hash_map.rs
edition=2021
if [[ $# -eq 3 ]]; then
    map=$(cd "$(dirname "$3")" && pwd)/$(basename "$3")
    edition=2015
fi

cd "$out"
compile() {
    rustc "${flags[@]}" -L "$out" --cap-lints allow "$@"
}
compile --edition $edition --crate-name linked_hash_map --crate-type rlib "$map"
compile --edition 2021 --crate-name standin_macros --crate-type proc-macro "$standins/macros.rs"
compile --edition 2021 --crate-name standins --crate-type rlib "$standins/crates.rs"
