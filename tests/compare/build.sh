# Sourced by the scripts that need the second opinion, which set tests: builds the programs compare and
# stored in a folder of its own, named built, in steps, so that the second opinion can be another one.

. "$tests/made.sh"
archive=${HV_ARCHIVE:-$(made_archive "$tests/..")}
test -f "$archive" || { echo "no archive at $archive" >&2; exit 1; }
. "$tests/host.sh"
built=$(mktemp -d)
trap 'rm -rf "$built"' EXIT

build_comparer() {
    compile_rust --edition 2021 -O -D warnings --crate-type rlib --crate-name comparer \
        -o "$built/libcomparer.rlib" "$tests/compare/comparer.rs"
}

# The second opinion in a folder that has compare/second.rs and independent/; the further arguments are
# for the compiler.
build_second() {
    second=$1
    shift
    compile_rust --edition 2021 -O -D warnings "$@" --crate-type rlib --crate-name second \
        -o "$built/libsecond.rlib" "$second/compare/second.rs"
}

# The program compare, once the two are built.
build_compare() {
    compile_rust --edition 2021 -O -D warnings --extern second="$built/libsecond.rlib" \
        --extern comparer="$built/libcomparer.rlib" -C link-arg="$archive" \
        -o "$built/compare" "$tests/compare.rs"
}

# The program stored, once the second opinion is built.
build_stored() {
    compile_rust --edition 2021 -O -D warnings --extern second="$built/libsecond.rlib" \
        -o "$built/stored" "$tests/stored.rs"
}
