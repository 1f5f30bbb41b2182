#!/bin/sh
# Runs the archive against the stored cases whose stage has landed, beside the implementation written for
# speed, from C, against two plain ways to judge a set, and against the independent implementation over
# fixed cases, random cases, lines of images and every image of some small sets. The last line says whether the cases of
# 4 GiB were run. HV_ARCHIVE names another archive than the repository's own.
set -eu

tests=$(cd "$(dirname "$0")" && pwd)
. "$tests/compare/build.sh"

# Builds a Rust program of this folder with the archive.
build() {
    compile_rust --edition 2021 -O -D warnings -C link-arg="$archive" -o "$built/$1" "$tests/$1.rs"
}

build_second "$tests"
build_stored
run "$built/stored" "$tests"/cases/*.txt "$tests"/report/*-*.txt >"$built/cases"

# Refused: a file that says no stage, one that says a landing which the order does not have, and a stored
# answer that is wrong at its own stage.
echo 'set 1 0,1,1,1 => ok 1 1' | tee "$built/unstaged.txt" >"$built/02-R-9.txt"
echo 'set 1 0,1,1,1 => ok 1 2' >"$built/base-wrong.txt"
for refused in unstaged 02-R-9 base-wrong; do
    if run "$built/stored" "$built/$refused.txt" >"$built/printed" 2>&1; then
        echo "$refused.txt: not refused" >&2
        exit 1
    fi
done

build answers
run "$built/answers" --compare <"$built/cases"

build fast_answers
run "$built/fast_answers" <"$built/cases"

build candidates
run "$built/candidates" agree

for program in desk drive; do
    compile_c -std=c11 -Wall -Wextra -Werror -O2 -I "$tests/../include" -o "$built/$program" "$tests/c/$program.c" "$archive"
    run "$built/$program"
done

build_comparer
build_compare
run "$built/compare" 1 600000
