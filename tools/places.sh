#!/bin/sh
# Counts the places that docs/DESIGN-PASS.md looks at, a line for each pattern:
#   tools/places.sh [COMMIT]            of the checkout, or of a commit
#   tools/places.sh show WORD [COMMIT]  the places themselves, of the pattern whose line has the word
set -eu
cd "$(dirname "$0")/.."
show=
test "${1:-}" != show || { show=$2; shift 2; }
tree=.
if test $# -gt 0; then
    tree=$(mktemp -d)
    trap 'rm -rf "$tree"' EXIT
    git archive "$1" crates | tar x -C "$tree"
fi
cd "$tree"

# Lines of src/ that a pattern finds.
of_code() {
    found=$(grep -nE "$2" crates/*/src/*.rt || true)
    printf '%-45s %5d\n' "$1" "$(printf '%s' "$found" | grep -c . || true)"
    case $1 in *"${show:-no such word}"*) printf '%s\n' "$found" ;; esac
}

of_code '1 enums' '^(pub )?enum '
of_code '1 number 0 for no refusal' 'number != 0|NO_REFUSAL|number: 0'
of_code '1 a number or a flag for none' 'NO_DELAY|MARKS|task: 16|return 65536;|NO_SET|readable: bool'
of_code '1 numbers for kinds and marks' '\b(kind|k): (u32|usize)\b'
of_code '1 refusals by their number' '(refuses|Stuck|refused|refusal|refusal_at)\([0-9]+|number: [1-9][0-9]*,|return 1[0-9];|(Some|break)\(?1[0-9]'
of_code '2 functions alike by name' 'fn (read|store|number)[0-9]|fn wide|fn (head|task|entry|idle|inversion|end)_(body|at)\b|fn put_(head|task|entry|idle|inversion|end)\b|fn told_|fn (judge_)?(idles|inversions)(_fault)?\b|fn (idle|inversion)_shown|fn (read|write)_from\b|fn [a-z_]*_in_place|fn refused|pub fn check\b|fn (some_earlier|lower_waits|missing)\b|fn (first_offsets|location_in|located)\b'
of_code '3 loops' '^ *(while |for )|loop \{'
of_code '3 of them while and loop' '^ *while |loop \{'
of_code '4 casts' ' as (u8|u16|u32|u64|usize|i64)\b'
of_code '4 derives' 'derive\('
of_code '5 clauses over some set' '\(ts : (book\.)?Set\)'
of_code '5 rows lent' '&(mut )?\[\[u32; 16\]; [36]\]'
of_code '5 an output and a place in it' 'out: &mut \[u8\], (at|place): usize'
of_code '5 numbers and a place in them' 'numbers: &(mut )?\[u32\], at: usize'
of_code '6 arrays of slots' '\[\[(u32|usize|i64); 16\]; [36]\]|\[(u32|usize|i64|Task); 16\]'
of_code '7 functions told by a bool' '\b[a-z_]+: bool[,)]'
answers=$(find crates/*/proofs -name Answers.antt)
echo "8 answers in files of lines" "$(cat $answers | grep -cE '^pub ')" "$(echo "$answers" | wc -l)" "$(cat $answers | wc -l)"
echo "8 lines of proof" "$(find crates/*/proofs -name '*.antt' | xargs cat | wc -l)"
