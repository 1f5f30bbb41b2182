#!/bin/sh
# The lines of code, of definitions and of proof, before and after: lines.sh REVISION prints a row of
# docs/CHANGES.md for each crate that differs from that revision, and one for all crates.
set -eu

root=$(cd "$(dirname "$0")/.." && pwd)
test $# = 1 || { echo "usage: lines.sh REVISION" >&2; exit 2; }
before=$(mktemp -d)
trap 'rm -rf "$before"' EXIT
git -C "$root" archive "$1" crates crates.txt | tar -x -C "$before"

# Prints the lines of a crate's files in one of its folders, in a checkout.
lines() {
    find "$1/crates/$2/$3" -name "*.$4" -exec cat {} + 2>/dev/null | wc -l
}

for crate in $(sed -n 's/^\([a-z_]*\):.*/\1/p' "$before/crates.txt" "$root/crates.txt" | sort -u); do
    echo "$crate"
    for checkout in "$before" "$root"; do
        lines "$checkout" "$crate" src rt
        lines "$checkout" "$crate" specs antt
        lines "$checkout" "$crate" proofs antt
    done
    diff -qr "$before/crates/$crate" "$root/crates/$crate" >"$before/differ" 2>&1 && echo same || echo moved
done | awk '
    function figure(n) { return n < 1000 ? n : sprintf("%d,%03d", n / 1000, n % 1000) }
    function moved(f, i) { return figure(f[i]) " → " figure(f[i + 3]) }
    function row(name, f) { print "| " name " | " moved(f, 1) " | " moved(f, 2) " | " moved(f, 3) " |" }
    /^[a-z]/ && !/^(same|moved)$/ { name = $1; count = 0; next }
    /^[0-9]/ { f[++count] = $1; all[count] += $1; next }
    $1 == "moved" { row("`" name "`", f) }
    END { row("all crates", all) }'
