#!/bin/sh
# Measures the bytes of table images beside those of their timetable images, over random task sets, and
# compares what it prints with the tables of docs/PERFORMANCE.md. HV_ARCHIVE names another archive than the
# repository's own.
set -eu

tests=$(cd "$(dirname "$0")" && pwd)
. "$tests/made.sh"
archive=${HV_ARCHIVE:-$(made_archive "$tests/..")}
test -f "$archive" || { echo "no archive at $archive" >&2; exit 1; }
. "$tests/host.sh"
built=$(mktemp -d)
trap 'rm -rf "$built"' EXIT

compile_rust --edition 2021 -O -D warnings -C link-arg="$archive" -o "$built/sizes" "$tests/sizes.rs"
run "$built/sizes" >"$built/printed"
cat "$built/printed"

# The rows of all tables in that section, and of all that are printed.
awk '/^## / { inside = $0 == "## Bytes of an image" } inside && /^\|/' "$tests/../docs/PERFORMANCE.md" >"$built/stated"
awk '/^\|/' "$built/printed" >"$built/measured"
test -s "$built/measured" || { echo "no table was printed" >&2; exit 1; }
test -s "$built/stated" || { echo "docs/PERFORMANCE.md has no table of the bytes of an image" >&2; exit 1; }
diff "$built/stated" "$built/measured" || { echo "docs/PERFORMANCE.md has other tables than were measured" >&2; exit 1; }
echo "docs/PERFORMANCE.md has these $(wc -l <"$built/stated") rows"
