#!/bin/sh
# Shows that compare bites: plants each slip of slips/, or those named, in a copy of the independent
# implementation, and tells how many cases it took to find it. Fails where one is not found.
set -eu

tests=$(cd "$(dirname "$0")" && pwd)
. "$tests/compare/build.sh"
cases=500000

# Replaces the text, which has to stand exactly once in the file.
plant() {
    FROM=$2 TO=$3 awk '
        BEGIN { from = ENVIRON["FROM"]; to = ENVIRON["TO"] }
        {
            done = ""
            while (at = index($0, from)) {
                done = done substr($0, 1, at - 1) to
                $0 = substr($0, at + length(from))
                found++
            }
            print done $0
        }
        END { exit found != 1 }' "$1" >"$built/planted" ||
        { echo "$1 has not exactly one '$2'" >&2; exit 1; }
    cp "$built/planted" "$1"
}

build_comparer
test $# -gt 0 || set -- "$tests"/slips/*.edit
missed=0
for edit in "$@"; do
    copy=$built/copy
    rm -rf "$copy"
    mkdir -p "$copy/compare"
    cp -r "$tests/independent" "$copy/independent"
    cp "$tests/compare/second.rs" "$copy/compare/"
    file=$copy/independent/$(sed -n 's/^file: //p' "$edit")
    plant "$file" "$(sed -n 's/^old: //p' "$edit")" "$(sed -n 's/^new: //p' "$edit")"
    build_second "$copy" --cap-lints allow
    build_compare
    found=$(run "$built/compare" 1 "$cases" 1 2>/dev/null | tail -n 1)
    case $found in
        *" cases, 1 differ") ;;
        *) missed=$((missed + 1)) ;;
    esac
    printf '%-28s%-28s%s\n' "$(basename "$edit" .edit)" "$found" "$(sed -n 's/^# //p' "$edit")"
done
echo "$# slips, $missed not found"
test "$missed" = 0
