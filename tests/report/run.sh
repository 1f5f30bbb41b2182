#!/bin/sh
# Runs the report program, the repository's own or a command of this host that is named, on the stored cases,
# on lines at its limits and on random ones: the images on its standard input, its standard output compared
# with the lines that are stored or the independent implementation's. Then a line in pieces, and of the
# repository's own also what it writes where a read or a write fails, and the memory that it holds.
set -eu

folder=$(cd "$(dirname "$0")" && pwd)
name=report
. "$folder/../program.sh"

over_stored
compile_rust --edition 2021 -O -D warnings --extern second="$built/libsecond.rlib" -o "$built/lines" "$folder/lines.rs"
run "$built/lines" 1 40 >"$built/made"
over_cases "$built/made" "$built/made-cases"

# The most images, one more and a byte more, as they are stored in no file: P9 has the lines 1, 0, 0, 0 and 0.
repeated() {
    yes "$2" | head -n "$1" | xargs cat
}
repeated 10000 "$samples/p9.tables.image" >"$built/most"
yes '1|0|0|0|0|' | head -n 10000 | tr -d '\n' >"$built/most-lines"
most=$(cat "$built/most-lines")
compare "10,000 images" "$most" "$(answered <"$built/most")"
compare "10,001 images" "${most}refused 20 0 0|" "$(cat "$built/most" "$samples/p9.tables.image" | answered)"
compare "10,000 images and a byte" "${most}refused 20 0 0|" "$({ cat "$built/most" && printf T; } | answered)"

# An image that the archive accepts and that is longer than 65,536 bytes; what it has of them ends inside a PV.
build_long
compare "a valid table image of $(wc -c <"$long") bytes" "refused 20 0 0|" "$(answered <"$long")"
compare "its first 65,537 bytes" "refused 20 0 0|" "$(head -c 65537 "$long" | answered)"
compare "its first 65,536 bytes" "refused 1 7721 65533|" "$(head -c 65536 "$long" | answered)"
compare "no bytes" "refused 1 0 0|" "$(answered </dev/null)"

# All stored lines that are not refused, as one: at once and in pieces.
for lines in $(grep -L refused "$built"/stored-cases/*.out); do
    cat "${lines%.out}.in" >>"$built/line"
    cat "$lines" >>"$built/line-lines"
done
expected=$(joined <"$built/line-lines")
compare "one line at once" "$expected" "$(answered <"$built/line")"
for bytes in 1 7 4096; do
    compare "one line in pieces of $bytes bytes" "$expected" "$(pieces "$built/line" "$bytes" | answered)"
done

if test -z "$named"; then
    p2='14|2|4|0|-1|-13|4|2|0|-4|'
    repeated 40 "$samples/p2.image" >"$built/forty"
    where_it_fails "$p2" "$built/forty"

    # Whole images, and half of one behind which a read fails: the lines of those that are whole stay.
    cut_off "$samples/p2.image"
    told "a read that fails in the second image" "$p2" "report: standard input: Resource temporarily unavailable|"

    # Ten times as many images take no more memory, but for 16 pages: their bytes would be 199, the lines that they have 54. With 1,000 of them what is
    # read at once has been filled.
    gcc -O2 -Wall -Wextra -Werror -o "$built/peak" "$folder/peak.c"
    for count_of in 1000 10000; do
        repeated "$count_of" "$samples/p2.image" >"$built/many"
        # Unquoted: no word where there is no emulator.
        "$built/peak" "$built/held-$count_of" $emulator "$program" <"$built/many" >"$out"
        compare "the lines of $count_of images" "$((10 * count_of))" "$(wc -l <"$out" | tr -d ' ')"
    done
    fewer=$(cat "$built/held-1000") more=$(cat "$built/held-10000")
    test "$more" -le "$((fewer + 64))" && constant=yes || constant="$fewer and $more kilobytes"
    compare "the memory of 1,000 images is enough for 10,000" yes "$constant"
fi
verdict
