#!/bin/sh
# Runs the listing program, the repository's own or a command of this host that is named, on the stored
# cases: the image on its standard input, its standard output compared with the stored lines. Of the
# repository's own also what it writes to each of its outputs where a read or a write fails.
set -eu

folder=$(cd "$(dirname "$0")" && pwd)
name=listing
. "$folder/../program.sh"

over_stored

# The most bytes that are judged, and one more.
compare "65,536 bytes of 0" "refused 2 0 0|" "$(head -c 65536 /dev/zero | answered)"
compare "65,537 bytes of 0" "refused 20 0 0|" "$(head -c 65537 /dev/zero | answered)"

# An image that the archive accepts and that is longer.
build_long
compare "a valid table image of $(wc -c <"$long") bytes" "refused 20 0 0|" "$(answered <"$long")"

p2='0 0 0 1|2 0 1 7|1 0 7 9|0 1 9 10|0 2 12 13|1 1 13 15|0 3 15 16|ok 7|'
compare "P2 in pieces" "$p2" "$(pieces "$samples/p2.image" 10 | answered)"

test -n "$named" || where_it_fails "$p2" "$samples/drive.tables.image"
verdict
