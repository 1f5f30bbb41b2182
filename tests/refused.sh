#!/bin/sh
# Runs samples/refused on the archive and on the independent implementation, and the programs of
# docs/INTEGRATION.md; looks that the manual's pages agree with both. HV_ARCHIVE names another archive
# than the repository's own.
set -eu

tests=$(cd "$(dirname "$0")" && pwd)
. "$tests/made.sh"
archive=${HV_ARCHIVE:-$(made_archive "$tests/..")}
samples=$tests/../samples
test -f "$archive" || { echo "no archive at $archive" >&2; exit 1; }
. "$tests/host.sh"
built=$(mktemp -d)
trap 'rm -rf "$built"' EXIT

compile_rust --edition 2021 -O -D warnings -C link-arg="$archive" -o "$built/refused" "$tests/refused.rs"
run "$built/refused" "$tests/.."

for program in manual axes; do
    compile_c -std=c11 -Wall -Wextra -Werror -O2 -I "$tests/../include" -o "$built/$program" "$tests/c/$program.c" "$archive"
done

# Runs a program of the manual's; it has to end with the given status and to write what is on standard
# input.
expect_of() {
    program=$1
    status=$2
    shift 2
    cat >"$built/expected"
    ended=0
    run "$built/$program" "$@" >"$built/written" || ended=$?
    diff "$built/expected" "$built/written" && test "$ended" = "$status" ||
        { echo "$program $*: other lines, or status $ended and not $status" >&2; exit 1; }
}
expect() { expect_of manual "$@"; }

# Document 01's lines for P2, then the next cycle's; the new image is P5, which is refused.
expect 0 "$samples/p2.image" "$samples/refused/18-idle-too-long.image" 9 <<'LINES'
new image refused 18 4 0
0 0 0 1
2 0 1 7
1 0 7 9
0 1 9 10
0 2 12 13
1 1 13 15
0 3 15 16
0 0 20 21
2 0 21 27
LINES

# The new image is accepted, and takes over at the second cycle: its idle comes a job later.
expect 0 "$samples/p2.image" "$samples/refused/00-still-valid.image" 15 <<'LINES'
0 0 0 1
2 0 1 7
1 0 7 9
0 1 9 10
0 2 12 13
1 1 13 15
0 3 15 16
0 0 20 21
2 0 21 27
1 0 27 29
0 1 29 30
0 2 30 31
1 1 33 35
0 3 35 36
0 0 40 41
LINES

# The image itself is refused: nothing starts.
expect 1 "$samples/refused/18-idle-too-long.image" "$samples/p2.image" 9 <<'LINES'
image refused 18 4 0
LINES

# P2 comes over the bus while P1 runs, and takes over at the second cycle: document 01's lines for P1, then those for P2, 20 ticks on. In front of them stand the
# lines on standard input, the refusals of the sendings that were not accepted; the last one is.
expect_received() {
    sed 's/^/new image refused /' >"$built/refusals"
    cat "$built/refusals" - <<'LINES' >"$built/lines"
0 0 0 1
1 0 1 3
2 0 3 9
0 1 9 10
0 2 10 11
1 1 11 13
0 3 15 16
0 0 20 21
2 0 21 27
1 0 27 29
0 1 29 30
0 2 32 33
1 1 33 35
0 3 35 36
LINES
    expect 0 "$samples/p1.tables.image" "$samples/p2.image" 14 "$@" <"$built/lines"
}

# A byte at a time; eight, as a CAN frame has them; in two unequal halves; whole; in a buffer that it just fills.
for sending in 1 8 50 91 69931 1/91 8/91 91/91; do expect_received "$sending" </dev/null; done

# A buffer that is a byte too short, or holds not one fragment, gives 20; then it is begun again with a longer one.
expect_received 1/90 8/90 91/90 8/7 8/0 8/91 <<'LINES'
20 0 0
20 0 0
20 0 0
20 0 0
20 0 0
LINES

# A fragment is lost; then the image comes again, whole. The judgement of what was left, by document 01 and the bytes of docs/FORMAT.md:
#   8-0    it begins with byte 8, inside a task: 00 00 is no mark
#   8-4    task 1 is filled up with 8 bytes of task 2, whose C stands where the next mark is due: 00 06
#   8-7    task 2 is filled up with 3 bytes of the ID, and the two PV follow in order: 6 records, and EN says 7
#   8-11   the last fragment, 3 bytes of EN
#   1-66   the ID's last byte: it takes the P of PV, and 56 01 is no mark
#   91-0   nothing comes at all
expect_received 8-0 8-4 8-7 8-11 1-66 91-0 8 <<'LINES'
2 0 0
2 3 41
10 6 77
1 7 85
2 5 67
1 0 0
LINES

# A fragment comes twice.
#   8+0    task 0 is filled up with the image's first 15 bytes, and its T stands where the next mark is due: 00 00
#   8+7    the ID is filled up with 3 bytes of task 2 and comes again behind that: 8 records, and EN says 7
#   91+0   the whole image, and itself again behind EN
#   1+90   the last byte: one is left behind EN
expect_received 8+0 8+7 91+0 1+90 8 <<'LINES'
2 2 23
10 8 93
10 7 85
10 7 85
LINES

# The manual's own table: fragments of 8, each lost and each twice.
sed -nE 's/^\| ([0-9]+)[^|]*\| `refused ([0-9 ]+)`[^|]*\| `refused ([0-9 ]+)`.*/\1|\2|\3/p' "$tests/../docs/INTEGRATION.md" >"$built/rows"
test "$(wc -l <"$built/rows")" = 4 || { echo "not four rows of lost fragments in INTEGRATION.md" >&2; exit 1; }
while IFS='|' read -r fragment lost twice; do
    echo "$lost" | expect_received "8-$fragment" 8
    echo "$twice" | expect_received "8+$fragment" 8
done <"$built/rows"

# Every sample that is checked as tables comes in fragments too: the close tells number, place and byte of answers.txt, however the image was cut.
received=0
while read -r file function arrow answer; do
    test "$function $arrow" = "hv_check_tables =>" || continue
    case $answer in accepted) : >"$built/lines" ;; *) echo "new image $answer" >"$built/lines" ;; esac
    for sending in 1 8 69931; do expect 0 "$samples/p2.image" "$samples/refused/$file" 0 "$sending" <"$built/lines"; done
    received=$((received + 1))
done <"$samples/refused/answers.txt"
test "$received" -gt 20 || { echo "only $received samples came in fragments" >&2; exit 1; }

# The figures of a line: P2's, and those of the examples of documents 001 and 000, as docs/INTEGRATION.md and samples/README.md work them out.
p2="14 2 4 0 -1 -13 4 2 0 -4"
printf '%s\n' $p2 7 0 9 -4 -3 -2 -2 3 -1 2 2 2 56 1 3 0 0 -33 3 -4 1 -4 -2 -5 -5 -6 -8 -7 | expect_of axes 0 "$samples/line.images"
printf '%s\n' $p2 'image 1, at byte 91: refused 19 4 59' | expect_of axes 1 "$samples/refused/19-second-in-a-line.images"
printf '%s\n' $p2 'image 1, at byte 91: refused 2 0 0' | expect_of axes 1 "$samples/refused/10-checksum-behind.image"
echo 'image 0, at byte 0: refused 1 0 0' | expect_of axes 1 "$samples/p12.image"
echo 'image 0, at byte 0: refused 4 0 0' | expect_of axes 1 "$samples/p2.timetable.image"

# Prints the archive's symbols of the given types.
symbols() {
    nm "$archive" | awk -v types="$1" 'NF > 1 && index(types, $(NF - 1)) { print $NF }' | sort
}

# The archive has the header's functions. It needs no more than what a compiler itself asks of a bare
# machine, and it has no writable data: nothing is kept between calls.
declared=$(sed -nE 's/^(uint32_t|void) (hv_[a-z_]*)\(.*/\2/p' "$tests/../include/hervantyu.h" | sort)
test -n "$declared" && test "$(symbols T)" = "$declared" || { echo "not the header's functions:" "$(symbols T)" >&2; exit 1; }
if symbols U | grep -v -x -e memcmp -e memcpy -e memmove -e memset; then
    echo "the archive needs these functions, and the manual does not name them" >&2
    exit 1
fi
if symbols BbCDdGgSs | grep .; then
    echo "the archive has this writable data" >&2
    exit 1
fi

# The header and the proved crate have the same functions with the same kinds of parameters, and nothing but numbers of 32 and 64 bits and pointers to numbers
# crosses the border, so that another processor's calling convention passes it as the archive for it expects (tests/border.awk).
same_border() {
    : >"$built/of-crate"
    awk -f "$tests/border.awk" "$1" >"$built/of-header" && awk -f "$tests/border.awk" "$2" >"$built/of-crate" &&
        sort -o "$built/of-header" "$built/of-header" && sort "$built/of-crate" | diff "$built/of-header" -
}
header=$tests/../include/hervantyu.h
crate=$tests/../crates/hervantyu/src/lib.rt
same_border "$header" "$crate" || { cat "$built/of-header" "$built/of-crate"; echo "the header's functions are not the crate's, or have other kinds of parameters" >&2; exit 1; }
# That test has to refuse slips: a length of a pointer's width, a narrow number, a struct by value, a narrow result, one where there is none and none where there is
# one, a parameter too many, a place without its offset, an intake with other numbers, figures without a sign, and the like in the crate.
slip() {
    sed "$2" "$1" >"$built/slip.${1##*.}"
    if cmp -s "$1" "$built/slip.${1##*.}"; then echo "a slip changes nothing: $2" >&2; exit 1; fi
    case $1 in *.h) set -- "$2" "$built/slip.h" "$crate" ;; *) set -- "$2" "$header" "$built/slip.rt" ;; esac
    if same_border "$2" "$3" >/dev/null; then echo "a slip at the border is not refused: $1" >&2; exit 1; fi
}
for edit in 's/uint64_t len,/size_t len,/' 's/(uint32_t n,/(uint8_t n,/' 's/(struct hv_dispatcher \*HV_RESTRICT d/(struct hv_dispatcher d/' \
    's/^uint32_t hv_begin/uint16_t hv_begin/' 's/uint64_t end,/uint32_t end,/' 's/uint64_t end,/uint64_t end, uint32_t more,/' 's/    uint32_t cycle;/    uint64_t cycle;/' \
    's/uint64_t where\[HV_LENT(2)\]/uint64_t *HV_RESTRICT place/' 's/^void hv_intake_begin/uint32_t hv_intake_begin/' 's/^uint32_t hv_intake_take/void hv_intake_take/' \
    's/    uint64_t open, count;/    uint32_t open, count;/' 's/    uint64_t open, count;/    uint64_t open, count, more;/' 's/(struct hv_intake \*HV_RESTRICT k/(struct hv_intake k/' \
    's/uint8_t \*HV_RESTRICT buffer, uint64_t room, const/uint8_t *HV_RESTRICT buffer, const/' 's/int64_t \*HV_RESTRICT figures/u&/' \
    's/ \(int64_t \*HV_RESTRICT figures\)/ const \1/' 's/int64_t \*HV_RESTRICT figures, uint64_t room/int64_t *HV_RESTRICT figures/' \
    's/const uint8_t \*HV_RESTRICT image, uint64_t len, uint64_t end/uint64_t len, const uint8_t *HV_RESTRICT image, uint64_t end/'; do
    slip "$header" "$edit"
done
for edit in 's/^    n: u32,/    n: usize,/' 's/^    end: u64,/    end: u16,/' 's/^    n: u32,/    n: Refusal,/' 's/^    end: u64,//' \
    's/location: &mut \[u64; 2\]) -> u32/location: \&mut [u64; 2]) -> bool/' 's/location: &mut \[u64; 2\]/location: \&mut [u32; 2]/' \
    's/k: &mut \[u64; 2\]/k: \&mut [u32; 2]/' 's/hv_intake_begin(k: &mut \[u64; 2\])/& -> u32/' 's/buffer: &mut \[u8\]/buffer: \&[u8]/' \
    's/numbers: &mut \[i64\]/numbers: \&mut [u64]/' 's/numbers: &mut \[i64\]/numbers: \&[i64]/'; do
    slip "$crate" "$edit"
done
echo "the manual's programs, the archive's symbols and what crosses its border are as the manual says"
