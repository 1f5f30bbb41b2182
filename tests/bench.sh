#!/bin/sh
# Measures the archive beside an implementation written for speed. On some processors a loop takes up
# to twice as long where a branch of it lies on a boundary of 32 bytes, and where the archive's
# functions lie is the linker's choice: so the program is linked four times, with the archive moved
# by 16 bytes each time, and the other implementation is compiled with its branches off those
# boundaries. Each program is run twice, and the least time of each side counts: what else runs on the
# machine only adds to a time. HV_ARCHIVE names another archive than the repository's own.
# With `sets` as its argument it times judging 4,000 candidate sets of each kind beside two plain ways,
# linked and run alike. With `learnt` as its argument it times deriving over one image and over many in
# turn, linked once. With `take` it times taking fragments of 8, 64 and 4,096 bytes until a buffer of 65,536
# is full, beside the same written for speed and beside memcpy, linked once. With `line` it times the figures of a
# line of 10,000 images, linked once, and the report program on that line beside a report written for speed.
# With `instructions` as its argument it counts those executed instead, into which neither the processor
# nor what else it does comes: an emulator (Debian's qemu-user) runs the program and a plugin counts. With
# `instructions sets` it counts those of judging a candidate set, the mean over 400, with `instructions take`
# those of taking one fragment, the mean over a buffer, and with `instructions line` those of the figures and
# the report of one image, the mean over the line.
set -eu

tests=$(cd "$(dirname "$0")" && pwd)
. "$tests/made.sh"
archive=${HV_ARCHIVE:-$(made_archive "$tests/..")}
test -f "$archive" || { echo "no archive at $archive" >&2; exit 1; }
. "$tests/host.sh"
built=$(mktemp -d)
trap 'rm -rf "$built"' EXIT

# Prints how many instructions a program executes with these arguments.
counted() {
    program=$1
    shift
    COUNTED="$built/counted" qemu-x86_64 -plugin "$built/count.so" "$program" "$@"
    cat "$built/counted"
}

# Prints how many it executes for one call with these arguments, behind which stands how many times: half
# the difference between one time and three.
executed() {
    program=$1
    shift
    once=$(counted "$built/$program" "$@" 1)
    thrice=$(counted "$built/$program" "$@" 3)
    echo "$(((thrice - once) / 2))"
}

# Makes the line of $1 images, and demands that the report program and the one written for speed write the same lines for it.
make_line() {
    report=$(made_program "$tests/.." report)
    test -f "$report" || { echo "no program at $report" >&2; exit 1; }
    run "$built/bench" line "$1" >"$built/line"
    run "$report" <"$built/line" >"$built/lines"
    run "$built/bench" report <"$built/line" | cmp - "$built/lines" || { echo "the reports differ" >&2; exit 1; }
}

# Prints how many instructions a program executes for the line with these arguments.
reported() {
    counted "$@" <"$built/line" | tail -n 1
}

# Prints how many nanoseconds a program takes for the line with these arguments, the least of three times.
least_time() {
    for round in 1 2 3; do
        began=$(date +%s%N)
        run "$@" <"$built/line" >/dev/null
        echo "$(($(date +%s%N) - began))"
    done | sort -n | head -n 1
}

# Compiles a program of this folder with the archive.
compile() {
    program=$1
    shift
    compile_rust --edition 2021 -O -D warnings -C codegen-units=1 "$@" -C link-arg="$archive" -o "$built/$program" "$tests/$program.rs"
}

# Runs a program of this folder eight times, linked in four ways; the rows that it printed are in $built/16 to $built/64.
placed() {
    for moved in 16 32 48 64; do
        cat >"$built/moved.c" <<END
__asm__(".section .text.moved, \"ax\", @progbits\n.globl moved\nmoved: .skip $moved, 0x90\n");
END
        compile_c -c -o "$built/moved.o" "$built/moved.c"
        # Unquoted: one word for each of the compiler's.
        compile "$1" $branches -C link-arg=-Wl,-u,moved -C link-arg="$built/moved.o"
        run "$built/$1" >"$built/first"
        run "$built/$1" >"$built/second"
        awk 'FNR > 1' "$built/first" "$built/second" >"$built/$moved"
    done
}

if test "${1:-}" = instructions; then
    command -v qemu-x86_64 >/dev/null || { echo "needed: qemu-x86_64, of Debian's qemu-user" >&2; exit 1; }
    gcc -shared -fPIC -O2 -o "$built/count.so" "$tests/count.c"
    if test "${2:-}" = sets; then
        compile candidates
        echo "multiples/archive  factors/archive  periods   tasks  archive  multiples  factors"
        for kind in divisors digits any short; do
            for tasks in 4 8 16; do
                for side in archive multiples factors; do
                    executed candidates "$side" "$kind" "$tasks"
                done | paste -s | awk -v kind="$kind" -v tasks="$tasks" '
                    NF != 3 { exit 1 }
                    { printf "%17.1f  %15.1f  %-8s  %5d  %7d  %9d  %7d\n", $2 / $1, $3 / $1, kind, tasks, $1 / 400, $2 / 400, $3 / 400 }'
            done
        done
        exit
    fi
    compile bench
    if test "${2:-}" = take; then
        echo "archive/memcpy  bytes  archive     fast   memcpy"
        for bytes in 8 64 4096; do
            for side in archive fast memcpy; do
                executed bench take "$side" "$bytes"
            done | paste -s | awk -v bytes="$bytes" '
                NF != 3 { exit 1 }
                { calls = 65536 / bytes; printf "%14.2f  %5d  %7.1f  %7.1f  %7.1f\n", $1 / $3, bytes, $1 / calls, $2 / calls, $3 / calls }'
        done
        exit
    fi
    if test "${2:-}" = line; then
        make_line 1000
        echo "archive/fast  call     images     archive        fast"
        {
            for side in archive fast; do executed bench figures "$side" 1000; done | paste -s | sed 's/^/figures /'
            echo "report $(reported "$report") $(reported "$built/bench" report)"
        } | awk 'NF != 3 { exit 1 } { printf "%12.2f  %-8s %6d  %10d  %10d\n", $2 / $3, $1, 1000, $2 / 1000, $3 / 1000 }'
        exit
    fi
    echo "archive/fast  call     tasks  jobs     archive        fast"
    for shape in "0 2 256" "1 2 1024" "2 2 4096" "3 16 256" "4 16 1024" "5 16 4096"; do
        # Unquoted: the set's number among the program's, its tasks and its jobs.
        set -- $shape
        for call in check derive accept rebuild go; do
            for side in archive fast; do
                executed bench "$call" "$side" "$1"
            done | paste -s | awk -v call="$call" -v tasks="$2" -v jobs="$3" '
                NF != 2 { exit 1 }
                { printf "%12.2f  %-8s %5d %5d  %10d  %10d\n", $1 / $2, call, tasks, jobs, $1, $2 }'
        done
    done
    exit
fi

# Only compilers for x86-64 know of those boundaries.
branches="-C llvm-args=-x86-branches-within-32B-boundaries"
if test -n "${HV_NATIVE:-}" && test "$(uname -m)" != x86_64; then
    branches=
fi

if test "${1:-}" = learnt || test "${1:-}" = take; then
    # Unquoted: one word for each of the compiler's.
    compile bench $branches
    run "$built/bench" "$1"
    exit
fi

if test "${1:-}" = line; then
    # Unquoted: one word for each of the compiler's.
    compile bench $branches
    run "$built/bench" figures
    # The report program is for x86-64: beside an archive for the host's own processor it is not timed.
    test -z "${HV_NATIVE:-}" || exit 0
    make_line 10000
    echo "report/fast  images  report images/s  fast images/s"
    echo "$(least_time "$report") $(least_time "$built/bench" report)" |
        awk '{ printf "%11.2f  %6d  %15d  %13d\n", $1 / $2, 10000, 1e13 / $1, 1e13 / $2 }'
    exit
fi

if test "${1:-}" = sets; then
    placed candidates
    awk '
        {
            row = $1 " " $2
            if (!(row in shape)) {
                rows[++count] = row
                shape[row] = sprintf("%-8s  %5s  %4s  %4s  %4s", $1, $2, $3, $4, $5)
                for (side = 6; side <= 8; side++) least[row, side] = $side
            }
            for (side = 6; side <= 8; side++) if ($side + 0 < least[row, side]) least[row, side] = $side
        }
        END {
            print "multiples/archive  factors/archive  periods   tasks  good     8     9  archive ns  multiples ns  factors ns"
            for (i = 1; i <= count; i++) {
                row = rows[i]; archive = least[row, 6]; multiples = least[row, 7]; factors = least[row, 8]
                printf "%17.1f  %15.1f  %s  %10.1f  %12.1f  %10.1f\n", multiples / archive, factors / archive, shape[row], archive, multiples, factors
            }
        }' "$built/16" "$built/32" "$built/48" "$built/64"
    exit
fi

placed bench
awk '
    {
        row = $2 " " $3 " " $4
        if (!(row in low)) {
            rows[++count] = row
            shape[row] = sprintf("%-8s %5s %5s  %5s  %10s  %5s", $2, $3, $4, $5, $6, $7)
            low[row] = $8; fast[row] = $9; unlimited[row] = $10
        }
        if ($8 < low[row]) low[row] = $8
        if ($9 < fast[row]) fast[row] = $9
        if ($10 != "" && $10 < unlimited[row]) unlimited[row] = $10
    }
    END {
        print "archive/fast  call     tasks  jobs  idles  inversions  bytes  archive ns   fast ns  unlimited ns"
        for (i = 1; i <= count; i++) {
            row = rows[i]
            printf "%12.2f  %s  %10d  %8d  %12s\n", low[row] / fast[row], shape[row], low[row], fast[row], unlimited[row]
        }
        print "\ngrowth of the archive from 256 to 4,096 jobs, 16 times as many: call, tasks, times as long"
        for (i = 1; i <= count; i++) {
            split(rows[i], part, " ")
            if (part[3] == 4096)
                printf "  %-8s %5s  %5.1f\n", part[1], part[2], low[rows[i]] / low[part[1] " " part[2] " 256"]
        }
    }' "$built/16" "$built/32" "$built/48" "$built/64"
