#!/bin/sh
# Figures that a drive's engineer asks for, read off the archives that ./build-for leaves and off runs of them under an emulator, as the tables of docs/INTEGRATION.md:
#   figures.sh [TARGET...|all]        bytes, stack, instructions of hv_go_on and of hv_begin; by default of x86-64, aarch64-linux and cortex-m4
#   figures.sh bound [TARGET...|all]  how many instructions one hv_go_on can execute at most, by the number of tasks; by default on cortex-m4; half a minute each
#   figures.sh profile TARGET         instructions of one hv_go_on by function of the archive; with HV_PLACES=1 each of its instructions too
# The first two fail where the page has other figures; with --print behind the command's name they only print. Instructions are those of the archive itself, and one
# that a condition switches off counts. What the archive calls is told beside them: calls and bytes of the functions that move and clear memory, calls and
# instructions of the compiler's library (divisions on a processor that has none). HV_ARCHIVE names another archive, for the one target that is asked for.
set -eu

tests=$(cd "$(dirname "$0")" && pwd)
. "$tests/host.sh"
. "$tests/made.sh"
. "$tests/../targets/tools.sh"
built=$(mktemp -d)
trap 'rm -rf "$built"' EXIT
page=$tests/../docs/INTEGRATION.md
every="x86-64 aarch64-linux aarch64-bare cortex-m0plus cortex-m4 cortex-m7 cortex-m33 cortex-r5 cortex-r5-be"

fail() {
    echo "$*" >&2
    exit 1
}

# ---- Targets ----

archive_of() {
    if test -n "${HV_ARCHIVE:-}"; then
        echo "$HV_ARCHIVE"
    elif test "$1" = x86-64; then
        made_archive "$tests/.."
    else
        echo "$tests/../target/$1/libhervantyu.a"
    fi
}

# What begins the names of a target's compiler and tools.
prefix_of() {
    case $1 in
    x86-64) begins=x86_64-linux-gnu- ;;
    aarch64-*) begins=aarch64-linux-gnu- ;;
    *) begins=arm-none-eabi- ;;
    esac
    test "$begins" = "$(uname -m)-linux-gnu-" || echo "$begins"
}

# What the compiler is told for a target, and what runs the program there.
of_target() {
    board=
    case $1 in
    x86-64) words='-fno-pic -no-pie' runs=qemu-x86_64 ;;
    aarch64-linux | aarch64-bare) words='-fno-pic -no-pie' runs=qemu-aarch64 ;;
    cortex-m0plus) words='-mcpu=cortex-m0plus -mthumb' runs=qemu-arm ;;
    cortex-m4) words='-mcpu=cortex-m4 -mthumb -mfloat-abi=hard -mfpu=fpv4-sp-d16' runs=qemu-system-arm board=mps2-an386 ;;
    cortex-m7) words='-mcpu=cortex-m7 -mthumb -mfloat-abi=hard -mfpu=fpv5-d16' runs=qemu-system-arm board=mps2-an500 ;;
    cortex-m33) words='-mcpu=cortex-m33 -mthumb -mfloat-abi=hard -mfpu=fpv5-sp-d16' runs=qemu-arm ;;
    cortex-r5) words='-mcpu=cortex-r5 -mthumb -mfloat-abi=hard -mfpu=vfpv3-d16' runs='qemu-arm -cpu cortex-r5f' ;;
    cortex-r5-be) words='-mcpu=cortex-r5 -mthumb -mfloat-abi=hard -mfpu=vfpv3-d16 -mbig-endian -Wl,--be8' runs='qemu-armeb -cpu cortex-r5f' ;;
    *) fail "no such target: $1" ;;
    esac
}

# The packages that these targets need, and their archives.
have() {
    for asked in "$@"; do
        of_target "$asked"
        test -f "$(archive_of "$asked")" || fail "no archive at $(archive_of "$asked")"
        case $(prefix_of "$asked") in
        arm-none-eabi-) arm_tools arm-none-eabi-gcc=gcc-arm-none-eabi ;;
        aarch64-linux-gnu-) arm_tools aarch64-linux-gnu-gcc=gcc-aarch64-linux-gnu ;;
        x86_64-linux-gnu-) arm_tools x86_64-linux-gnu-gcc=gcc-x86-64-linux-gnu ;;
        esac
        case $runs in
        qemu-system-arm) arm_tools qemu-system-arm=qemu-system-arm ;;
        *) arm_tools "${runs%% *}=qemu-user" ;;
        esac
    done
}

# ---- Calls, counted ----

# Makes the images that are asked for, into a folder of that name.
make_images() {
    test -x "$built/figures" || compile_rust --edition 2021 -O -D warnings -o "$built/figures" "$tests/figures.rs"
    mkdir -p "$built/$1"
    run "$built/figures" "$1" "$built/$1"
}

# Images for the program that is measured, one behind the other; each word is CYCLES:FILE.
joined() {
    for word in "$@"; do
        bytes=$(wc -c <"${word#*:}")
        printf "$(printf '\\%03o\\%03o\\%03o\\%03o' "${word%%:*}" $((bytes >> 16 & 255)) $((bytes >> 8 & 255)) $((bytes & 255)))"
        cat "${word#*:}"
    done
}

# Links the program for a target with these images, and lists the places that the plugin knows. All that the archive calls is among them.
link_program() {
    target=$1
    shift
    of_target "$target"
    archive=$(archive_of "$target")
    prefix=$(prefix_of "$target")
    joined "$@" >"$built/joined"
    where=
    test -z "$board" || where="-DHV_BOARD -T $tests/figures/board.ld"
    # Unquoted: one word for each of the compiler's. What linkers remark on objects without a note on the stack is shown with their errors alone.
    "${prefix}gcc" $words $where -std=gnu11 -O1 -Wall -Wextra -Werror -ffreestanding -fno-stack-protector -fno-tree-loop-distribute-patterns -nostdlib -static \
        -I "$tests/../include" -DHV_IMAGES="\"$built/joined\"" -Wl,--gc-sections -Wl,--no-warn-mismatch -o "$built/go" "$tests/figures/go.c" "$archive" -lgcc \
        2>"$built/linked" || fail "$(cat "$built/linked")"
    "${prefix}nm" --defined-only "$archive" | awk 'NF == 3 && $2 ~ /[tT]/ { print $3 }' >"$built/names"
    "${prefix}nm" -S --defined-only "$built/go" | awk '
        FNR == NR { archive[$1]; next }
        NF != 4 { next }
        $4 in archive { kind = "archive" }
        !($4 in archive) { kind = "" }
        $4 ~ /^(memcpy|memmove|memset|clear_memory)$/ { kind = "memory" }
        $4 ~ /^__(udivsi3|aeabi_lmul)$/ { kind = "library" }
        $4 == "__aeabi_uidivmod" { kind = "beside" }
        $4 == "byte_moved" { kind = "byte" }
        $4 == "call_begins" { kind = "call" }
        $4 == "series_ends" { kind = "series" }
        kind != "" { print kind, $1, $2, $4 }' "$built/names" - >"$built/symbols"
    if "${prefix}nm" -u "$archive" | awk 'NF == 2 { print $2 }' | grep -v -x -E -e '(__aeabi_)?mem(cpy|move|set|clr)[48]?' -e '__aeabi_(uidiv|uidivmod|lmul)' >&2; then
        fail "$target: the archive needs these names, which are not counted"
    fi
    for name in hv_go_on hv_begin byte_moved call_begins series_ends; do
        grep -q " $name\$" "$built/symbols" || fail "$target: the program has no $name"
    done
}

# count TARGET WORDS CYCLES:IMAGE...: what the plugin writes for the calls over these images, into counted; WORDS are further ones for it.
count() {
    target=$1 further=$2
    shift 2
    link_program "$target" "$@"
    test -f "$built/calls.so" || gcc -shared -fPIC -O2 -Wall -Wextra -Werror -o "$built/calls.so" "$tests/figures/calls.c"
    plugin="$built/calls.so,symbols=$built/symbols$further"
    if test -n "$board"; then
        "$runs" -M "$board" -nographic -monitor none -serial none -semihosting-config enable=on,target=native -plugin "$plugin" -kernel "$built/go"
    else
        # Unquoted: the emulator and its words.
        $runs -plugin "$plugin" "$built/go"
    fi 2>"$built/counted" || fail "$target: a call was refused, or the program did not end: $(tail -n 1 "$built/counted")"
    awk -v wanted="$(printf '%s\n' "$@" | awk '{ wanted += /^0:/ ? 1 : 2 } END { print wanted }')" '
        $1 == "series" && $4 > 0 && $5 > 0 { found++ }
        END { exit found != wanted }' "$built/counted" || fail "$target: not all calls were counted"
}

# ---- The tables ----

# Bytes of the archive and of the functions behind hv_begin and hv_go_on; the names that it needs. No archive has data.
bytes_row() {
    prefix=$(prefix_of "$1")
    "${prefix}size" -t "$(archive_of "$1")" | awk '/TOTALS/ { print $1, $2, $3 }' >"$built/size"
    read -r text data bss <"$built/size"
    test "$data $bss" = "0 0" || fail "$1: the archive has $data bytes of data and $bss of bss"
    needs=$("${prefix}nm" -u "$(archive_of "$1")" | awk 'NF == 2 { print $2 }' | sort | sed 's/.*/`&`/' | paste -s -d ' ' -)
    awk '$1 == "archive" { print $3 }' "$built/symbols" | hexadecimal | awk -v target="$1" -v text="$text" -v needs="$needs" "$grouped"'
        { drive += $1 }
        END { printf "| %s | %s | %s | %s |\n", target, grouped(text), grouped(drive), needs }'
}

hexadecimal() {
    while read -r digits; do
        echo $((0x$digits))
    done
}

grouped='
    function grouped(number) {
        number = sprintf("%.0f", number)
        if (number + 0 < 1000) return number
        return grouped(int(number / 1000)) "," sprintf("%03d", number % 1000)
    }'

# The deepest chain of frames of each function of the header: from the frames that the compiler told as it made the archive, and the calls in its instructions. Fails
# where it cannot tell: a frame whose size depends on the input, a function without one, a call through a register, a function that comes to call itself through
# others. (Cortex-M0+ has no long branch but the call, so that a call of a function by itself cannot be told from a branch; ./build-for looks for such in the module.)
stack_row() {
    if test "$1" = x86-64; then
        # This archive's stack is read off its instructions.
        "$tests/stack.sh" | tr -d '`,' | awk '$2 ~ /^hv_/ { print $2, $4 }'
    else
        frames=$(dirname "$(archive_of "$1")")/hervantyu.su
        test -f "$frames" || fail "no frames at $frames"
        "$(prefix_of "$1")objdump" -dr --no-show-raw-insn "$(archive_of "$1")" | awk -v target="$1" '
            function fail(what) {
                print target ": " what >"/dev/stderr"
                failed = 1
                exit 1
            }
            function deep(of,    i, all, most, part, count) {
                if (of in depth) return depth[of]
                if (of in open) fail(of " comes to call itself")
                open[of]
                count = split(calls[of], part, "\t")
                for (i = 2; i <= count; i++) {
                    all = deep(part[i])
                    if (all > most) most = all
                }
                delete open[of]
                return depth[of] = frame[of] + most
            }
            FNR == NR {
                split($0, part, "\t")
                sub(/^[^:]*:/, "", part[1])
                if (part[3] != "static") fail(part[1] ": a frame that is not static")
                frame[part[1]] = part[2]
                next
            }
            /^[0-9a-f]+ <.*>:$/ {
                name = $0
                sub(/^[0-9a-f]+ </, "", name)
                sub(/>:$/, "", name)
                if (!(name in frame)) fail(name " has no frame")
                found[name]
            }
            /^\t\t\t[0-9a-f]+: R_/ {
                called = $3
                sub(/[+-]0x[0-9a-f]+$/, "", called)
                sub(/^\.text\./, "", called)
                if (called in frame && called != name) calls[name] = calls[name] "\t" called
            }
            /\t(blx\t(r[0-9]|ip|sl|fp|lr)|blr\t)/ { fail(name ": a call through a register: " $0) }
            END {
                if (failed) exit 1
                for (name in frame) if (!(name in found)) fail(name " is not in the archive")
                for (name in frame) {
                    all = deep(name)
                    if (name ~ /^hv_/) print name, all
                }
            }' "$frames" -
    fi >"$built/deepest" || fail "$1: the stack cannot be told"
    awk -v target="$1" "$grouped"'
        { deepest[$1] = $2 }
        END {
            count = split("hv_begin hv_go_on hv_intake_take hv_intake_close hv_check_tables hv_intake_rebuild hv_rebuild hv_derive hv_check_timetable hv_judge_set", names, " ")
            row = "| " target " |"
            for (i = 1; i <= count; i++) {
                if (!(names[i] in deepest)) exit 1
                row = row " " grouped(deepest[names[i]]) " |"
            }
            print row
        }' "$built/deepest" || fail "$1: not the stack of all functions"
}

# The series of one run: hv_go_on over the images of 2, 7 and 16 tasks, mean and largest; hv_begin over the others.
calls_rows() {
    awk -v target="$1" -v going="$built/going-on.rows" -v beginning="$built/beginning.rows" "$grouped"'
        $1 != "series" { next }
        { on = $2 % 2; image = int($2 / 2) }
        on { cell[image] = grouped($5) ", " grouped($6) }
        !on { begin[image] = grouped($6) }
        on || image >= 3 { for (i = 8; i <= 14; i += 2) if ($i > most[on, i]) most[on, i] = $i }
        END {
            row = "| " target " |"
            for (i = 0; i < 3; i++) row = row " " cell[i] " |"
            print row " " grouped(most[1, 8]) ", " grouped(most[1, 10]) " | " grouped(most[1, 12]) ", " grouped(most[1, 14]) " |" >>going
            row = "| " target " |"
            for (i = 3; i < 10; i++) row = row " " begin[i] " |"
            print row " " grouped(most[0, 8]) ", " grouped(most[0, 10]) " | " grouped(most[0, 12]) ", " grouped(most[0, 14]) " |" >>beginning
        }' "$built/counted"
}

# Images in the order of the columns: those of hv_go_on, then those of hv_begin alone.
measured_images() {
    echo "3:$built/images/2-256.image 3:$tests/../samples/drive.tables.image 3:$built/images/16-256.image 0:$tests/../samples/p2.image \
        0:$built/images/2-256.image 0:$built/images/2-1024.image 0:$built/images/2-4096.image \
        0:$built/images/16-256.image 0:$built/images/16-1024.image 0:$built/images/16-4096.image"
}

# The tables of these targets.
tables() {
    have "$@"
    make_images images
    rm -f "$built"/*.rows
    for measured in "$@"; do
        # Unquoted: one word for each image.
        count "$measured" "" $(measured_images)
        cp "$built/counted" "$built/once"
        count "$measured" "" $(measured_images)
        cmp -s "$built/once" "$built/counted" || fail "$measured: two runs have other counts"
        calls_rows "$measured"
        bytes_row "$measured" >>"$built/bytes.rows"
        stack_row "$measured" >>"$built/stack.rows"
    done
    table bytes "target|text|of it for \`hv_begin\` and \`hv_go_on\`|needs"
    table stack "target|\`hv_begin\`|\`hv_go_on\`|\`hv_intake_take\`|\`hv_intake_close\`|\`hv_check_tables\`|\`hv_intake_rebuild\`|\`hv_rebuild\`|\`hv_derive\`|\`hv_check_timetable\`|\`hv_judge_set\`"
    table going-on "target|2 tasks|7 tasks|16 tasks|memory: calls, bytes|library: calls, instructions"
    table beginning "target|3 tasks, 7 jobs|2, 256|2, 1,024|2, 4,096|16, 256|16, 1,024|16, 4,096|memory: calls, bytes|library: calls, instructions"
}

# table NAME HEADS: the rows that were measured, below heads and between markers.
table() {
    echo "<!-- figures: $1 -->"
    echo "$2" | awk -F '|' '{ head = "|"; line = "|"; for (i = 1; i <= NF; i++) { head = head " " $i " |"; line = line "---|" } print head; print line }'
    cat "$built/$1.rows"
    test ! -f "$built/$1.more" || cat "$built/$1.more"
    echo "<!-- end of figures -->"
}

# compare KINDS TARGET...: fails where the page has other tables of these kinds for these targets than those that were printed.
compare() {
    compared=$1
    shift
    awk -v kinds=" $compared " -v targets=" $* " '
        /^<!-- figures: / { inside = index(kinds, " " $3 " ") }
        inside && !(/^\| (x86-64|aarch64-|cortex-)/ && !index(targets, " " $2 " "))
        /^<!-- end of figures -->$/ { inside = 0 }' "$page" >"$built/page"
    diff "$built/page" "$built/printed" || fail "docs/INTEGRATION.md has other figures"
    echo "the figures of $* are as docs/INTEGRATION.md says"
}

# ---- At most ----

# A row for each target: how often each instruction is executed in one call at most, over images of n tasks that drive every loop to its end; the sum of that over all
# instructions, which no call is above; and a line in n that is not below any of these sums, nor below a call that was seen. On standard error, by n: the largest
# call that was seen, the sum, and the line. Fails where other images drive a sum further up: then these are not hard enough.
bounds() {
    have "$@"
    for wanted in images hard others; do make_images "$wanted"; done
    for hard in "$built"/hard/*.image; do
        case $hard in
        # The records of these are nothing special, and judging the set is the same in all calls.
        *-remainders*) echo "hard 255:$hard" ;;
        # Again, with calls that are refused; these are looked at as a whole.
        *-later-* | *-equal-*-0.image) printf 'hard 1:%s\nrefused 254:%s\n' "$hard" "$hard" ;;
        *) echo "hard 1:$hard" ;;
        esac
    done >"$built/listed"
    accepted="drive.tables figure1.tables p1.tables p2 p9.tables p11.tables"
    for other in "$built"/others/*.image "$built"/images/*-256.image $(printf "$tests/../samples/%s.image " $accepted); do echo "other 1:$other"; done >>"$built/listed"
    while read -r kind word; do echo "$kind $(od -An -tu1 -j4 -N1 "${word#*:}")"; done <"$built/listed" >"$built/kinds"
    for measured in "$@"; do
        count "$measured" ,places=yes $(sed 's/.* //' "$built/listed")
        awk -v target="$measured" "$grouped"'
            FNR == NR { kind[FNR] = $1; tasks[FNR] = $2; next }
            $1 == "series" {
                image = ($2 + 1) / 2
                going = $2 % 2
                n = tasks[image]
                if (going && $6 > seen[n]) seen[n] = $6
                for (i = 8; going && i <= 14; i += 2) if ($i > beside[i]) beside[i] = $i
            }
            $1 == "place" && going && kind[image] != "refused" && $5 > most[n, $3] {
                if (kind[image] == "hard") sum[n] += $5 - most[n, $3]
                else more[n] += $5 - most[n, $3]
                most[n, $3] = $5
            }
            END {
                each = int((sum[16] - sum[2]) / 14 + 0.999)
                for (n = 1; n <= 16; n++) {
                    top = sum[n] + more[n] > seen[n] ? sum[n] + more[n] : seen[n]
                    if (top - each * n > fixed) fixed = top - each * n
                }
                row = "| " target " | " grouped(fixed) " + " each " × n |"
                for (n = 1; n <= 16; n++) {
                    line = fixed + each * n
                    print target ", " n " tasks: largest " seen[n] ", sum " sum[n] ", by other images " more[n] + 0 " more, line " line >"/dev/stderr"
                    if (!seen[n] || more[n] > 0) failed = 1
                    if (n == 2 || n == 7 || n == 16) row = row " " grouped(seen[n]) ", " grouped(line) " |"
                }
                print row " " grouped(beside[8]) ", " grouped(beside[10]) " | " grouped(beside[12]) ", " grouped(beside[14]) " |"
                exit failed
            }' "$built/kinds" "$built/counted" >>"$built/bound.rows" || fail "$measured: other images drive the sum of the largest counts further up"
    done
    run "$built/figures" periods | awk '
        $2 > steps { steps = $2 }
        $3 > taken { taken = $3 }
        END { print "\nPeriods that are no divisors of the least common multiple of the longer ones: at most " steps + 0 ". Remainders that they take together: at most " taken + 0 "." }
    ' >"$built/bound.more"
    table bound "target|at most|2 tasks|7 tasks|16 tasks|memory: calls, bytes|library: calls, instructions"
}

# ---- By function ----

profile() {
    have "$1"
    make_images images
    further=,profile=yes
    test -z "${HV_PLACES:-}" || further=,places=yes
    for image in "$built/images/2-256.image" "$tests/../samples/drive.tables.image" "$built/images/16-256.image"; do
        count "$1" "$further" "3:$image"
        awk -v target="$1" -v n="$(od -An -tu1 -j4 -N1 "$image" | tr -d ' ')" '
            $1 == "series" && $2 == 1 {
                printf "%s, %d tasks: %d calls of hv_go_on; mean %.1f, largest %d instructions", target, n, $4, $5, $6
                printf "; memory functions: calls %.1f, %d; bytes %.1f, %d", $7, $8, $9, $10
                if ($12) printf "; library: calls %.1f, %d; instructions %.1f, %d", $11, $12, $13, $14
                print ""
            }' "$built/counted"
        awk '$1 == "function" && $2 == 1 { printf "%10.1f  %s\n", $3, $4 }' "$built/counted" | sort -rn
        test -n "${HV_PLACES:-}" || continue
        "$(prefix_of "$1")objdump" -d "$built/go" | awk '
            FNR == NR { if ($1 == "place" && $2 == 1) { mean[$3] = $4; most[$3] = $5 } next }
            /^[0-9a-f]+ <.*>:$/ { head = $0; next }
            /^ *[0-9a-f]+:\t/ {
                at = $1
                sub(/:$/, "", at)
                if (!(at in mean)) { gap = 1; next }
                if (head != "") { print head; head = ""; gap = 0 }
                if (gap) { print "    ..."; gap = 0 }
                printf "%8.2f %4d %s\n", mean[at], most[at], $0
            }' "$built/counted" -
    done
}

case ${1:-} in
profile)
    test $# -eq 2 || fail "usage: figures.sh profile TARGET"
    profile "$2"
    exit
    ;;
bound)
    made=bounds kinds=bound
    shift
    ;;
*) made=tables kinds="bytes stack going-on beginning" ;;
esac
print=
if test "${1:-}" = --print; then
    print=yes
    shift
fi
# Unquoted: a target each.
test "$*" != all || set -- $every
if test $# -eq 0; then
    test "$made" = bounds && set -- cortex-m4 || set -- x86-64 aarch64-linux cortex-m4
fi
test -z "${HV_ARCHIVE:-}" || test $# -eq 1 || fail "HV_ARCHIVE is the archive of one target"
"$made" "$@" >"$built/printed"
cat "$built/printed"
test -n "$print" || compare "$kinds" "$@"
