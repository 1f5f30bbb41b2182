#!/bin/sh
# firmware.sh [TARGET...]: builds firmware/ with the archive for a Cortex-M4 and runs it on the emulated board: P2 and other images by the board's clock, the
# commands of docs/INTEGRATION.md, the stack that the calls take, and what has to fail. Then it looks through the instructions of that archive, and of those for
# further 32-bit targets. HV_ARCHIVE names another archive for a Cortex-M4.
set -eu

root=$(cd "$(dirname "$0")/.." && pwd)
archive=${HV_ARCHIVE:-$root/target/cortex-m4/libhervantyu.a}
test -f "$archive" || { echo "no archive at $archive" >&2; exit 1; }
HV_ARCHIVE=$(readlink -f "$archive")
export HV_ARCHIVE
. "$root/targets/tools.sh"
arm_tools
built=$(mktemp -d)
trap 'rm -rf "$built"' EXIT
cd "$root"

fail() { echo "$*" >&2; exit 1; }

# Runs the firmware with these arguments; it has to end with the given status and to write what is on standard input.
expect() {
    status=$1
    shift
    cat >"$built/expected"
    ended=0
    timeout 60 firmware/run "$@" >"$built/written" </dev/null || ended=$?
    diff "$built/expected" "$built/written" && test "$ended" = "$status" || fail "firmware/run $*: other lines, or status $ended and not $status"
}

# The lines of three cycles of 20 ticks from those of one.
three_cycles() {
    awk '{ task[NR] = $1 " " $2; from[NR] = $3; to[NR] = $4 }
        END { for (cycle = 0; cycle < 3; cycle++) for (i = 1; i <= NR; i++) print task[i], from[i] + 20 * cycle, to[i] + 20 * cycle }'
}

# Document 01's lines for P2. What is printed as a job's begin is read off the board's clock.
three_cycles <<'LINES' >"$built/p2"
0 0 0 1
2 0 1 7
1 0 7 9
0 1 9 10
0 2 12 13
1 1 13 15
0 3 15 16
LINES
expect 0 <"$built/p2"

# P2 with its idle a job later.
three_cycles <<'LINES' >"$built/later"
0 0 0 1
2 0 1 7
1 0 7 9
0 1 9 10
0 2 10 11
1 1 13 15
0 3 15 16
LINES
expect 0 samples/refused/00-still-valid.image <"$built/later"

# Seven tasks with 400 jobs: tasks and starts of the first cycle are those of the timetable image, whose entries stand from byte 131 on.
timeout 60 firmware/run samples/drive.tables.image </dev/null | awk 'NR <= 400 { print $1, $3 } END { exit NR != 1200 }' >"$built/written" ||
    fail "samples/drive.tables.image: not 1,200 jobs"
od -An -v -tu1 -j 131 -N 2800 samples/drive.timetable.image | tr -s ' ' '\n' |
    awk 'NF { byte[n++ % 7] = $1; if (n % 7 == 0) print byte[2], ((byte[3] * 256 + byte[4]) * 256 + byte[5]) * 256 + byte[6] }' >"$built/expected"
diff "$built/expected" "$built/written" || fail "samples/drive.tables.image: not the starts of samples/drive.timetable.image"

# Images that are refused, among them P2's with one byte changed: nothing starts.
echo 'image refused 18 4 0' | expect 1 samples/refused/18-idle-too-long.image
cp samples/p2.image "$built/changed.image"
printf '\006' | dd of="$built/changed.image" bs=1 seek=75 conv=notrunc status=none
echo 'image refused 19 5 67' | expect 1 "$built/changed.image"

# The manual's commands write what stands behind them there; of longer output the first lines.
awk -v built="$built" '
    /^    firmware\/run/ { commands++; print substr($0, 5) >(built "/commands"); quoting = 1; next }
    quoting && /^    / { print substr($0, 5) >(built "/quoted." commands); next }
    /./ { quoting = 0 }' docs/INTEGRATION.md
commands=0
while read -r command; do
    commands=$((commands + 1))
    timeout 60 sh -c "$command" >"$built/written" </dev/null || true
    head -n "$(wc -l <"$built/quoted.$commands")" "$built/written" | diff "$built/quoted.$commands" - || fail "docs/INTEGRATION.md: $command writes other lines"
done <"$built/commands"
test "$commands" = 2 || fail "docs/INTEGRATION.md has $commands commands firmware/run"

# The manual's table of targets has the rows of targets/table: each name with its words for clang.
test -s targets/table || fail "no targets/table"
awk '!/^#/ && NF { line = $3; for (i = 4; i <= NF; i++) line = line " " $i; print "| `" $1 "` |"; print "| `" line "` |" }' targets/table |
    while read -r name && read -r words; do
        grep -F "$name" docs/INTEGRATION.md | grep -qF -e "$words" || fail "docs/INTEGRATION.md has no row $name with $words"
    done

# The stack that the calls take, by painting it. What board.ld gives has to leave 512 bytes for the caller and its interrupts.
around="$root/tests/firmware/calls.c -I $root/firmware -Wl,--wrap=hv_begin,--wrap=hv_go_on -Werror"
for image in samples/p2.image samples/drive.tables.image; do
    # Unquoted: a word for each of the compiler's.
    timeout 60 firmware/run "$image" $around >"$built/written" </dev/null || fail "$image: does not run with a painted stack"
    cat "$built/written" >>"$built/painted"
done
stack=$(sed -n 's/^stack_size = .* : \([0-9]*\)K;$/\1/p' firmware/board.ld)
awk -v room=$((${stack:-0} * 1024 - 512)) '
    /^stack of / && $4 > most[$3] { most[$3] = $4 }
    END {
        print "stack on the board: hv_begin " most["hv_begin"] + 0 " bytes, hv_go_on " most["hv_go_on"] + 0
        exit !(most["hv_begin"] > 0 && most["hv_begin"] <= room && most["hv_go_on"] > 0 && most["hv_go_on"] <= room)
    }' "$built/painted" || fail "firmware/board.ld has too short a stack, $stack KiB"

# What has to be a fault is one: a number read across its size, a floating-point register.
echo 'FAULT 16777216' | expect 1 samples/p2.image $around -DUNALIGNED
echo 'FAULT 524288' | expect 1 samples/p2.image $around -DFLOATING

# A stack below what the calls took does not pass, and one a little above it does. Below the RAM of this board nothing lies: what is stored there is lost, and it reads
# as 0. The emulator tells of each such store, and demanded is that it tells of one with the short stack and of none with the other. What comes of it is a fault, a
# processor that the emulator finds locked up, or a loop whose counter lies there and never moves on, which is stopped after 30 seconds.
mkdir "$built/emulator"
cat >"$built/emulator/qemu-system-arm" <<WORDS
#!/bin/sh
exec "$(command -v qemu-system-arm)" -d unimp -D "$built/told" "\$@"
WORDS
chmod +x "$built/emulator/qemu-system-arm"
lost() { grep -q 'unimplemented device write' "$built/told"; }
took=$(awk '/^stack of / && $4 > most { most = $4 } END { print most + 0 }' "$built/painted")
short=0
PATH=$built/emulator:$PATH timeout 30 firmware/run samples/p2.image -Wl,--defsym=stack_size=$((took / 8 * 8 - 128)) >"$built/written" 2>&1 </dev/null || short=$?
test "$short" != 0 || fail "a stack of 128 bytes less than the calls took is enough"
lost || fail "with a stack that is too short nothing is stored below the RAM"
test "$short" = 124 || grep -q -e '^FAULT ' -e 'fatal: Lockup' "$built/written" || fail "a stack that is too short is no fault"
kept_path=$PATH
PATH=$built/emulator:$PATH
expect 0 samples/p2.image -Wl,--defsym=stack_size=$((took / 8 * 8 + 256)) <"$built/p2"
PATH=$kept_path
! lost || fail "with a stack above what the calls took something is stored below the RAM"

# The archive asks for what firmware/memory.c has and the manual names, and the linker names each where that file is empty.
asked=$(arm-none-eabi-nm -u "$HV_ARCHIVE" | awk 'NF == 2 { print $2 }')
test -n "$asked" || fail "the archive asks for no memory function"
firmware/build samples/p2.image -Wl,--no-gc-sections || fail "the whole archive cannot be linked with firmware/memory.c"
mkdir -p "$built/copy/targets"
cp -r firmware include "$built/copy/"
cp targets/tools.sh "$built/copy/targets/"
: >"$built/copy/firmware/memory.c"
if "$built/copy/firmware/build" samples/p2.image -Wl,--no-gc-sections 2>"$built/written"; then fail "links without memory functions"; fi
for name in $asked; do
    grep -q "undefined reference to .$name'" "$built/written" || fail "$name is missing, and the linker does not say so"
    grep -q "\`$name\`" docs/INTEGRATION.md || fail "docs/INTEGRATION.md does not name $name"
done

# And these functions do what they are to.
timeout 60 firmware/run samples/p2.image "$root/tests/firmware/memory.c" -I "$root/firmware" -Wl,--wrap=run -Werror </dev/null || fail "firmware/memory.c: not so"

# An archive uses no floating-point register, masks no interrupt, waits for none and calls no system. The flags of a comparison may be saved and put back: CPSR_f is
# those flags alone.
for target in cortex-m4 "$@"; do
    archive=$root/target/$target/libhervantyu.a
    test "$target" != cortex-m4 || archive=$HV_ARCHIVE
    arm-none-eabi-objdump -d "$archive" >"$built/code"
    awk -F '\t' -v target="$target" '
        !/^ *[0-9a-f]+:\t/ { next }
        { instructions++ }
        $3 == "mrs" && $4 ~ /, CPSR$/ || $3 == "msr" && $4 ~ /^CPSR_f, / { next }
        $3 ~ /^v/ || $4 ~ /(^|[ ,{])[sdq][0-9]+([,}]|$)/ || $3 ~ /^(cps|msr|mrs|svc|wf|ldrex|strex|setend|bkpt)/ { print; found = 1 }
        END {
            if (!found) print target ": " instructions + 0 " instructions, none with a floating-point register, none that masks, waits or calls a system"
            exit found || !instructions
        }' "$built/code" || fail "$target: not so, or no instructions"
done
