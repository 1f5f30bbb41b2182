#!/bin/sh
# Runs the archives for other processors under emulators and compares every answer with that of the archive for x86-64: tests/targets.sh for the Cortex-M4 and
# AArch64, which ./build-for cortex-m4 aarch64-linux makes, over all stored cases and the samples; tests/targets.sh all for every row of targets/table (./build-for
# with all their names first), over the fixed and 100,000 random cases of the comparison as well, but for reports, which are rows of calls; tests/targets.sh
# slips for slips that are planted in the module's text, each of which the run has to find. The program is tests/targets/cases.c, built without a C library by
# a second compiler, gcc, so that the calling convention is tested too. On a bare board every access to a number at an address that is not a multiple of its
# size is a fault.
set -eu

mode=${1:-gate}
random=100000
case $mode in gate | all) ;; slips) random=0 ;; *) echo "usage: tests/targets.sh [all | slips]" >&2; exit 2 ;; esac
tests=$(cd "$(dirname "$0")" && pwd)
root=$(dirname "$tests")
. "$tests/compare/build.sh"
. "$root/targets/tools.sh"
. "$root/targets/lower.sh"
target_tools

fail() { echo "targets.sh: $*" >&2; exit 1; }

# ---- The programs ----

# Builds the program for the target $1 with the archive $2, into the folder $3. code and more are where the board of the emulator has its memory.
build_program() {
    sources="$tests/targets/cases.c $tests/targets/io.c $root/firmware/memory.c" library=-lgcc
    case $1 in
    x86-64 | aarch64-linux) words="-fno-pie -no-pie" library= ;;
    aarch64-bare) words="-mgeneral-regs-only -mstrict-align -fno-pie -no-pie -Wl,-Ttext-segment=0x40100000" library= ;;
    cortex-m0plus) words="-mcpu=cortex-m0plus -mfloat-abi=soft" places=code=0,--defsym=more=0x21000000 ;;
    cortex-m4) words="-mcpu=cortex-m4 -mfloat-abi=hard -mfpu=fpv4-sp-d16" places=code=0,--defsym=more=0x21000000 ;;
    cortex-m7) words="-mcpu=cortex-m7 -mfloat-abi=hard -mfpu=fpv5-d16" places=code=0,--defsym=more=0x60000000 ;;
    cortex-m33) words="-mcpu=cortex-m33 -mfloat-abi=hard -mfpu=fpv5-sp-d16" places=code=0x10000000,--defsym=more=0x80000000 ;;
    cortex-r5) words="-mcpu=cortex-r5 -mfloat-abi=hard -mfpu=vfpv3-d16" ;;
    cortex-r5-be) words="-mcpu=cortex-r5 -mfloat-abi=hard -mfpu=vfpv3-d16 -mbig-endian -Wl,--be8" library= ;;
    *) fail "no program is known for $1" ;;
    esac
    case $1 in
    x86-64) compiler=compile_c ;;
    aarch64-*) compiler=$gcc64 ;;
    *) compiler=arm-none-eabi-gcc words="$words -mthumb -mno-unaligned-access" ;;
    esac
    case $1 in
    aarch64-bare) words="$words -DHV_BOARD" sources="$sources $tests/targets/board.c" ;;
    cortex-m*) words="$words -DHV_BOARD -T $tests/targets/board.ld -Wl,--defsym=$places" sources="$sources $tests/targets/board.c" ;;
    esac
    # Unquoted: one word for each.
    "$compiler" -std=gnu11 -O2 -Wall -Wextra -Werror -ffreestanding -fno-stack-protector -fno-tree-loop-distribute-patterns -nostdlib -static \
        -Wl,-z,noexecstack -I "$root/include" $words -o "$3/program" $sources "$2" $library
}

# Runs the program of a target in the folder $2, from the file cases there to the file answers. A Cortex-M3 stands for the M0+, all of whose instructions it has.
run_program() {
    board="-nographic -monitor none -serial none -semihosting-config enable=on,target=native -kernel program"
    (cd "$2" && rm -f answers && case $1 in
    x86-64) run ./program <cases >answers ;;
    aarch64-linux) timeout 600 qemu-aarch64 ./program <cases >answers ;;
    aarch64-bare) timeout 600 qemu-system-aarch64 -M virt -cpu cortex-a53 -nic none $board </dev/null ;;
    cortex-m0plus) timeout 600 qemu-system-arm -M mps2-an385 $board </dev/null ;;
    cortex-m4) timeout 600 qemu-system-arm -M mps2-an386 $board </dev/null ;;
    cortex-m7) timeout 600 qemu-system-arm -M mps2-an500 $board </dev/null ;;
    cortex-m33) timeout 600 qemu-system-arm -M mps2-an505 $board </dev/null ;;
    cortex-r5) timeout 600 qemu-arm -cpu cortex-r5f ./program <cases >answers ;;
    cortex-r5-be) timeout 600 qemu-armeb -cpu cortex-r5f ./program <cases >answers ;;
    esac)
}

# Whether the target $1 with the archive $2 answers the file $3 with that same file. Tells the first line that is another one.
answers_right() {
    mkdir -p "$built/$1"
    ln -f "$3" "$built/$1/cases"
    build_program "$1" "$2" "$built/$1" || fail "the program for $1 cannot be built"
    ended=0
    run_program "$1" "$built/$1" >"$built/$1/told" 2>&1 || ended=$?
    cat "$built/$1/told"
    if test -f "$built/$1/answers" && cmp -s "$built/$1/answers" "$3" && test "$ended" = 0; then
        rm "$built/$1/answers"
        return 0
    fi
    echo "$1: ended with $ended; the first line that is another one, as it is and as it is to be:"
    touch "$built/$1/answers"
    diff "$built/$1/answers" "$3" | grep '^[<>]' | awk '!($1 in told) { told[$1]; print substr($0, 1, 400) }'
    return 1
}

# ---- The cases: stored ones as they are today; the samples, which the archive for x86-64 answers first; and on demand those of the comparison ----

build_second "$tests"
build_stored
run "$built/stored" "$tests"/cases/*.txt >"$built/asked"
if test "$mode" != gate; then
    build_comparer
    build_compare
    run "$built/compare" print 1 "$random" | grep -v '^report ' >>"$built/asked"
fi
answers_right x86-64 "$archive" "$built/asked" || fail "the archive for x86-64 has another answer"

compile_rust --edition 2021 -O -D warnings -C link-arg="$archive" -o "$built/refused" "$tests/refused.rs"
run "$built/refused" "$root" questions >"$built/questions"
for file in "$root"/samples/*.image* "$root"/samples/refused/*.image*; do
    image=$(od -An -v -tx1 "$file" | tr -d ' \n')
    for question in check1 check2 'derive 70000' 'rebuild 70000' begin 'run 1000' 'figures 9000'; do echo "$question ${image:--}"; done
done >>"$built/questions"
ln -f "$built/questions" "$built/x86-64/cases"
run_program x86-64 "$built/x86-64" || fail "the archive for x86-64 does not answer the samples"
test "$(wc -l <"$built/x86-64/answers")" = "$(wc -l <"$built/questions")" || fail "not every sample has an answer"
cat "$built/x86-64/answers" >>"$built/asked"

# Every operation comes with and without a refusal, and every number.
awk '
    { split($0, part, " => "); came[$1, part[2] ~ /refused/ ? "refused" : "taken"] }
    match($0, /refused [0-9]+/) { came[substr($0, RSTART + 8, RLENGTH - 8)] }
    END {
        count = split("set check1 check2 derive rebuild begin go run intake figures", operation, " ")
        for (i = 1; i <= count; i++) {
            if (!((operation[i], "taken") in came)) { print "no case of " operation[i] " that is taken"; missing = 1 }
            if (!((operation[i], "refused") in came)) { print "no case of " operation[i] " that is refused"; missing = 1 }
        }
        for (i = 1; i <= 25; i++) if (!(i in came)) { print "no case with number " i; missing = 1 }
        exit missing
    }' "$built/asked" || fail "cases are missing"
echo "$(wc -l <"$built/asked") cases, $(wc -l <"$built/questions") of them of the samples"

# ---- Slips ----

# The text of the cortex-m4's module with one line changed: the first of function $1 that has $2 gets $3 in its place.
module=$root/target/cortex-m4/hervantyu.ll
test -f "$module" || fail "no $module: ./build-for cortex-m4 makes it"
plant() {
    awk -v name="$1" -v from="$2" -v to="$3" '
        /^define / && (index($0, "@" name "(") || index($0, "@\"" name "\"(")) { inside = 1 }
        inside && !done && (at = index($0, from)) { $0 = substr($0, 1, at - 1) to substr($0, at + length(from)); done = 1 }
        /^}/ { inside = 0 }
        { print }
        END { exit !done }' "$module" || fail "no line of $1 has '$2'"
}

# Calls $2 with the four columns of each line of the table $1.
each_planted() {
    sed -e '/^#/d' -e 's/ | /|/g' "$tests/targets/$1" >"$built/planted"
    test -s "$built/planted" || fail "$1 has no line"
    while IFS='|' read -r function from to what <&3; do "$2" "$function" "$from" "$to" "$what"; done 3<"$built/planted"
}

# What would depend on the width of a pointer is told by targets/module.awk, and nothing else.
pun() {
    plant "$1" "$2" "$3" >"$built/pun.ll"
    ended=0
    awk -f "$root/targets/module.awk" "$built/pun.ll" >"$built/told" || ended=$?
    grep -qF -e "$4" "$built/told" || { cat "$built/told"; fail "module.awk does not tell '$4' of $1 with '$3'"; }
    case $4 in ': 0 told') test "$ended" = 0 ;; *) test "$ended" = 1 ;; esac || fail "module.awk ended with $ended of $1 with '$3'"
}

slip() {
    plant "$1" "$2" "$3" >"$built/slip/hervantyu.ll"
    lower cortex-m4 "$built/slip" || fail "the slip cannot be lowered: $4"
    if answers_right cortex-m4 "$built/slip/libhervantyu.a" "$built/asked" >"$built/found"; then fail "not found: $4"; fi
    echo "found: $4"
    sed 's/^/    /' "$built/found" | cut -c1-150
}

# The module lowered with accesses to numbers at any address faults on the target's board.
unaligned_faults() {
    mkdir -p "$built/unaligned"
    cp "$root/target/$1/hervantyu.ll" "$built/unaligned/hervantyu.ll"
    lower "$1" "$built/unaligned" -munaligned-access || fail "the module cannot be lowered for $1 with unaligned accesses"
    if answers_right "$1" "$built/unaligned/libhervantyu.a" "$built/asked" >"$built/found"; then fail "not found: unaligned accesses on $1"; fi
    grep -qx FAULT "$built/found" || { cat "$built/found"; fail "no fault on $1 where accesses are unaligned"; }
    echo "found: unaligned accesses on $1"
}

if test "$mode" = slips; then
    mkdir "$built/slip"
    # Without a slip, all the same, nothing is found.
    cp "$module" "$built/slip/hervantyu.ll"
    lower cortex-m4 "$built/slip"
    answers_right cortex-m4 "$built/slip/libhervantyu.a" "$built/asked" || fail "the module without a slip has another answer than the archive for x86-64"
    each_planted slips slip
    unaligned_faults cortex-m4
    exit
fi

each_planted puns pun
echo "$(wc -l <"$built/planted") puns planted in the module's text are told as they are to be"

# ---- The targets ----

names="cortex-m4 aarch64-linux"
test "$mode" = gate || names=$(target_names)
for name in $names; do
    test -f "$root/target/$name/libhervantyu.a" || fail "no archive for $name: ./build-for $name makes it"
    test "$(sha256sum <"$(made_archive "$root")")" = "$(cat "$root/target/$name/beside")" ||
        fail "the archive for $name was made beside another one for x86-64 than stands in $(made_archive "$root"): ./build-for $name makes it anew"
    answers_right "$name" "$root/target/$name/libhervantyu.a" "$built/asked" || fail "the archive for $name has another answer than that for x86-64"
    echo "$name: every answer is that of x86-64"
    # On demand: the same board faults where the code makes unaligned accesses, so that none was made above. A Cortex-M0+ has no such instruction.
    case $mode-$name in all-cortex-m[1-9]* | all-aarch64-bare) unaligned_faults "$name" ;; esac
done
