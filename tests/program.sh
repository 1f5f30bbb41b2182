# Sourced by the scripts that test a program which reads standard input, with the script's own arguments: they set name, the program's, and folder, where its
# stored cases are. The program is the repository's own, or a command of this host that is named. Counts cases and those that differ.

. "$folder/../made.sh"
named=${1:-}
program=${1:-$(made_program "$folder/../.." "$name")}
test -f "$program" || { echo "no program at $program" >&2; exit 1; }
samples=$folder/../../samples
tests=$(cd "$folder/.." && pwd)
. "$tests/compare/build.sh"
out=$built/out
err=$built/err
count=0
differ=0

# Runs the program; a command that is named may tell a refusal by its status, the repository's own may not.
answer() {
    if test -n "$named"; then
        "$named" || true
    else
        run "$program"
    fi
}

# Prints lines as one, each with | behind it.
joined() {
    tr '\n' '|'
}

# Runs the program on standard input and prints its lines as one.
answered() {
    answer | joined
}

# Counts a case, and shows it where the program's lines are not the expected ones.
compare() {
    count=$((count + 1))
    test "$2" = "$3" && return
    differ=$((differ + 1))
    printf '%s => %s\n  program: %s\n' "$1" "$2" "$3"
}

# Compares what the program wrote to standard output and to standard error, with "and" between them.
told() {
    compare "$1" "$2 and $3" "$(joined <"$out") and $(joined <"$err")"
}

# Runs the program over the cases in the file $1, whose bytes and lines go to the folder $2.
over_cases() {
    mkdir "$2"
    run "$built/inputs" "$2" <"$1"
    number=1
    while test -f "$2/$number.in"; do
        count=$((count + 1))
        if ! answer <"$2/$number.in" >"$out" || ! cmp -s "$out" "$2/$number.out"; then
            differ=$((differ + 1))
            printf '%s\n  program: %s\n' "$(sed -n "${number}p" "$1")" "$(joined <"$out")"
        fi
        number=$((number + 1))
    done
    test "$number" -gt 1 || { echo "no case in $1 was run" >&2; exit 1; }
}

# Runs the program over its stored cases, whose bytes and lines are in $built/stored-cases afterwards.
over_stored() {
    build_second "$tests"
    build_stored
    compile_rust --edition 2021 -O -D warnings -o "$built/inputs" "$tests/inputs.rs"
    run "$built/stored" "$folder"/*-*.txt >"$built/stored-lines"
    over_cases "$built/stored-lines" "$built/stored-cases"
}

# Makes a valid table image of more than 65,536 bytes, the file $long.
build_long() {
    compile_rust --edition 2021 -O -D warnings -C link-arg="$archive" -o "$built/long" "$tests/long.rs"
    long=$built/long.image
    run "$built/long" >"$long"
}

# Prints the file $1 in pieces of $2 bytes, each of which takes a read of its own: dd makes the pipe one of packets. Of a last piece that is shorter it tells
# that a pipe cannot be synchronised.
pieces() {
    dd if="$1" bs="$2" oflag=direct status=none 2>/dev/null
}

# Half an image behind the file $1, then a read that fails: dd makes the reads of the pipe fail where there are no bytes.
cut_off() {
    { cat "$1" && head -c 40 "$samples/p2.image" && sleep 1; } | {
        dd iflag=nonblock count=0 status=none
        sleep 0.2
        run "$program" >"$out" 2>"$err"
    }
}

# What the program writes to each of its outputs where a read or a write fails: its lines for P2 are $1, and an image with more of them than a file of 1,024
# bytes takes is $2.
where_it_fails() {
    run "$program" <"$samples/p2.image" >"$out" 2>"$err"
    told "P2" "$1" ""

    # An input that cannot be read: no line.
    run "$program" </ >"$out" 2>"$err"
    told "a directory as standard input" "" "$name: standard input: Is a directory|"
    run "$program" <&- >"$out" 2>"$err"
    told "standard input closed" "" "$name: standard input: Bad file descriptor|"
    cut_off /dev/null
    told "a read that fails behind 40 bytes" "" "$name: standard input: Resource temporarily unavailable|"

    # An output that cannot be written, and one that takes only a part: the front of the lines.
    : >"$out"
    run "$program" <"$samples/p2.image" 2>"$err" >&-
    told "standard output closed" "" "$name: standard output: Bad file descriptor|"
    run "$program" <"$samples/p2.image" 2>"$err" >/dev/full
    told "standard output full" "" "$name: standard output: No space left on device|"
    run "$program" <"$2" >"$built/whole"
    (
        trap '' XFSZ
        ulimit -f 1
        run "$program" <"$2" >"$out" 2>"$err"
    )
    head -c "$(wc -c <"$out")" "$built/whole" | cmp -s - "$out" && test -s "$out" && front=yes || front=no
    : >"$out"
    told "standard output full behind a part" "" "$name: standard output: File too large|"
    compare "that part is the front of the lines" yes "$front"
}

# Prints the count, and fails where a case differs.
verdict() {
    echo "$count cases, $differ differ"
    test "$differ" = 0
}
