#!/bin/sh
# Tests of the desk program: the samples against their numbers, what it decodes against the archive's answers, its texts and exit statuses against cases.txt,
# its listing and its report against the cases of the programs, the refused samples' answers and the samples' README against what it prints. HV_ARCHIVE names
# another archive than the repository's own.
set -eu

folder=$(cd "$(dirname "$0")" && pwd)
. "$folder/../made.sh"
archive=${HV_ARCHIVE:-$(made_archive "$folder/../..")}
test -f "$archive" || { echo "no archive at $archive" >&2; exit 1; }
archive=$(cd "$(dirname "$archive")" && pwd)/$(basename "$archive")
cd "$folder/../.."
. tests/host.sh
built=$(mktemp -d)
trap 'rm -rf "$built"' EXIT

# Builds a Rust program with the archive: NAME SOURCE.
build() {
    compile_rust --edition 2021 -O -D warnings -C link-arg="$archive" -o "$built/$1" "$2"
}

# The program's modules use each other without a ring.
for file in desk/*.rs; do
    grep -o 'crate::[a-z_]*' "$file" | sed "s|^crate::|$(basename "$file" .rs) |"
done | tsort >/dev/null || { echo "modules of desk/ use each other in a ring" >&2; exit 1; }

build samples tests/samples.rs
run "$built/samples" samples

build agree tests/desk/agree.rs
run "$built/agree" samples 1 6000

# A command hv for the cases, and two that stand in for the programs: these end with 0 where an image is refused, too.
build program desk/main.rs
mkdir "$built/bin" "$built/T"
printf '#!/bin/sh\n. "%s/tests/host.sh"\nrun "%s/program" "$@"\n' "$PWD" "$built" >"$built/bin/hv"
for program in listing report; do
    case $program in listing) words="list --kind 2" ;; *) words=report ;; esac
    printf '#!/bin/sh\n"%s/bin/hv" %s --plain - || test $? = 1\n' "$built" "$words" >"$built/bin/$program"
done
chmod +x "$built"/bin/*
PATH=$built/bin:$PATH
T=$built/T
export PATH T

for program in listing report; do "tests/$program/run.sh" "$built/bin/$program"; done

# Each case is a command behind '$ ', the lines that it prints, and its exit status behind '= '. The folder $T is printed as T.
count=0
differ=0
command=
begun=0
while IFS= read -r line; do
    case $line in
    '$ '*)
        begun=$((begun + 1))
        command=${line#??}
        : >"$built/expected"
        ;;
    '= '*)
        count=$((count + 1))
        status=0
        sh -c "$command" >"$built/printed" 2>"$built/complaint" || status=$?
        sed "s|$T|T|g" "$built/printed" >"$built/found"
        sed "s|$T|T|g; s|^|! |" "$built/complaint" >>"$built/found"
        echo "= $status" >>"$built/found"
        echo "$line" >>"$built/expected"
        if ! cmp -s "$built/expected" "$built/found"; then
            differ=$((differ + 1))
            printf '$ %s\n' "$command"
            diff "$built/expected" "$built/found" || true
        fi
        command=
        ;;
    *)
        if test -n "$command"; then
            printf '%s\n' "$line" >>"$built/expected"
        fi
        ;;
    esac
done <"$folder/cases.txt"
test "$begun" -gt 0 && test "$begun" = "$count" || { echo "$begun commands in cases.txt, $count with a status"; exit 1; }

# For each refused sample the stored answer: its line, its byte in words, and the dump's mark at that byte; neither of these two where the place is no record.
refused=0
while read -r image function _ answer; do
    case $function in
    hv_check_timetable) kind=1 ;;
    hv_check_tables) kind=2 ;;
    *) continue ;;
    esac
    refused=$((refused + 1))
    byte=${answer##* }
    case $answer in
    accepted | 'refused 8 '* | 'refused 9 '* | 'refused 16 '* | 'refused 18 '*) expected="$answer;" ;;
    *) expected="mark $byte;$answer;byte $byte (0x$(printf %X "$byte"));" ;;
    esac
    found=$({ hv show --kind "$kind" "samples/refused/$image" || true; } | sed -n -e 's/^> *[-0-9]* *\([0-9]*\) .*/mark \1/p' \
        -e 's/^samples.*: \(refused [0-9 ]*\), .*/\1/p' -e 's/^samples.*: accepted .*/accepted/p' \
        -e 's/^  place   record .* at \(byte [0-9]* (0x[0-9A-F]*)\): .*/\1/p' | tr '\n' ';')
    test "$found" = "$expected" || { differ=$((differ + 1)); echo "hv show --kind $kind samples/refused/$image: $found and not $expected"; }
done <samples/refused/answers.txt
test "$refused" -gt 0 || { echo "samples/refused/answers.txt has no line"; exit 1; }
count=$((count + refused))

# Each sample has its line in the samples' README, with its length and its answer, a line of images with the number of its axes, and no other has one.
images=0
for image in samples/*.image samples/*.images; do
    test -f "$image" || { echo "there are no samples"; exit 1; }
    images=$((images + 1))
    case $image in
    *.images) answer="$(hv report --csv "$image" | sed 1d | wc -l) axes" ;;
    *) answer=$(hv check --plain "$image") || true ;;
    esac
    line="| \`${image#samples/}\` | $(($(wc -c <"$image"))) | $answer | "
    grep -qF "$line" samples/README.md || { differ=$((differ + 1)); echo "samples/README.md has no line $line"; }
done
count=$((count + images))
rows=$(grep -c '^| `.*\.images*` |' samples/README.md)
test "$rows" = "$images" || { differ=$((differ + 1)); echo "samples/README.md has $rows lines for $images images"; }

# The script at the top builds and runs the program by itself.
if test -z "${HV_ARCHIVE:-}"; then
    count=$((count + 1))
    test "$(./hv check --plain samples/p2.image)" = "ok 7" || { differ=$((differ + 1)); echo "./hv does not check samples/p2.image"; }
fi

echo "$count commands, $differ differ"
test "$differ" = 0
