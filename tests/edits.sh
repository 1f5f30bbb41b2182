#!/usr/bin/env bash
# Tries every must-fail edit, or those that are named (edits.sh crates/fields/must-fail/round_1.edit), in a copy of the repository, and demands slip by slip that
# it is refused for what it breaks: at the proof that the slip names, by a fact that does not hold, and not because the proof no longer has the shape of the
# code. rt ci tries each edit as well, but tells only the first line of a refusal. What rt check says of each stays in target/must-fail/CRATE/EDIT.log.
# Run it behind rt all check: without what that keeps, each copy proves all that its crate uses.
#
# An edit holds slips, each behind a comment line of the form
#     # NAME, WHERE: what it breaks
# WHERE is the function whose proof has to fail or, in rules, the file of proofs/ with the law that does. A method may stand behind its impl, as U8Field::load.
set -eu -o pipefail
cd "$(dirname "$0")/.."
test $# -gt 0 || set -- crates/*/must-fail/*.edit
work=$(mktemp -d)
trap 'rm -rf "$work"' EXIT

crate_of() {
    local crate=${1#crates/}
    echo "${crate%%/*}"
}

log_of() {
    echo "target/must-fail/$(crate_of "$1")/$(basename "$1" .edit).log"
}

# The names of a crate's goals and steps, without an edit.
list_names() {
    (cd "crates/$1" && rt names "$2/names/$1") >"$2/names-$1.log" 2>&1 || { cat "$2/names-$1.log"; return 1; }
}

# Checks the crate of the edit $1 with it in a copy of the repository below $2. The last line of the log is the status.
try_edit() {
    local crate copy log status=0
    crate=$(crate_of "$1")
    copy=$2/$crate-$(basename "$1" .edit)
    log=$PWD/$(log_of "$1")
    mkdir -p "$(dirname "$log")"
    rm -f "$log"
    {
        tests/edited.py copy . "$crate" "$copy"
        tests/edited.py apply "$1" "$copy/crates/$crate"
        if grep -q '^src/' "$copy/touched"; then
            (cd "$copy/crates/$crate" && rt names "$copy/after")
            tests/edited.py names "$2/names/$crate" "$copy/after" "$copy/crates/$crate"
        fi
        (cd "$copy/crates/$crate" && rt check --jobs 1) || status=$?
        echo "ended with $status"
    } >"$log" 2>&1
    rm -rf "$copy"
}
export -f crate_of log_of list_names try_edit

. tests/made.sh
lanes=$(checks_at_once)
for edit in "$@"; do crate_of "$edit"; done | sort -u | xargs -P "$lanes" -I '{}' bash -eu -c 'list_names "$@"' - '{}' "$work" ||
    { echo "edits.sh: a crate does not read without an edit"; exit 1; }
# An edit that cannot be tried has no status in its log, which is told below.
printf '%s\n' "$@" | xargs -P "$lanes" -I '{}' bash -eu -c 'try_edit "$@"' - '{}' "$work" || true

# Each edit beside its log: a line for each slip that was refused so, and one for all else that is to be said.
read_edits() {
    for edit in "$@"; do
        log=$(log_of "$edit")
        if test "$(tail -n 1 "$log" 2>/dev/null)" = "ended with 1" && grep -q '^logic=not-proved' "$log"; then
            read_one "$edit" "$log"
        else
            echo "$edit: the check came to no refusal: $log"
        fi
    done
    echo "all read"
}

read_one() {
    awk -v edit="$1" '
        function fail(what) { print edit ": " what }

        # Whether an error says that a proof has not the shape of the code, or only follows from another error. The names of Lts are places in the code.
        function of_shape(text) {
            return text ~ /^[0-9]+ declarations? that depends? on |was not admitted|in scope|no field|is no name|that can be named/ ||
                text ~ /syntax error|operand is missing|expected the end|cannot continue/ ||
                text ~ /components, but|where one has `[^ `]*\.Lts\.[A-Z][^ `]*`/
        }

        FNR == NR {
            if (match($0, /^# [a-z0-9_]+, [A-Za-z0-9_:]*[A-Za-z0-9_]: /)) {
                text = substr($0, 3, RLENGTH - 4)
                name[++count] = substr(text, 1, index(text, ",") - 1)
                where[count] = substr(text, index(text, ",") + 2)
                if (slips[name[count]]++) fail("two slips " name[count])
                if (slips_at[where[count]]++) fail("two slips at " where[count])
            } else if (/^#/) fail("no slip in the form: " $0)
            else if (/^new:/ && !count) fail("a pair before the first slip")
            else if (/^new:/) pairs[count]++
            next
        }

        # A fact that fails at a function, at a method by its name alone and behind its impl.
        function fails(where_) {
            facts[where_]++
            if (sub(/^.*::/, "", where_)) facts[where_]++
        }

        # The function or the file of proofs/ that an error stands at. What is wrong may go on in the next line.
        function told() {
            if (path != "" && !of_shape(said)) fails(path)
            path = ""
        }
        {
            if (/^  / && !/are not in scope here/) said = said $0
            told()
        }
        / error: / {
            path = said = $0
            sub(/:[0-9]+:[0-9]+: error: .*/, "", path)
            sub(/\/(Answers|Invariants|Proof)\.antt$/, "", path)
            sub(/\.antt$/, "", path)
            sub(/^.*proofs\//, "", path)
            gsub(/\//, "::", path)
            sub(/^.*:[0-9]+:[0-9]+: error: /, "", said)
        }

        # A goal without an answer stands before its function: search alone proves it, and does not prove it with the edit. One that the function had not without
        # the edit tells nothing, nor one at which search came to a limit.
        /^new goal: / { added[$3, $4] }
        /^note: src\/[^ ]*: it is not proved that / && (/allow values at which this goal is false/ || !/gave up/) && match($0, /\(`[^`]+`\)/) {
            open[++opened] = substr($0, RSTART + 2, RLENGTH - 4)
        }
        /^(fn|struct|impl) / {
            item = $2
            sub(/:$/, "", item)
            sub(/^[^:]*::/, "", item)
            for (; opened; opened--) if (!((item, open[opened]) in added)) fails(item)
        }

        END {
            told()
            if (!count) fail("no slip in it")
            for (i = 1; i <= count; i++) {
                if (!pairs[i]) fail("no pair behind " name[i])
                if (!facts[where[i]]) fail(name[i] ": no fact fails at " where[i])
                else print "refused " name[i]
            }
        }' "$1" "$2"
}

read_edits "$@" | awk '
    /^refused / { refused++; next }
    /^all read$/ { all = 1; next }
    { print; failed = 1 }
    END {
        print refused + 0 " slips refused, each by a fact of its own"
        exit failed || !refused || !all
    }'
