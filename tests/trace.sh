#!/bin/sh
# Checks docs/TRACE.md against the repository: every name in backquotes in its second and third columns
# stands in the file that is named before it, every case and every decision that a row names is there,
# and every stored case is listed with its own answer. And, since document 01 asks it of all code:
# every public function has a contract. Each failure is one line with what is missing.
set -eu
cd "$(dirname "$0")/.."

# A public function's or method's head ends with a line that is its opening brace; a contract stands before it.
contracts() {
    awk '
        /^ *pub (extern "C" )?fn / { name = $0; contract = 0 }
        /ensures/ { contract = 1 }
        /^ *\{/ && name != "" {
            if (!contract) { print FILENAME ": no contract: " name; failed = 1 }
            name = ""
            count++
        }
        END {
            print count " public functions"
            exit failed || count == 0
        }' crates/*/src/*.rt
}

names() {
    awk -v cases=tests/cases/base-trace.txt -v decisions=docs/DECISIONS.md '
        function fail(what) {
            print "docs/TRACE.md:" NR ": " what
            failed = 1
        }

        # The file that a path of the table is.
        function file_of(path) {
            if (path ~ /^(tests|docs|include)\//) return path
            if (path ~ /^(specs|proofs|must-fail)\//) path = "rules/" path
            path = "crates/" path
            if (path ~ /\/(specs|proofs)\//) return path ".antt"
            if (path ~ /\/must-fail\//) return path ".edit"
            return path
        }

        # Reads a file once; whether it is there. Of antt the first word of each line is kept, behind the
        # words that begin a definition: a name counts where it is defined, not where it is used. Of an
        # edit the names of its slips are kept.
        function known(file,    line, status) {
            if (!(file in text)) {
                text[file] = ""
                while ((status = (getline line < file)) > 0) {
                    if (file ~ /\.antt$/) {
                        sub(/^ *((pub|abbrev|unfoldable|record|data) +)*/, "", line)
                        sub(/ .*/, "", line)
                    }
                    if (file ~ /\.edit$/) {
                        if (line !~ /^# [a-z0-9_]+, /) continue
                        sub(/^# /, "", line)
                        sub(/,.*/, "", line)
                    }
                    text[file] = text[file] line "\n"
                }
                there[file] = status == 0
                close(file)
            }
            return there[file]
        }

        # Whether a name stands in a text by itself, and not as a part of a longer one.
        function stands(name, all,    at, before, behind) {
            while (at = index(all, name)) {
                before = at > 1 ? substr(all, at - 1, 1) : " "
                behind = substr(all, at + length(name), 1)
                if (before !~ /[A-Za-z0-9_-]/ && behind !~ /[A-Za-z0-9_-]/) return 1
                all = substr(all, at + length(name))
            }
            return 0
        }

        function check_cell(cell,    part, many, i, file) {
            many = split(cell, part, "`")
            for (i = 2; i <= many; i += 2) {
                if (part[i] ~ /^[A-Za-z0-9_.-]+\/[A-Za-z0-9_.\/-]*$/) {
                    file = file_of(part[i])
                    if (!known(file)) fail("no file " file)
                } else if (file == "") {
                    fail("no file is named before " part[i])
                } else {
                    names++
                    if (!stands(part[i], text[file])) fail(file " has no " part[i])
                }
            }
        }

        # The decisions that a cell names, "D 12".
        function check_decisions(cell,    number) {
            while (match(cell, /D [0-9]+/)) {
                number = substr(cell, RSTART + 2, RLENGTH - 2)
                if (!(number in decided)) fail("no decision " number)
                cell = substr(cell, RSTART + RLENGTH)
            }
        }

        # The cases that a cell names: the numbers behind each "case" or "cases".
        function check_cases(cell,    part, many, i, number) {
            gsub(/\([^)]*\)/, "", cell)
            many = split(cell, part, /cases? /)
            for (i = 2; i <= many; i++) {
                sub(/[;`].*/, "", part[i])
                while (match(part[i], /[0-9]+/)) {
                    number = substr(part[i], RSTART, RLENGTH) + 0
                    if (number < 1 || number > stored) fail("no case " number)
                    part[i] = substr(part[i], RSTART + RLENGTH)
                }
            }
        }

        BEGIN {
            while ((getline line < cases) > 0) case_line[++stored] = line
            while ((getline line < decisions) > 0) if (line ~ /^[0-9]+\. /) decided[line + 0]
            close(decisions)
        }

        !/^\|/ || /^\|---/ || /^\| (sentence|line) / { next }

        # A row of the last table: line, operation, what is asked, answer.
        /^\| [0-9]+ \|/ {
            split($0, cell, " [|] ")
            sub(/^\| /, "", cell[1])
            gsub(/`|\|/, "", cell[2])
            gsub(/`| *\|$/, "", cell[4])
            listed++
            if (cell[1] != listed) fail("case " cell[1] " is out of its turn")
            if (index(case_line[listed], cell[2] " ") != 1) fail("case " listed " is not of " cell[2])
            if (!stands("=> " cell[4], case_line[listed])) fail("case " listed " has not the answer " cell[4])
            next
        }

        {
            if (split($0, cell, " [|] ") != 3 && $0 !~ /\| \|$/ || $0 ~ /\| \| ./) fail("not three columns")
            check_cell(cell[2])
            check_cell(cell[3])
            check_decisions($0)
            check_cases(cell[3])
        }

        END {
            if (listed != stored) fail(stored " cases are stored, " listed " are listed")
            print names " names, " listed " cases"
            exit failed || names == 0 || listed == 0
        }' docs/TRACE.md
}

contracts
names
