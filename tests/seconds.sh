#!/bin/sh
# Makes docs/GATE.md's table from what .ci/run printed: .ci/run | tee LOG, then tests/seconds.sh LOG. A row for each part, from its beginning to its end; rt ci tells no
# seconds of a proof or of an edit, and takes as many at a time as there are processors.
set -eu
awk '
    BEGIN { print "| what | seconds |"; print "|---|---|" }
    /^part .*: [0-9]+ s$/ {
        seconds = $(NF - 1)
        sub(/^part /, "")
        sub(/: [0-9]+ s$/, "")
        print "| `" $0 "` | " seconds " |"
        count++
    }
    /^rt: ok;/ { said = $0 }
    END {
        if (said != "") print "\nrt ci: " substr(said, 5)
        exit !count
    }' "$@"
