#!/bin/sh
# Reads the stack that each function of the header takes off the archive's instructions, and prints a row
# for each: its bytes, its limit and its deepest chain of calls. Fails where one is above its limit, where
# docs/PERFORMANCE.md has other rows, and where it cannot tell: a call through a pointer, a jump through one
# that is no compiler's table of a match, a function that comes to call itself, a stack pointer that is moved
# in another way than by a constant. What memcpy and memset take is the machine's own and not counted.
# HV_ARCHIVE names another archive for x86-64.
set -eu

tests=$(cd "$(dirname "$0")" && pwd)
. "$tests/made.sh"
archive=${HV_ARCHIVE:-$(made_archive "$tests/..")}
test -f "$archive" || { echo "no archive at $archive" >&2; exit 1; }
. "$tests/host.sh"
built=$(mktemp -d)
trap 'rm -rf "$built"' EXIT

dump -dr --no-show-raw-insn "$archive" >"$built/code"
grep -q 'file format elf64-x86-64' "$built/code" || { echo "$archive is not for x86-64" >&2; exit 1; }

awk '
    BEGIN {
        limit["hv_judge_set"] = 256
        limit["hv_check_timetable"] = 3072
        limit["hv_derive"] = 4096
        limit["hv_check_tables"] = 3072
        limit["hv_rebuild"] = 4096
        limit["hv_begin"] = 4096
        limit["hv_go_on"] = 1536
        limit["hv_intake_begin"] = 64
        limit["hv_intake_take"] = 64
        limit["hv_intake_close"] = 3072
        limit["hv_intake_rebuild"] = 4096
        limit["hv_figures"] = 32768
        outside["memcmp"]; outside["memcpy"]; outside["memmove"]; outside["memset"]
    }

    function fail(what) {
        print what >"/dev/stderr"
        failed = 1
    }

    function hex(digits,    value, i) {
        for (i = 1; i <= length(digits); i++) value = 16 * value + index("0123456789abcdef", substr(digits, i, 1)) - 1
        return value
    }

    function grouped(number) {
        return number < 1000 ? number : int(number / 1000) "," sprintf("%03d", number % 1000)
    }

    # A function begins.
    /^[0-9a-f]+ <.*>:$/ {
        name = $0
        sub(/^[0-9a-f]+ </, "", name)
        sub(/>:$/, "", name)
        functions[++count] = name
        last = 0
        next
    }

    # What the instruction before it calls or jumps to.
    /^\t\t\t[0-9a-f]+: R_X86_64_PLT32/ {
        called = $3
        sub(/[+-]0x[0-9a-f]+$/, "", called)
        sub(/^\.text\./, "", called)
        calls[name, last] = called
        next
    }

    /^ *[0-9a-f]+:\t/ {
        split($0, part, "\t")
        gsub(/[ :]/, "", part[1])
        at[name, ++last] = part[1]
        line[name, last] = part[2]
        lines[name] = last
    }

    # A large frame is taken in steps, each of which is stored to, until the stack pointer is where %r11 is: the bytes of all steps, where this is one. The instructions
    # are those of the compiler for "probe-stack".
    function steps(i,    all, step) {
        if (line[name, i - 2] !~ /^mov +%rsp,%r11$/ || line[name, i - 1] !~ /^sub +\$0x[0-9a-f]+,%r11$/ || line[name, i] !~ /^sub +\$0x[0-9a-f]+,%rsp$/) return 0
        if (line[name, i + 1] !~ /^movq +\$0x0,\(%rsp\)$/ || line[name, i + 2] !~ /^cmp +%r11,%rsp$/ || line[name, i + 3] !~ ("^jne +" at[name, i] " ")) return 0
        all = line[name, i - 1]; sub(/^.*\$0x/, "", all); sub(/,.*/, "", all)
        step = line[name, i]; sub(/^.*\$0x/, "", step); sub(/,.*/, "", step)
        return hex(all) % hex(step) ? 0 : hex(all)
    }

    # By how much an instruction moves the stack pointer down.
    function moved(text, i,    digits) {
        if (steps(i)) return steps(i)
        if (steps(i - 2)) return 0
        if (text ~ /^push/) return 8
        if (text ~ /^pop/) return -8
        if (text ~ /^(sub|add) +\$0x[0-9a-f]+,%rsp$/) {
            digits = text
            sub(/^.*\$0x/, "", digits)
            sub(/,%rsp$/, "", digits)
            return text ~ /^sub/ ? hex(digits) : -hex(digits)
        }
        if (text ~ /,%[er]?sp$/ || text ~ /^(leave|enter)/) fail(name ": the stack pointer is moved by " text)
        return 0
    }

    # The bytes below the stack pointer that an instruction uses: the red zone.
    function below(text,    digits) {
        if (!match(text, /-0x[0-9a-f]+\(%rsp/)) return 0
        digits = substr(text, RSTART + 3, RLENGTH - 3)
        sub(/\(%rsp$/, "", digits)
        return hex(digits)
    }

    function known(place, bytes) {
        if (!((name, place) in depth)) {
            depth[name, place] = bytes
            news = 1
        } else if (depth[name, place] != bytes)
            fail(name ": two depths of the stack at " place)
    }

    # Is a jump through a register one by a table of distances: read from the table, added to its address?
    function by_table(i,    register) {
        register = line[name, i]
        sub(/^.*\*/, "", register)
        return register ~ /^%r[a-z0-9]+$/ \
            && line[name, i - 1] ~ ("^add +%r[a-z0-9]+," register "$") \
            && line[name, i - 2] ~ ("^movslq +\\(%r[a-z0-9]+,%r[a-z0-9]+,4\\)," register "$")
    }

    # What a table leads to: each place that nothing else leads to, with the depth at the jump.
    function from_table(    i) {
        for (i = 2; i <= lines[name]; i++)
            if (!((name, at[name, i]) in depth) && line[name, i - 1] ~ /^(jmp|ret|ud2)/ && line[name, i] !~ /nop|^xchg +%ax,%ax|^int3/)
                known(at[name, i], table_depth)
    }

    # The depth of the stack at every instruction of a function, from its first one on, along every jump.
    function follow(    i, text, deep, to) {
        depth[name, at[name, 1]] = 8
        table_depth = 0
        do {
            news = 0
            if (table_depth) from_table()
            for (i = 1; i <= lines[name]; i++) {
                if (!((name, at[name, i]) in depth)) continue
                text = line[name, i]
                deep = depth[name, at[name, i]] + moved(text, i)
                if (text ~ /^j/ && !((name, i) in calls) && !steps(i - 3)) {
                    split(text, part, " ")
                    if (part[2] ~ /^[0-9a-f]+$/) known(part[2], deep)
                    else if (!by_table(i)) fail(name ": a jump through a pointer: " text)
                    else if (!table_depth) news = table_depth = deep
                    else if (table_depth != deep) fail(name ": tables at two depths of the stack")
                }
                if (text !~ /^(jmp|ret|ud2)/ && i < lines[name]) known(at[name, i + 1], deep)
            }
        } while (news)
    }

    # What a function takes by itself, and at which depth it calls which others.
    function measure(    i, text, deep) {
        for (i = 1; i <= lines[name]; i++) {
            text = line[name, i]
            if (!((name, at[name, i]) in depth)) {
                if (text !~ /nop|^xchg +%ax,%ax|^int3/) fail(name ": nothing leads to " at[name, i] ": " text)
                continue
            }
            deep = depth[name, at[name, i]]
            if (text ~ /^call/ && !((name, i) in calls)) fail(name ": a call through a pointer, or of no named function: " text)
            if (deep + moved(text, i) > own[name]) own[name] = deep + moved(text, i)
            if (deep + below(text) > own[name]) own[name] = deep + below(text)
        }
    }

    # The most bytes that a function takes with those that it calls, its return address included.
    function taken(of,    i, all, most, chain, to) {
        if (of in most_of) return most_of[of]
        if (of in open) { fail(of " comes to call itself"); return 0 }
        open[of]
        most = own[of]
        chain = of
        for (i = 1; i <= lines[of]; i++) {
            if (!((of, i) in calls)) continue
            to = calls[of, i]
            # A call leaves its return address; a jump to another function takes the place of its own.
            all = depth[of, at[of, i]] - (line[of, i] ~ /^call/ ? 0 : 8)
            if (to in lines) all += taken(to)
            else if (to in outside) all += 8
            else fail(of " calls " to ", which is not in the archive")
            if (all > most) {
                most = all
                chain = of " > " ((to in lines) ? chain_of[to] : to)
            }
        }
        delete open[of]
        chain_of[of] = chain
        return most_of[of] = most
    }

    END {
        for (i = 1; i <= count; i++) {
            name = functions[i]
            follow()
            measure()
        }
        for (i = 1; i <= count; i++) {
            name = functions[i]
            if (name !~ /^hv_/) continue
            faces++
            bytes = taken(name)
            if (!(name in limit)) fail(name " has no limit")
            else if (bytes > limit[name]) fail(name " takes " bytes " bytes of stack, its limit is " limit[name])
            printf "| `%s` | %s | %s | %s |\n", name, grouped(bytes), grouped(limit[name]), chain_of[name]
        }
        for (name in limit) if (!(name in lines)) fail("the archive has no " name)
        if (!faces) fail("no function was found")
        exit failed
    }' "$built/code" >"$built/rows" || { cat "$built/rows"; exit 1; }

cat "$built/rows"
grep '^| `hv_' "$tests/../docs/PERFORMANCE.md" | diff - "$built/rows" || { echo "docs/PERFORMANCE.md has other rows" >&2; exit 1; }
echo "the stack of $(wc -l <"$built/rows") functions is as docs/PERFORMANCE.md says"
