# What crosses the border of the archive, from the header or from the proved crate: awk -f border.awk include/hervantyu.h, awk -f border.awk .../src/lib.rt. Prints
# each exported function with the kinds of its parameters and of its result, a slice as a pointer and a length, a record as a pointer to its numbers: the two have
# to print the same lines. Fails at a parameter that is not a number of 32 or 64 bits or a pointer to numbers, and at a result that is neither none nor a number of
# 32 bits: such a one, a struct by value or a narrow number, would be passed in another way on another processor.
function fail(what) { print FILENAME ": " what; failed = 1 }
function trimmed(text) { gsub(/[ \t\n]+/, " ", text); sub(/^ /, "", text); sub(/ $/, "", text); return text }

# A parameter of the header.
function kind_in_c(text,    kind) {
    if (text ~ /^uint(32|64)_t [a-z_]+$/) return text ~ /^uint32/ ? "u32" : "u64"
    kind = text ~ /^const / ? "const " : ""
    sub(/^const /, "", text)
    if (text ~ /^struct hv_[a-z]+ \*HV_RESTRICT [a-z]+$/ && substr(text, 8, index(text, " *") - 8) in record) return kind "pointer to " record[substr(text, 8, index(text, " *") - 8)]
    if (text ~ /^int64_t \*HV_RESTRICT [a-z]+$/) return kind "pointer to i64"
    if (text ~ /^uint(8|32|64)_t \*HV_RESTRICT [a-z]+$/) { sub(/^uint/, "", text); return kind "pointer to u" (text + 0) }
    if (text ~ /^uint(32|64)_t [a-z]+\[HV_LENT\([0-9]+\)\]$/) { sub(/^uint/, "", text); kind = kind "pointer to "; match(text, /\([0-9]+/); return kind substr(text, RSTART + 1, RLENGTH - 1) " u" (text + 0) }
    fail("no number of 32 or 64 bits and no pointer crosses the border: " text)
    return "?"
}

# A parameter of the crate.
function kind_in_crate(text,    kind, length_) {
    sub(/^[a-z]+: /, "", text)
    if (text ~ /^u(32|64)$/) return text
    kind = text ~ /^&mut / ? "pointer to " : "const pointer to "
    if (sub(/^&mut /, "", text) || sub(/^&/, "", text)) {
        if (text ~ /^u(32|64)$/) return kind text
        if (text ~ /^\[(u8|i64)\]$/) return kind substr(text, 2, length(text) - 2) ", u64"
        if (text ~ /^\[u(32|64); [0-9A-Z]+\]$/) { length_ = text; sub(/^.*; /, "", length_); sub(/\]$/, "", length_); sub(/;.*/, "", text); return kind length_ " " substr(text, 2) }
    }
    fail("no number of 32 or 64 bits and no pointer crosses the border: " text)
    return "?"
}

# A function's line, from its name, what stands in its brackets and its result.
function print_function(name, inside, result,    part, count, i, line) {
    sub(/, ?$/, "", inside)
    count = split(inside, part, /, ?/)
    for (i = 1; i <= count; i++) line = line (i > 1 ? ", " : "") (FILENAME ~ /\.h$/ ? kind_in_c(trimmed(part[i])) : kind_in_crate(trimmed(part[i])))
    print name ": " line " -> " result
    functions++
}

# A record of the header has numbers of one width and nothing else. That of an intake has no arrays; gives how many numbers it has.
function read_record(text, number,    part, count, i, numbers) {
    count = split(text, part, ";")
    sub(/^[^{]*\{/, "", part[1])
    for (i = 1; i <= count - 2; i++) {
        text = trimmed(part[i])
        if (text !~ "^" number "(, " substr(number, index(number, " ") + 1) ")*$") fail("not a number of the record: " text)
        numbers += 1 + gsub(/,/, "", text)
    }
    return numbers
}

# All that the header declares, without its comments: functions, the records and what is said of their sizes.
function read_header(text,    at, part, count, i, name, result) {
    while (at = index(text, "/*")) text = substr(text, 1, at - 1) substr(text, at + 3 + index(substr(text, at + 2), "*/"))
    gsub(/\n#[^\n]*/, "\n", text)
    while (match(text, /struct hv_[a-z]+ \{[^}]*\};/)) {
        at = substr(text, RSTART, RLENGTH)
        text = substr(text, 1, RSTART - 1) substr(text, RSTART + RLENGTH)
        name = at; sub(/ \{.*/, "", name); sub(/^struct /, "", name)
        if (name == "hv_dispatcher") { read_record(at, "uint32_t [a-z_]+(\\[[0-9]+\\])*"); record[name] = "NUMBERS u32" }
        else record[name] = read_record(at, "uint64_t [a-z_]+") " u64"
    }
    sub(/extern "C" \{/, "", text)
    sub(/\}[ \n]*$/, "", text)
    count = split(text, part, ";")
    for (i = 1; i <= count; i++) {
        text = trimmed(part[i])
        if (text == "" || text ~ /^(_Static|static)_assert\(.*\)$/) continue
        if (text !~ /^(uint32_t|void) hv_[a-z_]+\(.*\)$/) { fail("not a function that gives a uint32_t or nothing: " text); continue }
        result = text ~ /^void/ ? "nothing" : "u32"
        name = text; sub(/\(.*/, "", name); sub(/^[a-z0-9_]+ /, "", name)
        sub(/^[^(]*\(/, "", text); sub(/\)$/, "", text)
        print_function(name, text, result)
    }
}

# The functions of the crate that the archive exports.
function read_crate(text,    part, count, i, name, result) {
    gsub(/\n *\/\/[^\n]*/, "\n", text)
    count = split(text, part, /extern "C" fn /)
    for (i = 2; i <= count; i++) {
        name = part[i]; sub(/\(.*/, "", name)
        text = trimmed(substr(part[i], length(name) + 2))
        if (text !~ /^[^()]*\) (-> u32 |ensures |requires |\{)/) { fail(name " does not give a u32 or nothing"); continue }
        result = text ~ /^[^()]*\) -> / ? "u32" : "nothing"
        sub(/\).*/, "", text)
        print_function(name, trimmed(text), result)
    }
    if (functions != gsub(/#\[unsafe\(no_mangle\)\]/, "", all)) fail("not as many functions as marks no_mangle")
}

{ all = all $0 "\n" }
END {
    if (FILENAME ~ /\.h$/) read_header("\n" all); else read_crate("\n" all)
    if (!functions) fail("no function")
    exit failed
}
