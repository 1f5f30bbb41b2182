# awk -f module.awk MODULE.ll: looks through the text of the module for all that would make it another program on a processor whose pointers have 32 bits, and
# for a function that comes to call itself where a drive can reach it. Tells each on a line, and then how much it looked at; fails where it told one.
#
# Every instruction has to be one that is known here: none makes a pointer of a number or a number of a pointer, compares two, or chooses between two, but for
# the comparison of what is lent with null; a move and a clearing have a constant length. There is no global but constants of bytes, which hold no pointer, no type
# with a name, nothing passed by value. What a function of the module returns may be a pair, whose second part stands at the same offset with pointers of 32 bits.
# Offsets are bytes that are written out, so a slice keeps its 16 bytes, pointer at 0 and length at 8, on every processor: bytes 4 to 7 are then there and without
# meaning. So no place may be a pointer and a number as well. What is cleared is neither: a pointer of it is null and a number 0 on every processor.
#
# A place is a byte behind a root: an alloca, a parameter, or another value that is a pointer. getelementptr by a constant goes from place to place; a move joins
# the places of its two sides, a call those of argument and parameter. Told are: places that were joined and of which one is a byte of a pointer and another one
# of a number, or another byte of a pointer; a pointer that is kept at an offset that is not constant; and an alloca of one pointer, 4 bytes on such a processor,
# that is used as anything else or lent on. What a loaded pointer points to is a root of its own: the language keeps apart what is lent.
BEGIN {
    drives = "hv_begin hv_go_on hv_check_tables hv_intake_begin hv_intake_take hv_intake_close" # what a drive calls
    most = 1024                                  # places behind a root that are looked at
    bytes["i1"] = bytes["i8"] = 1; bytes["i16"] = 2; bytes["i32"] = 4; bytes["i64"] = bytes["ptr"] = 8
}

function tell(what) { if (!(what in told)) { told[what]; print what; faults++ } }
function unknown() { tell((in_function ? name : "outside of functions") ": not known: " $0) }

# The quoted or plain name behind the @ in a text, with its quotes.
function called(text) { sub(/^[^@]*@/, "", text); return match(text, /^"[^"]+"/) ? substr(text, 1, RLENGTH) : substr(text, 1, match(text, /[^A-Za-z0-9_.]/) - 1) }

# The parts of what stands in the brackets behind the @: part[1] and on; gives their count.
function parts(text) {
    sub(/^[^@]*@("[^"]+"|[A-Za-z0-9_.]+)\(/, "", text)
    sub(/\)[^)]*$/, "", text)
    return text == "" ? 0 : split(text, part, /, /)
}

# The place that a value points to: root and offset.
function find(value) { if ((name, value) in base) { root = base[name, value]; offset = ahead[name, value] } else { root = name SUBSEP value; offset = 0 } }
function reach(root, to) { if (to > most) to = most; if (to > wide[root]) { wide[root] = to; grew = 1 } }

function top(x,    y, next_up) {
    for (y = x; y in up; y = up[y]) ;
    while (x in up) { next_up = up[x]; if (x != y) up[x] = y; x = next_up }
    return y
}
function join(a, b) { a = top(a); b = top(b); if (a != b) up[a] = b }

function access(type, value,    i) {
    accesses++
    if (!(type in bytes)) { unknown(); return }
    if ((name, value) in one && type != "ptr") tell(name ": " value ", an alloca of a pointer, is used as " type)
    if (type == "ptr" && (name, value) in moving) tell(name ": a pointer is kept at an offset that is not constant: " $0)
    find(value)
    reach(root, offset + bytes[type])
    for (i = 0; i < bytes[type] && offset + i < most; i++) { marks++; mark[marks] = root SUBSEP (offset + i); kind[marks] = type == "ptr" ? "byte " i " of a pointer" : "a number"; where[marks] = name }
}

function clear(to, length_) {
    clears++
    if ((name, to) in one) tell(name ": an alloca of a pointer is cleared: " $0)
    find(to); reach(root, offset + length_)
}

# A pair that is loaded: its first part, and its second where it is aligned.
function pair(type, value,    part_of, first, second, short_) {
    gsub(/[{},]/, "", type)
    if (split(type, part_of, " ") != 2 || !(part_of[1] in bytes) || !(part_of[2] in bytes)) { unknown(); return }
    first = bytes[part_of[1]]; second = bytes[part_of[2]]
    short_ = part_of[1] == "ptr" ? 4 : first
    if (part_of[2] == "ptr" ? int((short_ + 3) / 4) * 4 != int((first + 7) / 8) * 8 : int((short_ + second - 1) / second) * second != int((first + second - 1) / second) * second)
        tell(name ": a pair whose second part stands elsewhere: " $0)
    find(value)
    pairs++
    base[name, "pair" pairs] = root; ahead[name, "pair" pairs] = offset + int((first + second - 1) / second) * second
    access(part_of[1], value)
    access(part_of[2], "pair" pairs)
}

function move(to, from, length_,    to_root, to_offset, i) {
    moves++
    if ((name, to) in one || (name, from) in one) tell(name ": an alloca of a pointer is moved: " $0)
    find(to); to_root = root; to_offset = offset; reach(root, offset + length_)
    find(from); reach(root, offset + length_)
    if (to_offset + length_ > most || offset + length_ > most) tell(name ": a move behind the first " most " bytes: " $0)
    for (i = 0; i < length_; i++) join(to_root SUBSEP (to_offset + i), root SUBSEP (offset + i))
}

# A call, or a tail of one: kept until all functions are known.
function call(text,    callee, count, i, word) {
    callee = called(text)
    if (callee == "llvm.trap" || callee ~ /^llvm\.(cttz|ctlz|ctpop)\.i(8|16|32|64)$/) return
    if (callee ~ /^llvm\./) { unknown(); return }
    calls++
    callee_of[calls] = callee; caller_of[calls] = name; line_of[calls] = $0
    edges[name] = edges[name] " " calls
    count = given[calls] = parts(text)
    for (i = 1; i <= count; i++) {
        if (part[i] !~ /^(ptr|i1|i8|i16|i32|i64)( noundef| zeroext)* (%[A-Za-z0-9_.]+|-?[0-9]+|true|false)$/) { unknown(); return }
        word = part[i]; sub(/^.* /, "", word)
        type_of[calls, i] = substr(part[i], 1, index(part[i], " ") - 1)
        if (type_of[calls, i] != "ptr") continue
        if (word !~ /^%/) { unknown(); return }
        if ((name, word) in one) tell(name ": an alloca of a pointer is lent: " $0)
        find(word); root_of[calls, i] = root; offset_of[calls, i] = offset
    }
}

/^$/ || /^;/ || /^source_filename = / || /^target (datalayout|triple) = / || /^attributes #[0-9]+ = / || /^![a-z0-9.]+ = !\{/ { next }
/^declare void @llvm\.memmove\.p0\.p0\.i64\(/ || /^declare void @llvm\.memset\.p0\.i64\(/ || /^declare void @llvm\.trap\(\)/ || /^declare i[0-9]+ @llvm\.(cttz|ctlz|ctpop)\.i[0-9]+\(/ { next }

/^@[A-Za-z0-9_.]+ = private unnamed_addr constant \[[0-9]+ x i8\] (c"[^"]*"|zeroinitializer), align [0-9]+$/ { constant[$1]; next }

/^define / {
    if (in_function || $0 !~ /^define (internal )?(noundef )?(zeroext )?(void|i1|i8|i16|i32|i64|\{ [a-z0-9]+, [a-z0-9]+ \}) @("[^"]+"|[A-Za-z0-9_]+)\(.*\) #0 \{$/) unknown()
    in_function = 1
    name = called($0)
    defined[name]
    functions++
    arity[name] = parts($0)
    for (i = 1; i <= arity[name]; i++) {
        if (part[i] !~ /^(ptr|i1|i8|i16|i32|i64)( noundef| zeroext)* %[A-Za-z0-9_.]+$/) unknown()
        parameter[name, i] = part[i]; sub(/^.* /, "", parameter[name, i])
        parameter_type[name, i] = substr(part[i], 1, index(part[i], " ") - 1)
        # What crosses the border of the archive: 32- and 64-bit numbers and pointers; and a number of 32 bits as the result, or none.
        if ($2 != "internal" && part[i] !~ /^(ptr|i32|i64) noundef %/) tell(name ": a parameter that is not a pointer or a number of 32 or 64 bits: " part[i])
    }
    if ($2 != "internal" && $0 !~ /^define (noundef i32|void) @/) tell(name ": a result that is neither none nor a number of 32 bits")
    next
}
/^\}$/ { in_function = 0; next }
!in_function { unknown(); next }
/^[A-Za-z0-9_.]+:/ { next }

{ sub(/^ +/, ""); sub(/(, ![a-z]+ ![0-9]+)+$/, "") }
/^%[^ ]+ = alloca ptr, align [0-9]+$/ { one[name, $1]; next }
/^%[^ ]+ = alloca (i1|i8|i16|i32|i64|\[[0-9]+ x i8\]), align [0-9]+$/ { next }
/^%[^ ]+ = getelementptr (inbounds )?(nuw )?i8, ptr %[^ ]+, i64 (-?[0-9]+|%[^ ]+)$/ {
    from = $(NF - 2); sub(/,$/, "", from)
    if ((name, from) in one) tell(name ": an offset in an alloca of a pointer: " $0)
    if ($NF ~ /^%/) { moving[name, $1]; next }
    if ((name, from) in moving) moving[name, $1]
    find(from)
    base[name, $1] = root; ahead[name, $1] = offset + $NF
    if (offset + $NF < 0) tell(name ": an offset in front of what is lent: " $0)
    next
}
/^%[^ ]+ = load [a-z0-9]+, ptr %[^ ]+, align [0-9]+$/ { type = $4; sub(/,/, "", type); value = $6; sub(/,/, "", value); access(type, value); next }
/^%[^ ]+ = load \{ [a-z0-9]+, [a-z0-9]+ \}, ptr %[^ ]+, align [0-9]+$/ { value = $(NF - 2); sub(/,/, "", value); pair($5 " " $6, value); next }
/^%[^ ]+ = extractvalue \{ [a-z0-9]+, [a-z0-9]+ \} %[^ ]+, [01]$/ { next }
/^store [a-z0-9]+ [^ ]+, ptr %[^ ]+, align [0-9]+$/ {
    value = $3; sub(/,/, "", value)
    if ($2 == "ptr" && value !~ /^%/ && !(value in constant)) unknown()
    value = $5; sub(/,/, "", value); access($2, value); next
}
/^call void @llvm\.memmove\.p0\.p0\.i64\(ptr %[^ ]+, ptr %[^ ]+, i64 [0-9]+, i1 false\)$/ {
    parts($0); sub(/^ptr /, "", part[1]); sub(/^ptr /, "", part[2]); sub(/^i64 /, "", part[3]); move(part[1], part[2], part[3] + 0); next
}
/^call void @llvm\.memset\.p0\.i64\(ptr %[^ ]+, i8 0, i64 [0-9]+, i1 false\)$/ {
    parts($0); sub(/^ptr /, "", part[1]); sub(/^i64 /, "", part[3]); clear(part[1], part[3] + 0); next
}
/^(%[^ ]+ = )?call (void|i1|i8|i16|i32|i64|zeroext i1|\{ [a-z0-9]+, [a-z0-9]+ \}) @/ { call($0); next }
/^%[^ ]+ = (add|sub|mul|shl)( nuw)?( nsw)? i[0-9]+ [^ ]+, [^ ]+$/ || /^%[^ ]+ = (udiv|sdiv|urem|srem|lshr|ashr|and|or|xor)( exact| disjoint)? i[0-9]+ [^ ]+, [^ ]+$/ { next }
/^%[^ ]+ = icmp [a-z]+ i[0-9]+ [^ ]+, [^ ]+$/ || /^%[^ ]+ = icmp eq ptr %[^ ]+, null$/ || /^%[^ ]+ = (zext|sext|trunc)( nneg| nuw| nsw)* i[0-9]+ [^ ]+ to i[0-9]+$/ { next }
/^br (label|i1) / || /^switch i[0-9]+ / || /^i[0-9]+ [0-9]+, label %[^ ]+$/ || /^\]$/ || /^ret (void|i[0-9]+ [^ ]+|\{ [a-z0-9]+, [a-z0-9]+ \} %[^ ]+)$/ || /^unreachable$/ { next }
{ unknown() }

# From a function on, along its calls; path has those that are not over.
function walk(f, path,    list, count, i, g) {
    if (index(path, "\n" f "\n")) { tell(f " comes to call itself, and a drive can reach it"); return }
    if (f in walked) return
    count = split(edges[f], list, " ")
    for (i = 1; i <= count; i++) walk(callee_of[list[i]], path f "\n")
    walked[f]
}

END {
    for (c = 1; c <= calls; c++) {
        g = callee_of[c]
        if (!(g in defined)) { tell(caller_of[c] ": calls what the module does not have: " line_of[c]); given[c] = 0; continue }
        if (given[c] != arity[g]) { tell(caller_of[c] ": another number of arguments than parameters: " line_of[c]); given[c] = 0 }
        for (i = 1; i <= given[c]; i++) if (type_of[c, i] != parameter_type[g, i]) tell(caller_of[c] ": an argument of another type: " line_of[c])
    }
    # How far each side of a call is used, until nothing grows; then the two sides are joined.
    do {
        grew = 0
        for (c = 1; c <= calls; c++)
            for (i = 1; i <= given[c]; i++) {
                if (type_of[c, i] != "ptr") continue
                r = root_of[c, i]; o = offset_of[c, i]; q = callee_of[c] SUBSEP parameter[callee_of[c], i]
                reach(q, wide[r] - o)
                reach(r, o + wide[q])
            }
    } while (grew)
    for (c = 1; c <= calls; c++)
        for (i = 1; i <= given[c]; i++) {
            if (type_of[c, i] != "ptr") continue
            r = root_of[c, i]; o = offset_of[c, i]; q = callee_of[c] SUBSEP parameter[callee_of[c], i]
            for (k = 0; k < wide[q]; k++) join(r SUBSEP (o + k), q SUBSEP k)
        }
    for (m = 1; m <= marks; m++) {
        x = top(mark[m])
        if (!(x in what)) { what[x] = kind[m]; at[x] = where[m]; if (kind[m] != "a number") pointers++ }
        else if (what[x] != kind[m]) tell("one place is " what[x] " in " at[x] " and " kind[m] " in " where[m])
    }
    count = split(drives, list, " ")
    for (i = 1; i <= count; i++) if (list[i] in defined) walk(list[i], "\n"); else tell("the module has no " list[i])
    if (!functions || !accesses || !moves || !calls || !pointers) tell("there was too little to look at")
    print functions + 0 " functions, " accesses + 0 " accesses, " moves + 0 " moves, " clears + 0 " clearings, " calls + 0 " calls, " pointers + 0 " bytes of pointers: " faults + 0 " told"
    exit faults > 0
}
