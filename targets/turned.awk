# awk -f turned.awk MODULE.ll: the text of the module for a big-endian processor.
#
# A constant stands in the text as the bytes that it has on x86-64. The one table that is known is that of marks, of rows of 48 bytes (crates/images, Row): two bytes,
# two lengths, two booleans, the rank, the class and a boolean, each number of 8 bytes aligned to 8. Its numbers are turned.
#
# Which variant an enum is stands in a number of 1, 4 or 8 bytes. It is stored whole, and read as its lowest byte, which comes first on x86-64 alone; so of 4 or 8 bytes it
# is stored such that this byte comes first. These stores are those of 4 or 8 bytes that may stand at any address: of a constant, or of what was read so.
#
# Fails at another constant, and at another load or store of a number at any address, but for a slice's length where the archive is called.
function unknown(what) { print "turned.awk: not known: " what >"/dev/stderr"; failed = 1 }

/^@[A-Za-z0-9_.]+ = private unnamed_addr constant / {
    at = index($0, " c\"")
    if (!at) { unknown($1); next }
    line = substr($0, 1, at + 2)
    text = substr($0, at + 3)
    for (count = 0; substr(text, 1, 1) != "\""; count++) {
        byte[count] = substr(text, 1, substr(text, 1, 1) == "\\" ? 3 : 1)
        text = substr(text, length(byte[count]) + 1)
    }
    if (!count || count % 48) unknown($1 " of " count " bytes")
    for (i = 0; i < count; i++) {
        within = i % 48
        if (within < 2 || within == 24 || within == 25 || within == 40 || within == 41) line = line byte[i]
        else if (within < 8 || within > 25 && within < 32 || within > 41) {
            if (byte[i] != "\\00") unknown("byte " i " of " $1)
            line = line byte[i]
        } else line = line byte[i - within % 8 + 7 - within % 8]
    }
    print line text
    next
}
/^define / { outside = $2 != "internal" }
/^ +%[^ ]+ = zext i8 %[^ ]+ to i(32|64)$/ { variant = $1 " " $NF }
/^ +store i(32|64) [^ ]+, ptr %[^ ]+, align 1$/ {
    value = $3
    sub(/,/, "", value)
    if (value !~ /^[0-9]+$/ && value " " $2 != variant) { unknown($0); next }
    turned = "%turned" ++many
    print "  " turned " = shl " $2 " " value ", " ($2 == "i32" ? 24 : 56)
    sub(/store i(32|64) [^ ]+,/, "store " $2 " " turned ",")
    print
    next
}
/^ +%[^ ]+ = load i(16|32|64), ptr %[^ ]+, align 1$/ && !outside || /align 1$/ && /^ +store i16 / { unknown($0); next }
{ print }
END { exit failed }
