# Turns lackey's trace into a din trace. Read by record, which gives it these variables:
#
#   block_bytes  a reference that straddles blocks of so many bytes becomes one for each of them; a
#                power of two up to 4096, or 0: it stays one
#   from, until  addresses, as lackey prints them: the trace begins with the first fetch of `from`,
#                and ends before the next fetch of `until`; where one is empty, that end is open
#
# lackey's lines are `I  04001000,3`, ` L 1ffe7e24,8`, ` S ..` and ` M ..`: the kind of reference,
# its address in eight hexadecimal digits or more, and its bytes. All else is no reference, and a
# line `end`, which is record's own, ends the trace.
#
# The last words go to standard error: `from` or `until`, if it was never fetched, or `-`; `none` if
# valgrind made no reference, `broken` if it failed by its own words, `whole` if it came to its end,
# or `cut`; and the number of references, of those printed, that straddle blocks of 64 bytes.

BEGIN {
    FS = ","
    bytes = block_bytes ? block_bytes : 64
    # The bytes from an address to the end of its block, by the address's last digits.
    digits = bytes > 256 ? 3 : 2
    for (i = 0; i < 16 ^ digits; i++) room[sprintf("%0" digits "x", i)] = bytes - i % bytes
    for (i = 0; i < 16; i++) value[sprintf("%x", i)] = i
    # A reference of up to nine bytes straddles only at the end of 64 bytes. This saves the look-up.
    near = bytes < 64 ? "," : "[37bf].,|,[0-9][0-9]"
    state = "cut"
    if (from == "") begin()
    else awaited = "I  " from
}

# begin: what comes from now on is printed, up to the next fetch of `until`.
function begin() {
    printing = 1
    awaited = until == "" ? "" : "I  " until
}

function number_of(hexadecimal,   i, sum) {
    for (i = 1; i <= length(hexadecimal); i++) sum = 16 * sum + value[substr(hexadecimal, i, 1)]
    return sum + 0
}

# moved: the address that lies so many bytes behind this one.
function moved(address, distance,   front, sum) {
    front = substr(address, 1, length(address) - 8)
    sum = number_of(substr(address, length(address) - 7)) + distance
    if (sum >= 4294967296) {
        sum -= 4294967296
        front = sprintf("%x", number_of(front) + 1)
    }
    return front sprintf("%08x", sum)
}

# print_pieces: the reference once for each block that it touches.
function print_pieces(label, address, size,   part) {
    for (part = room[substr(address, length(address) - digits + 1)]; part < size; part = bytes) {
        print label, address
        address = moved(address, part)
        size -= part
    }
    print label, address
}

awaited && $1 == awaited {
    if (printing) {
        printing = 0
        awaited = ""
    } else begin()
}

!printing && /^[I ]/ {
    references = 1
    next
}

$0 ~ near && $2 > room[substr($1, length($1) - digits + 1)] && /^(I | [LMS]) / {
    if (block_bytes) {
        address = substr($1, 4)
        if (/^I/) print_pieces(2, address, $2)
        if (/^ [LM]/) print_pieces(0, address, $2)
        if (/^ [MS]/) print_pieces(1, address, $2)
        next
    }
    straddling += /^ M/ ? 2 : 1
}

/^I  / {
    print 2 substr($1, 3)
    next
}

/^ L / {
    print 0 substr($1, 3)
    next
}

/^ S / {
    print 1 substr($1, 3)
    next
}

/^ M / {
    print 0 substr($1, 3)
    print 1 substr($1, 3)
    next
}

/^valgrind: |^==[0-9]+== +Valgrind cannot continue/ { state = "broken" }
/^==[0-9]+== Exit code: / && state == "cut" { state = "whole" }
{ others++ }
/^end$/ { exit }

END {
    open_end = awaited == "" ? "-" : printing ? "until" : "from"
    if (!references && NR == others) state = "none"
    print open_end, state, straddling + 0 > "/dev/stderr"
}
