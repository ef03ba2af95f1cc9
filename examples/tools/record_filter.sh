# Tests what bin/record's awk makes of lackey's lines. Read by tools.sh.
# shellcheck shell=bash disable=SC2154  # names that tools.sh and its other files set

# filters NAME LINES BYTES TRACE LAST: of these lines, with blocks of so many bytes or with 0, the
# awk makes this trace, and its last words are these.
filters() {
    run awk -v "block_bytes=$3" -f "$bin/record_filter.awk" <(echo "$2")
    [ "$status" -eq 0 ] && [ "$(<"$out")" = "$4" ] && [ "$(<"$err")" = "$5" ]
    verdict "record's awk: $1" $?
}

# 40 bytes behind the begin of a block, 24 are left of 64.
filters 'a long load that begins far from the end of its block' ' L 1ffe7e28,32' 64 \
    $'0 1ffe7e28\n0 1ffe7e40' '- cut 0'
filters 'a long load that ends with its block' ' L 1ffe7e20,32' 64 '0 1ffe7e20' '- cut 0'
filters 'a load of three blocks' ' L 1ffe7e28,32' 16 \
    $'0 1ffe7e28\n0 1ffe7e30\n0 1ffe7e40' '- cut 0'
filters 'an instruction across 32 bytes' 'I  0040101d,5' 32 $'2 0040101d\n2 00401020' '- cut 0'
filters 'a store from one page to the next' ' S 1ffe7ffc,8' 4096 \
    $'1 1ffe7ffc\n1 1ffe8000' '- cut 0'
filters 'a store that ends with its page' ' S 1ffe7ff8,8' 4096 '1 1ffe7ff8' '- cut 0'
filters 'an instruction across 512 bytes' 'I  004011ff,2' 512 $'2 004011ff\n2 00401200' '- cut 0'
filters 'a modification is a load of each block, and then a store' ' M 1ffe7e3c,8' 64 \
    $'0 1ffe7e3c\n0 1ffe7e40\n1 1ffe7e3c\n1 1ffe7e40' '- cut 0'
filters 'references at the end of 32 bits' $'I  fffffffe,4\n L 1ffffffffc,8' 64 \
    $'2 fffffffe\n2 100000000\n0 1ffffffffc\n0 2000000000' '- cut 0'
# A load and a store straddle where the one modification does.
filters 'how many references straddle' $' M 1ffe7e3c,8\n L 1ffe7e28,32\n S 1ffe7e38,8' 0 \
    $'0 1ffe7e3c\n1 1ffe7e3c\n0 1ffe7e28\n1 1ffe7e38' '- cut 3'
# What valgrind says of its own failure is not made good by what it says later.
filters 'a valgrind that fails before it tells its end' \
    $'I  00001000,3\nvalgrind: failed\n==12== Exit code:       0' 0 '2 00001000' '- broken 0'
filters 'a valgrind that has no more memory' $'I  00001000,3
==12==     Valgrind\'s memory management: out of memory:
==12==     Valgrind cannot continue.  Sorry.' 0 '2 00001000' '- broken 0'
filters 'a valgrind that comes to its end' $'I  00001000,3\n==12== Exit code:       0' 0 \
    '2 00001000' '- whole 0'
