#!/usr/bin/env bash
# Runs the simulator as a user does, and compares what each call prints on both streams and its exit
# status with what it has to. The first argument is the program; without one the launcher is taken.
set -u
top=$(CDPATH='' cd -P -- "$(dirname -- "$0")/.." && pwd)
program=${1:-$top/bin/dinero_pipe}
. "$(dirname "$0")/calls.sh"
need_program "$program"

caches=(--l1-isize 16 --l1-ibsize 4 --l1-dsize 16 --l1-dbsize 4 --l1-dassoc 2
    --l2-usize 32 --l2-ubsize 8 --l2-uassoc 2 --ring 2)

# The block of a cache at which nothing happened.
idle() {
    local line
    printf '%-18s%12s%12s%12s%12s%12s\n' "$1" Total Instrn Read Write Misc
    for line in 'Demand Fetches' 'Demand Misses'; do
        printf '%-18s%12s%12s%12s%12s%12s\n' "$line" 0 0 0 0 0
    done
    printf '%-18s%12s%12s%12s%12s%12s\n' 'Miss Rate' 0.0000 0.0000 0.0000 0.0000 0.0000
    for line in Compulsory Capacity Conflict; do
        printf '%-18s%12s%12s%12s%12s%12s\n' "$line" 0 0 0 0 0
    done
    for line in 'Blocks Fetched' 'Written Back' 'Writes Sent On' Flushes; do
        printf '%-18s%12s\n' "$line" 0
    done
}

{ idle l1-icache; echo; idle l1-dcache; echo; idle l2-ucache; } >"$work/idle"

{
    idle l1-icache
    cat <<'END'

l1-dcache                Total      Instrn        Read       Write        Misc
Demand Fetches               3           0           2           1           0
Demand Misses                3           0           2           1           0
Miss Rate               1.0000      0.0000      1.0000      1.0000      0.0000
Compulsory                   3           0           2           1           0
Capacity                     0           0           0           0           0
Conflict                     0           0           0           0           0
Blocks Fetched               3
Written Back                 1
Writes Sent On               0
Flushes                      0

l2-ucache                Total      Instrn        Read       Write        Misc
Demand Fetches               4           0           3           1           0
Demand Misses                3           0           3           0           0
Miss Rate               0.7500      0.0000      1.0000      0.0000      0.0000
Compulsory                   3           0           3           0           0
Capacity                     0           0           0           0           0
Conflict                     0           0           0           0           0
Blocks Fetched               3
Written Back                 0
Writes Sent On               0
Flushes                      0
END
} >"$work/worked"
# The third to the sixth of these reads: block 0, block 0 again, blocks 1 and 2. The second level
# has blocks twice as long.
printf '0 40\n0 10\n0 0\n0 3\n0 4\n0 8\n0 40\n' >"$work/part.din"
{
    idle l1-icache
    cat <<'END'

l1-dcache                Total      Instrn        Read       Write        Misc
Demand Fetches               4           0           4           0           0
Demand Misses                3           0           3           0           0
Miss Rate               0.7500      0.0000      0.7500      0.0000      0.0000
Compulsory                   3           0           3           0           0
Capacity                     0           0           0           0           0
Conflict                     0           0           0           0           0
Blocks Fetched               3
Written Back                 0
Writes Sent On               0
Flushes                      0

l2-ucache                Total      Instrn        Read       Write        Misc
Demand Fetches               3           0           3           0           0
Demand Misses                2           0           2           0           0
Miss Rate               0.6666      0.0000      0.6666      0.0000      0.0000
Compulsory                   2           0           2           0           0
Capacity                     0           0           0           0           0
Conflict                     0           0           0           0           0
Blocks Fetched               2
Written Back                 0
Writes Sent On               0
Flushes                      0
END
} >"$work/part"

# Reads of one block, more than 2^20 bytes of them: all but the first hit.
yes '0 0' | head -n 300000 >"$work/long.din"
{
    idle l1-icache
    cat <<'END'

l1-dcache                Total      Instrn        Read       Write        Misc
Demand Fetches          300000           0      300000           0           0
Demand Misses                1           0           1           0           0
Miss Rate               0.0000      0.0000      0.0000      0.0000      0.0000
Compulsory                   1           0           1           0           0
Capacity                     0           0           0           0           0
Conflict                     0           0           0           0           0
Blocks Fetched               1
Written Back                 0
Writes Sent On               0
Flushes                      0

l2-ucache                Total      Instrn        Read       Write        Misc
Demand Fetches               1           0           1           0           0
Demand Misses                1           0           1           0           0
Miss Rate               1.0000      0.0000      1.0000      0.0000      0.0000
Compulsory                   1           0           1           0           0
Capacity                     0           0           0           0           0
Conflict                     0           0           0           0           0
Blocks Fetched               1
Written Back                 0
Writes Sent On               0
Flushes                      0
END
} >"$work/long"
: >"$work/nothing"
printf '1 0\n0 8\n0 10\n' >"$work/worked.din"
printf '0 0\n\n5 0\n' >"$work/faulty.din"

refused='dinero_pipe: command line refused, try --help
'
no_write='dinero_pipe: report write failed
'
nothing=$work/nothing
trace=$work/worked.din

call 'good words' 0 "$work/worked" '' "$trace" "${caches[@]}"
call 'no input' 0 "$work/idle" '' /dev/null "${caches[@]}"
call 'a required option is missing' 2 "$nothing" "$refused" "$trace" "${caches[@]:2}"
call 'no words at all' 2 "$nothing" "$refused" "$trace"
call 'an option twice' 2 "$nothing" "$refused" "$trace" "${caches[@]}" --ring 3
call 'an unknown option' 2 "$nothing" "$refused" "$trace" "${caches[@]}" --l3-usize 64
call 'an option without a value' 2 "$nothing" "$refused" "$trace" "${caches[@]}" --maxcount
call 'a value with a hyphen in front' 2 "$nothing" "$refused" "$trace" "${caches[@]}" --maxcount -1
call 'words that are no text' 2 "$nothing" "$refused" "$trace" "${caches[@]}" $'\xff'
call 'a part of a trace' 0 "$work/part" '' "$work/part.din" "${caches[@]}" --skipcount 2 --maxcount 4
call 'a long trace' 0 "$work/long" '' "$work/long.din" "${caches[@]}"
call 'a bad number' 2 "$nothing" 'dinero_pipe: --maxcount: not a number
' "$trace" "${caches[@]}" --maxcount two
leave_trace 'dinero_pipe: --maxcount: not a number
' "${caches[@]}" --maxcount two
call 'a bad letter' 2 "$nothing" 'dinero_pipe: --l1-irepl: not a lawful letter
' "$trace" "${caches[@]}" --l1-irepl r
call 'too many ways' 2 "$nothing" 'dinero_pipe: l1-icache: associativity is too large
' "$trace" "${caches[@]}" --l1-iassoc 8
call 'a size that is no power of two' 2 "$nothing" 'dinero_pipe: l1-icache: size is not a power of two
' "$trace" --l1-isize 24 "${caches[@]:2}"
call 'a short block behind a long one' 2 "$nothing" 'dinero_pipe: l2 block is shorter than an l1 block
' "$trace" --l1-isize 16 --l1-ibsize 16 "${caches[@]:4}"
call 'a ring of no messages' 2 "$nothing" 'dinero_pipe: ring is not from 1 to 65536
' "$trace" "${caches[@]:0:16}" --ring 0
call 'a faulty line' 1 "$nothing" 'dinero_pipe: line 3: label
' "$work/faulty.din" "${caches[@]}"
call 'an input that can not be read' 4 "$nothing" 'dinero_pipe: trace read failed
' / "${caches[@]}"

fail_to_print "$no_write" "${caches[@]}"
: >"$work/err"
"$program" "${caches[@]}" --ring <"$trace" >"$work/out" 2>/dev/full
status=$?
judge 'a line that can not be printed' 2 "$nothing" ''

help_names ring skipcount maxcount flushcount
help_anywhere "$refused"

tell
