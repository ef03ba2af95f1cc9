#!/usr/bin/env bash
# Runs the simulator of many configurations as a user does, and compares what each call prints on
# both streams and its exit status with what it has to. The first argument is the program; without
# one the launcher is taken.
set -u
top=$(CDPATH='' cd -P -- "$(dirname -- "$0")/.." && pwd)
program=${1:-$top/bin/dinero_grid}
. "$(dirname "$0")/calls.sh"
need_program "$program"

# The caches but for the size of the data cache.
caches=(--l1-isize 16 --l1-ibsize 4 --l1-dbsize 4 --l2-usize 32 --l2-ubsize 8 --l2-uassoc 2)

# heads OPTION..: the first line of a table over these options.
heads() {
    local cache name
    printf '%s\t' "$@"
    for cache in l1-icache l1-dcache l2-ucache; do
        for name in fetches misses miss-rate compulsory capacity conflict \
            fully-associative-misses blocks-fetched written-back writes-sent-on flushes; do
            printf '%s\t' "$cache-$name"
        done
    done
    echo fault
}

# columns COUNT..: with a tab after each.
columns() {
    printf '%s\t' "$@"
}

# Two blocks of one set of the small data cache, the first of them twice; the large one has a set
# for each. Then a fetch of the first block.
printf '0 0\n0 8\n0 0\n2 0\n' >"$work/conflict.din"
fetch=(1 1 1.000000 1 0 0 1 1 0 0 0)
small() {
    columns "$@" "${fetch[@]}" 3 3 1.000000 2 0 1 2 3 0 0 0 4 2 0.500000 2 0 0 2 2 0 0 0
    echo -
}
large() {
    columns "$@" "${fetch[@]}" 3 2 0.666666 2 0 0 2 2 0 0 0 3 2 0.666666 2 0 0 2 2 0 0 0
    echo -
}

# full_heads: the first line of a full table.
full_heads() {
    local cache name
    printf '%s\t' l1-{isize,ibsize,iassoc,irepl,dsize,dbsize,dassoc,drepl,dwback,dwalloc} \
        l2-u{size,bsize,assoc,repl,wback,walloc} skipcount maxcount flushcount
    for cache in l1-icache l1-dcache l2-ucache; do
        for name in fetches misses miss-rate compulsory capacity conflict \
            fully-associative-misses blocks-fetched written-back writes-sent-on flushes; do
            printf '%s\t' "$cache-$name"
            case $name in
                *s-fetched | *-rate | *-back | *-on | flushes) ;;
                *) printf '%s\t' "$cache-$name"-{instr,read,write,misc} ;;
            esac
        done
    done
    echo fault
}

# refused FAULT WORD..
refused() {
    columns "${@:2}"
    printf -- '-\t%.0s' {1..33}
    echo "$1"
}

{ heads l1-dsize; small 8; large 16; } >"$work/sizes"
not_a_power='l1-dcache: size is not a power of two'
{ heads l1-dsize; small 8; refused "$not_a_power" 3; large 16; } >"$work/some"
# In two ways the small cache has one set, and no conflict is left; the large one has two.
{ heads l1-dsize l1-dassoc; small 8 1; large 8 2; large 16 1; large 16 2; } >"$work/ways"
# The same counts by class. A miss of the data cache is a read of the second level. One of them has
# loaded the block that is fetched, so the fetch hits there.
full_small() {
    columns 1024 4 2 l 8 4 1 l a n 32 8 2 f a a 0 0 7
    columns 1 1 0 0 0 1 1 0 0 0 1.000000 1 1 0 0 0 0 0 0 0 0 0 0 0 0 0 1 1 0 0 0 1 0 0 0
    columns 3 0 3 0 0 3 0 3 0 0 1.000000 2 0 2 0 0 0 0 0 0 0 1 0 1 0 0 2 0 2 0 0 3 0 0 0
    columns 4 1 3 0 0 2 0 2 0 0 0.500000 2 0 2 0 0 0 0 0 0 0 0 0 0 0 0 2 0 2 0 0 2 0 0 0
    echo -
}
full_refused() {
    columns 1024 4 2 l 3 4 1 l a n 32 8 2 f a a 0 0 7
    printf -- '-\t%.0s' {1..105}
    echo "$not_a_power"
}
{ full_heads; full_small; full_refused; } >"$work/full"
large >"$work/line" && { heads | sed 's/^\t//'; sed 's/^\t//' "$work/line"; } >"$work/one"
: >"$work/nothing"
printf '0 0\n\n5 0\n' >"$work/faulty.din"

nothing=$work/nothing
trace=$work/conflict.din
"$program" --help >/dev/null 2>&1

call 'two sizes' 0 "$work/sizes" '' "$trace" "${caches[@]}" --l1-dsize 8,16
call 'one configuration' 0 "$work/one" '' "$trace" "${caches[@]}" --l1-dsize 16
call 'sizes by ways' 0 "$work/ways" '' "$trace" "${caches[@]}" --l1-dsize 8,16 --l1-dassoc 1,2
call 'two sizes in three threads' 0 "$work/sizes" '' "$trace" "${caches[@]}" --l1-dsize 8,16 \
    --threads 3
call 'two sizes in threads without a number' 0 "$work/sizes" '' "$trace" "${caches[@]}" \
    --l1-dsize 8,16 --threads=0

# Of a trace of three batches of records, each line counts all.
{ yes '0 0' | head -n 160000; echo '0 8'; } >"$work/long.din"
{
    heads l1-dsize
    for size in 8 16; do
        columns $size 0 0 0.000000 0 0 0 0 0 0 0 0 160001 2 0.000012 2 0 0 2 2 0 0 0
        columns 2 2 1.000000 2 0 0 2 2 0 0 0
        echo -
    done
} >"$work/long"
for threads in 1 2 4; do
    call "a long trace in $threads threads" 0 "$work/long" '' "$work/long.din" "${caches[@]}" \
        --l1-dsize 8,16 --threads $threads
done

# The same for one configuration, whose second level works beside the first; and for second levels
# of three block sizes behind one first level, of which the largest has both blocks in one.
long_data=(0 0 0.000000 0 0 0 0 0 0 0 0 160001 2 0.000012 2 0 0 2 2 0 0 0)
{
    heads | sed 's/^\t//'
    columns "${long_data[@]}" 2 2 1.000000 2 0 0 2 2 0 0 0
    echo -
} >"$work/long"
{
    heads l2-ubsize
    for size in 4 8; do
        columns $size "${long_data[@]}" 2 2 1.000000 2 0 0 2 2 0 0 0
        echo -
    done
    columns 16 "${long_data[@]}" 2 1 0.500000 1 0 0 1 1 0 0 0
    echo -
} >"$work/behind"
first_level=(--l1-isize 16 --l1-ibsize 4 --l1-dsize 16 --l1-dbsize 4 --l2-uassoc 2)
for threads in 1 2 3 4; do
    call "one configuration in $threads threads" 0 "$work/long" '' "$work/long.din" \
        "${caches[@]}" --l1-dsize 16 --threads $threads
    call "second levels in $threads threads" 0 "$work/behind" '' "$work/long.din" \
        "${first_level[@]}" --l2-usize 32 --l2-ubsize 4,8,16 --threads $threads
done

call 'a refused size among others' 5 "$work/some" '' "$trace" "${caches[@]}" --l1-dsize 8,3,16
refused='dinero_grid: command line refused, try --help
'
call 'a required option is missing' 2 "$nothing" \
    "dinero_grid: the following required arguments were not provided: --l1-dsize <SIZE>
$refused" "$trace" "${caches[@]}"
call 'an option of the other program' 2 "$nothing" \
    "dinero_grid: unexpected argument '--ring' found
$refused" "$trace" "${caches[@]}" --l1-dsize 8 --ring 64
call 'an empty value' 2 "$nothing" 'dinero_grid: --l1-dsize: not a number
' "$trace" "${caches[@]}" --l1-dsize 8,,16
call 'a list where there is none' 2 "$nothing" 'dinero_grid: --maxcount: not a number
' "$trace" "${caches[@]}" --l1-dsize 8 --maxcount 1,2
leave_trace 'dinero_grid: --maxcount: not a number
' "${caches[@]}" --l1-dsize 8 --maxcount 1,2
call 'a bad letter in a list' 2 "$nothing" 'dinero_grid: --l1-drepl: not a lawful letter
' "$trace" "${caches[@]}" --l1-dsize 8 --l1-drepl l,x
full=(--l1-isize 1k --l1-ibsize 4 --l1-iassoc 02 --l1-dbsize 4 --l1-dwalloc n --l2-usize 32
    --l2-ubsize 8 --l2-uassoc 2 --l2-urepl f --flushcount 007)
call 'a full table' 5 "$work/full" '' "$trace" "${full[@]}" --full --l1-dsize 8,3
call 'a flag with a value' 2 "$nothing" \
    "dinero_grid: unexpected value 'yes' for '--full' found; no more were expected
$refused" "$trace" "${full[@]}" --full=yes --l1-dsize 8
call 'too many threads' 2 "$nothing" 'dinero_grid: --threads: not a number from 0 to 1024
' "$trace" "${caches[@]}" --l1-dsize 8,16 --threads 1025
call 'a list of threads' 2 "$nothing" 'dinero_grid: --threads: not a number from 0 to 1024
' "$trace" "${caches[@]}" --l1-dsize 8,16 --threads 1,2
call 'a bad size and bad threads' 2 "$nothing" 'dinero_grid: --l1-dsize: not a number
' "$trace" "${caches[@]}" --l1-dsize 8,x --threads x
call 'threads given twice' 2 "$nothing" \
    "dinero_grid: the argument '--threads <COUNT>' cannot be used multiple times
$refused" "$trace" "${caches[@]}" --l1-dsize 8,16 --threads 1 --threads 2
sizes=$(printf '8,%.0s' {1..64})8
call '65 sizes by 64 ways' 2 "$nothing" 'dinero_grid: grid has more than 4096 configurations
' "$trace" "${caches[@]}" --l1-dsize "$sizes" --l1-dassoc "${sizes%,8}"
call 'a faulty line' 1 "$nothing" 'dinero_grid: line 3: label
' "$work/faulty.din" "${caches[@]}" --l1-dsize 8,16
call 'an input that can not be read' 4 "$nothing" 'dinero_grid: trace read failed
' / "${caches[@]}" --l1-dsize 8,16

for lesson in "$top"/examples/*/*.tsv; do
    lesson=${lesson%.tsv}
    mapfile -t words <"$lesson.words"
    call "the table of a lesson, ${lesson#"$top"/examples/}" 0 "$lesson.tsv" '' "$lesson.din" \
        "${words[@]}"
done

# has_rows NAME LINES REFUSED: the table has so many lines, and so many rows that were refused.
has_rows() {
    local refused
    refused=$(tail -n +2 "$work/long" | grep -cv $'\t-$')
    if [ "$(wc -l <"$work/long")" -eq "$2" ] && [ "$refused" -eq "$3" ]; then
        pass "the rows of $1"
    else
        fail "the rows of $1"
    fi
}

# A trace of three batches: the table is the same on any number of threads.
awk 'BEGIN {
    for (i = 0; i < 200000; i++) {
        n = (n * 1103515245 + 12345) % 2147483648
        print int(n / 65536) % 4, int(n / 262144) % 97
    }
}' >"$work/long.din"
several=("${caches[@]}" --l1-dsize 4,8,16,32 --l1-dassoc 1,2 --flushcount 0,1000)
"$program" "${several[@]}" --threads 1 <"$work/long.din" >"$work/long"
has_rows 'two blocks of one way, twice refused' 17 2
call 'a faulty line behind two batches' 1 "$nothing" 'dinero_grid: line 200001: label
' <(cat "$work/long.din" && echo 5 0) "${several[@]}"
for threads in {0..8}; do
    call "a table on $threads threads" 5 "$work/long" '' "$work/long.din" "${several[@]}" \
        --threads "$threads"
done
behind=("${first_level[@]}" --l2-usize 64,128 --l2-ubsize 4,8,16,32 --flushcount 1000)
"$program" "${behind[@]}" --threads 1 <"$work/long.din" >"$work/long"
has_rows 'second levels' 9 0
for threads in {0..8}; do
    call "second levels on $threads threads" 0 "$work/long" '' "$work/long.din" "${behind[@]}" \
        --threads "$threads"
done

# starts THREADS [COMMAND..]: prints how many threads the program starts, called by a command, where
# it may work on so many.
starts() {
    "${@:2}" strace -f -e trace=clone,clone3 -o "$work/calls" \
        "$program" "${several[@]}" --threads "$1" <"$work/long.din" >"$work/out" 2>"$work/err"
    if cmp -s "$work/out" "$work/several"; then
        grep -c CLONE_THREAD "$work/calls"
    else
        echo 'another table'
    fi
}
if strace true 2>/dev/null; then
    "$program" "${several[@]}" <"$work/long.din" >"$work/several"
    if [ "$(starts 1)" = 0 ] && [[ $(starts 2) =~ ^[1-9] ]]; then
        pass 'one thread starts no other'
    else
        fail 'one thread starts no other'
    fi
    # Of the cores that this script may use, one.
    core=$(taskset -cp $$ | sed 's/.*: *//; s/[-,].*//')
    if [ "$(starts 0 taskset -c "$core")" = 0 ]; then
        pass 'one core has one thread'
    else
        fail 'one core has one thread'
    fi
    if [ "$(nproc)" = 1 ] || [[ $(starts 0) =~ ^[1-9] ]]; then
        pass 'several cores have several threads'
    else
        fail 'several cores have several threads'
    fi
else
    skip 'how many threads are started' 'strace'
fi

fail_to_print 'dinero_grid: table write failed
' "${caches[@]}" --l1-dsize 8,16
help_names skipcount maxcount flushcount threads
help_anywhere "dinero_grid: unexpected argument '--l3-usize' found
$refused"
"$program" --help >"$work/help"
if grep -q -e ' --full ' "$work/help"; then pass 'help on full'; else fail 'help on full'; fi
statuses='Exit status: 0 table or help written, 1 faulty trace, 2 command line refused, 3 no memory,
4 trace not read or table not written, 5 table written, but some configuration refused.'
if [ "$(tail -n 2 "$work/help")" = "$statuses" ]; then
    pass 'help on statuses'
else
    fail 'help on statuses'
fi

tell
