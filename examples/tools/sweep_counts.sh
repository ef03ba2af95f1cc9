# Tests that a log is refused whose counts do not agree with one another, or which has two rows of
# one configuration that differ, and a folder of rows with such counts. Read by tools.sh, behind
# sweep_restart.sh.
# shellcheck shell=bash disable=SC2054,SC2154  # names that tools.sh and its other files set

# The data cache of lesson 1 has 10 fetches and 9 misses: 5 compulsory, 2 capacity, 2 conflict.
counted=(--vary --l1-dsize 16 "${rest[@]}")

# with_counts WORD..: the sweep of that cache, with a log.
with_counts() {
    run "$sweep" --resume counts "$@" "${counted[@]}" -- kinds.din
}

# changed NAME=VALUE..: the file `counts` becomes `good`, with these values in its row.
changed() {
    awk -F '\t' -v OFS='\t' '
        BEGIN { for (i = 1; i < ARGC; i++) { split(ARGV[i], w, "="); to[w[1]] = w[2] } ARGC = 1 }
        NR == 1 { for (i = 1; i <= NF; i++) name[i] = $i }
        NR == 2 { for (i = 1; i <= NF; i++) if (name[i] in to) $i = to[name[i]] }
        { print }' "$@" <good >counts
}

# is_damaged NAME=VALUE..: with these values, the row is.
is_damaged() {
    changed "$@"
    ends "a log with ${*#l1-}" 2 'sweep: counts: line 2 is damaged; --restart forgets it' \
        "$sweep" --resume counts ${kept_full:+"$kept_full"} "${counted[@]}" -- kinds.din
    ! cmp -s counts good
    verdict 'which has changed' $?
}

# is_taken NAME=VALUE..: with these values, the row is taken.
is_taken() {
    changed "$@"
    with_counts
    [ "$status" -eq 0 ] && [ ! -s "$err" ] &&
        [ "$(tail -n +2 "$out" | cut -f 14-)" = "$(tail -n +2 counts | cut -f 33-)" ]
    verdict "a log with ${*#l1-}" $?
}

# Each of these numbers fits all others of its row but one.
test_counts() {
    local change
    kept_full=
    for change in fetches=9 fetches=11 misses=8 misses=10 misses=09 misses=9.0 \
        miss-rate=0.900001 miss-rate=0.899999 miss-rate=0.9 miss-rate=9 compulsory=6 capacity=1 \
        conflict=3 blocks-fetched=9.0; do
        is_damaged "l1-dcache-$change"
    done
    is_damaged l1-icache-miss-rate=1.000000
    is_damaged l1-icache-miss-rate=0
    is_damaged l1-dcache-fetches=8 l1-dcache-miss-rate=1.125000
    is_taken l1-dcache-fetches=13 l1-dcache-miss-rate=0.692307
    is_damaged l1-dcache-fetches=13 l1-dcache-miss-rate=0.692308
    is_taken l1-dcache-fetches=9 l1-dcache-miss-rate=1.000000
}

# The most accesses that a cache may have, which are 2^44, and one more; and a rate of which a
# thousandth of a millionth of the last digit is missing: 10426730338848 * 10^6 is one less than
# 592691 * 17592186044411.
test_large_counts() {
    local most=17592186044416 all=17592186044411 some=10426730338848 dcache=l1-dcache
    large=("$dcache-compulsory=0" "$dcache-capacity=0")
    is_taken "${large[@]}" $dcache-fetches=$most $dcache-misses=$most $dcache-conflict=$most \
        $dcache-miss-rate=1.000000
    is_damaged "${large[@]}" $dcache-fetches=17592186044417 $dcache-misses=17592186044417 \
        $dcache-conflict=17592186044417 $dcache-miss-rate=1.000000
    is_taken "${large[@]}" $dcache-fetches=$all $dcache-misses=$some $dcache-conflict=$some \
        $dcache-miss-rate=0.592690
    is_damaged "${large[@]}" $dcache-fetches=$all $dcache-misses=$some $dcache-conflict=$some \
        $dcache-miss-rate=0.592691
}

# In a full table, each count is the sum of its classes: all of these are reads.
test_full_counts() {
    local count
    kept_full=--full
    rm counts
    with_counts --full
    cp counts good
    for count in fetches misses compulsory capacity conflict fully-associative-misses; do
        is_damaged "l1-dcache-$count-write=1"
        is_damaged "l1-dcache-$count-read=0"
    done
    cp good counts
    with_counts --full
    [ "$status" -eq 0 ] && [ ! -s "$err" ] && cmp -s counts good
    verdict 'a log of full tables whose counts agree' $?
    kept_full=
}

# A row that stands there twice is one. Of two that differ, neither is taken.
test_differing() {
    local both='counts: lines 2 and 3 are of one configuration, and differ; --restart forgets both'
    local words=(--resume counts --vary --l1-dsize 8,16 "${rest[@]}" -- kinds.din)
    rm counts
    run "$sweep" "${words[@]}"
    cp "$out" whole && cp counts good
    { head -n 2 good; tail -n +2 good; } >counts
    cp counts twice
    run "$sweep" "${words[@]}"
    [ "$status" -eq 0 ] && [ ! -s "$err" ] && cmp -s "$out" whole && cmp -s counts twice
    verdict 'a log with a row that stands there twice' $?
    changed l1-dcache-blocks-fetched=7
    { head -n 2 good; tail -n +2 counts; } >mine
    cp mine counts
    ends 'a log with two rows that differ' 2 "sweep: $both" "$sweep" "${words[@]}"
    ends 'where they are of another grid' 2 "sweep: $both" "$sweep" --resume counts \
        --vary --l1-dsize 32 "${rest[@]}" -- kinds.din
    cmp -s counts mine
    verdict 'the log is as it was' $?
    run "$sweep" --restart "${words[@]}"
    [ "$status" -eq 0 ] && [ "$(<"$err")" = 'sweep: counts: rows kept: 1, forgotten: 2' ] &&
        cmp -s "$out" whole && cmp -s <(sort counts) <(sort good)
    verdict 'both are forgotten, and simulated again' $?
}

# is_not_gathered NAME=VALUE..: the last row of two tasks of two rows has these values.
is_not_gathered() {
    changed "$@"
    { head -n 1 kept_rows; tail -n 1 counts; } >gathered/2-2
    ends "rows with ${*#l1-}" 4 "sweep: $PWD/gathered/2-2: line 2 is damaged: \
its counts do not agree; make its task again" "$sweep" --gather gathered
}

# test_gathered WORD..: the rows of two tasks. The last one is of the cache of lesson 1.
test_gathered() {
    local number change task=("$@" --into gathered --vary l1-dsize=8,32,64,16 "${rest[@]}" -- kinds.din)
    for number in 1 2; do
        "$sweep" --task $number/2 "${task[@]}"
    done >"$out" 2>"$err"
    run "$sweep" --gather gathered
    [ "$status" -eq 0 ] && [ ! -s "$err" ]
    verdict "rows whose counts agree${1:+ $1}" $?
    cp "$out" whole && cp gathered/2-2 kept_rows && { head -n 1 good; tail -n 1 kept_rows; } >named
    mv named good
    for change in ${1:+fetches-write=1 misses-read=0} fetches=11 misses=10 miss-rate=0.899999 \
        compulsory=6; do
        is_not_gathered "l1-dcache-$change"
    done
    is_not_gathered l1-dcache-fetches=8 l1-dcache-miss-rate=1.125000
    cp kept_rows gathered/2-2
    changed l1-dcache-blocks-fetched=7
    tail -n 1 counts >gathered/1-1
    ends 'rows of two cuts that differ' 4 "sweep: $PWD/gathered/1-1: line 1 and \
$PWD/gathered/2-2: line 2 are of one configuration, and differ; make their tasks again" \
        "$sweep" --gather gathered
    rm gathered/1-1
    "$sweep" --task 2/2 "${task[@]}" >"$out" 2>"$err"
    run "$sweep" --gather gathered
    [ "$status" -eq 0 ] && [ ! -s "$err" ] && cmp -s "$out" whole
    verdict 'and once the task is made again' $?
    rm -r gathered kept_rows
}

test_all_counts() {
    rm -f counts
    with_counts
    cp counts good
    test_counts
    test_large_counts
    test_gathered
    test_full_counts
    test_gathered --full
    test_differing
    rm -f counts good mine twice
}
test_all_counts
if has original-awk; then
    mkdir "$work/other-awk"
    ln -s "$(command -v original-awk)" "$work/other-awk/awk"
    kept_path=$PATH PATH=$work/other-awk:$PATH
    test_all_counts
    PATH=$kept_path
else
    skip 'the counts of a log by another awk' original-awk
fi
