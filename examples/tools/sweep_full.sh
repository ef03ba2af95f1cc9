# Tests full tables of bin/sweep. Read by tools.sh.
# shellcheck shell=bash disable=SC2016,SC2054,SC2154  # names that tools.sh and its other files set

full_names() {
    local cache count of
    printf trace
    printf '\tl1-i%s' size bsize assoc repl
    printf '\tl1-d%s' size bsize assoc repl wback walloc
    printf '\tl2-u%s' size bsize assoc repl wback walloc
    printf '\t%scount' skip max flush
    for cache in l1-icache l1-dcache l2-ucache; do
        for count in fetches misses miss-rate compulsory capacity conflict \
            fully-associative-misses blocks-fetched written-back writes-sent-on flushes; do
            printf '\t%s' "$cache-$count"
            case $count in
            fetches | *misses | compulsory | capacity | conflict)
                for of in instr read write misc; do printf '\t%s' "$cache-$count-$of"; done
                ;;
            esac
        done
    done
    printf '\tfault\n'
}

# tabbed WORD..: a line of a table.
tabbed() {
    local IFS=$'\t'
    echo "$*"
}

# Five data references, each of which misses in two sets of one block. Two are of blocks that were
# seen before; a fully associative cache would hold the second of these. The second level holds all
# that it has seen. The data cache writes one block back to it.
printf '2 0\n0 0\n1 8\n3 10\n0 0\n3 10\n' >classes.din
run "$sweep" --full --vary --l1-dsize 8,24 "${rest[@]}" -- classes.din
hyphens=$(printf -- '- %.0s' {1..105})
{
    full_names
    # shellcheck disable=SC2086  # hyphens
    tabbed classes.din 16 4 1 l 8 4 1 l a a 32 8 2 l a a 0 0 0 \
        1 1 0 0 0 1 1 0 0 0 1.000000 1 1 0 0 0 0 0 0 0 0 0 0 0 0 0 1 1 0 0 0 1 0 0 0 \
        5 0 2 1 2 5 0 2 1 2 1.000000 3 0 1 1 1 1 0 1 0 0 1 0 0 0 1 4 0 2 1 1 5 1 0 0 \
        7 1 5 1 0 3 1 2 0 0 0.428571 3 1 2 0 0 0 0 0 0 0 0 0 0 0 0 3 1 2 0 0 3 0 0 0 -
    # shellcheck disable=SC2086
    tabbed classes.din 16 4 1 l 24 4 1 l a a 32 8 2 l a a 0 0 0 $hyphens \
        'l1-dcache: size is not a power of two'
} >"$work/wanted"
[ "$status" -eq 1 ] && cmp -s "$out" "$work/wanted"
verdict 'a full table, worked out by hand' $?

# Behind the trace, each line is one of dinero_grid.
{
    full_names
    for trace in kinds.din fifo.din; do
        "$bin/dinero_grid" --full --l1-dsize 8,16 --l1-dassoc 1,2 "${rest[@]}" <$trace |
            sed "1d; s/^/$trace\t/"
    done
} >full.tsv
is_full() {
    [ "$status" -eq 0 ] && [ ! -s "$err" ] && cmp -s "$out" full.tsv
}
for jobs in 1 3 9; do
    noted --jobs $jobs --full "${grid[@]}" -- kinds.din fifo.din
    is_full && ! grep -qv -e --full "$work/calls"
    verdict "a full table of two traces, by $jobs runs at once" $?
done
run "$sweep" "${grid[@]}" --full -- kinds.din fifo.din
check '--full behind the options' is_full
cut -f 1,6,8 full.tsv | sed 1d | paste - <(cut -f 21- full.tsv | sed 1d) >"$work/varied"
{ full_names | cut -f 1,6,8,21-; cat "$work/varied"; } |
    awk -F '\t' -v OFS='\t' '
        NR == 1 { for (i = 1; i <= NF; i++) if ($i !~ /-(instr|read|write|misc)$/) column[++n] = i }
        { for (i = 1; i <= n; i++) printf "%s%s", $column[i], i < n ? OFS : ORS }' >"$work/totals"
run "$sweep" "${grid[@]}" -- kinds.din fifo.din
[ "$status" -eq 0 ] && cmp -s "$out" "$work/totals"
verdict 'its totals are those of the other table' $?

# Sizes in bytes and counts without zeros in front, whatever they were given as.
run "$sweep" --full --vary --l1-dsize 1K,0008,512 --vary --flushcount 007,0 \
    --with --l1-isize=--l1-dsize --l1-ibsize 4 --l1-dbsize 04 --l2-usize 1m --l2-ubsize 8 \
    -- kinds.din classes.din
[ "$status" -eq 0 ] && [ "$(rows_of 1,2,6,7,12,20 | tr , '\n' | head -n 6)" = 'kinds.din 1024 1024 4 1048576 7
kinds.din 1024 1024 4 1048576 0
kinds.din 8 8 4 1048576 7
kinds.din 8 8 4 1048576 0
kinds.din 512 512 4 1048576 7
kinds.din 512 512 4 1048576 0' ] && lines_at_least "$out" 13
verdict 'options in step in a full table' $?

test_full_log() {
    rm -f full.log plain.log
    run "$sweep" --full --resume full.log "${grid[@]}" -- kinds.din
    [ "$status" -eq 0 ] && cmp -s "$out" <(head -n 5 full.tsv) && [ "$(wc -l <full.log)" -eq 5 ]
    verdict 'a full table with a log' $?
    noted --jobs 1 --full --resume full.log "${grid[@]}" -- kinds.din fifo.din
    is_full && [ "$(wc -l <full.log)" -eq 9 ] && [ "$(wc -l <"$work/calls")" -eq 1 ]
    verdict 'goes on with a grid that has grown' $?
    head -c -50 full.log >cut.log && mv cut.log full.log
    noted --full --resume full.log "${grid[@]}" -- kinds.din fifo.din
    is_full && [ "$(wc -l <full.log)" -eq 9 ] && [ "$(wc -l <"$work/calls")" -eq 1 ]
    verdict 'and from half of a line' $?
    cp full.log before
    ends 'a full log without --full' 2 \
        'sweep: full.log was begun with --full; --restart begins anew' \
        "$sweep" --resume full.log "${grid[@]}" -- kinds.din
    cmp -s full.log before
    verdict 'it is left as it was' $?
    run "$sweep" --resume plain.log "${grid[@]}" -- kinds.din fifo.din
    cp plain.log before
    ends 'a log that is not full with --full' 2 \
        'sweep: plain.log was begun without --full; --restart begins anew' \
        "$sweep" --full --resume plain.log "${grid[@]}" -- kinds.din fifo.din
    cmp -s plain.log before
    verdict 'it, too, is left as it was' $?
    run "$sweep" --full --resume plain.log --restart "${grid[@]}" -- kinds.din fifo.din
    [ "$status" -eq 0 ] && [ "$(<"$err")" = \
        'sweep: plain.log: rows kept: 0, forgotten: 8' ] && cmp -s "$out" full.tsv &&
        [ "$(wc -l <plain.log)" -eq 9 ]
    verdict 'and is begun anew with --restart' $?
    sed '1s/l1-dsize/l1-csize/' full.log >plain.log
    ends 'a full log of another simulator' 2 \
        'sweep: plain.log is of another simulator; --restart begins anew' \
        "$sweep" --full --resume plain.log "${grid[@]}" -- kinds.din fifo.din
}

test_full_tasks() {
    local number
    for number in 2 3 1; do
        "$sweep" --full --task $number/3 --into parts "${grid[@]}" -- kinds.din fifo.din ||
            echo "task $number failed"
    done >"$out" 2>"$err"
    [ ! -s "$out" ] && [ ! -s "$err" ] && run "$sweep" --gather parts && is_full
    verdict 'a full table by tasks' $?
    ends 'a task that is not full among those that are' 2 \
        'sweep: parts was begun with --full' \
        "$sweep" --task 1/3 --into parts "${grid[@]}" -- kinds.din fifo.din
    refused '--gather takes no other words' --full --gather parts
    rm parts/1-3
    run "$sweep" --gather parts
    [ "$status" -eq 1 ] && whole_lines "$out" 126 &&
        cmp -s <(cut -f -20 "$out") <(cut -f -20 full.tsv) && [ "$(rows_of 56,125,126)" = \
            '- - not simulated,- - not simulated,- - not simulated,- - not simulated,8 0 -,8 0 -,8 0 -,8 0 -,' ]
    verdict 'gathering a full table where a report is missing' $?
    rm -r parts
}

test_full_log
test_full_tasks
gzip -c fifo.din >packed.din.gz
run "$sweep" --full "${grid[@]}" -- kinds.din packed.din.gz
[ "$status" -eq 0 ] && [ ! -s "$err" ] &&
    cmp -s "$out" <(sed 's/^fifo.din/packed.din.gz/' full.tsv)
verdict 'a full table of a trace that is packed' $?
if has parallel; then
    echo 3/: >machines
    run "$sweep" --full --hosts machines "${grid[@]}" -- kinds.din fifo.din
    check "a full table over parallel's own host" is_full
    run env PATH="$work/without-parallel" "$sweep" --full "${grid[@]}" -- kinds.din fifo.din
    check 'a full table without parallel' is_full
fi
refused '--full takes no value' --full=yes "${grid[@]}" -- kinds.din
