# Tests a grid in tasks, and --gather. Read by tools.sh, behind sweep.sh.
# shellcheck shell=bash disable=SC2016,SC2054,SC2154  # names that tools.sh and its other files set

for number in 4 1 3 2; do
    "$sweep" --task $number --into tasks "${grid[@]}" -- kinds.din || echo "task $number failed"
done >"$out" 2>"$err"
[ ! -s "$out" ] && [ ! -s "$err" ] && run "$sweep" --gather tasks && [ "$status" -eq 0 ] &&
    shared "$out" | cmp -s - <(head -n 4 "$work/rows")
verdict 'sweep by tasks, and --gather' $?
rm tasks/3
run "$sweep" --gather tasks
[ "$status" -eq 1 ] && [ "$(rows_of 37)" = '-,-,not simulated,-,' ] && [ "$(<"$err")" = \
    "sweep: of the tasks 1-4, these have not left all of their rows: 3
sweep: configurations with a fault: 1 of 4, the first in line 4 of the table: \
not simulated (column fault)" ]
verdict 'gathering where a report is missing' $?
mkdir empty
cp tasks/grid empty
run "$sweep" --gather empty
[ "$status" -eq 1 ] && [ "$(rows_of 37)" = "$(printf 'not simulated,%.0s' 1 2 3 4)" ] &&
    [ "$(<"$err")" = 'sweep: configurations with a fault: 4 of 4, the first in line 2 of the table: '\
'not simulated (column fault)' ]
verdict 'gathering where no task has left rows' $?
rm -r empty
ends 'a task that the grid has not' 2 'sweep: --task: the grid has 4 configurations, and no 5; try --help' \
    "$sweep" --task 5 --into tasks "${grid[@]}" -- kinds.din
# of_another_grid NAME THERE HERE WORD..: a task of 4, whose folder is of another one.
of_another_grid() {
    ends "$1" 2 "sweep: tasks is of another grid: it has $2, and this call has $3; try --help" \
        "$sweep" --task 1/4 --into tasks "${@:4}"
}
of_another_grid 'a task of another trace' 'the trace kinds.din' 'the trace fifo.din' \
    "${grid[@]}" -- fifo.din
of_another_grid 'of one trace more' nothing 'the trace fifo.din' "${grid[@]}" -- kinds.din fifo.din
of_another_grid 'of another value' '--l2-uassoc 2' '--l2-uassoc 4' "${grid[@]::17}" 4 -- kinds.din
of_another_grid 'of other sizes' '--vary --l1-dsize 8,16' '--vary --l1-dsize 8,32' \
    --vary --l1-dsize 8,32 "${grid[@]:3}" -- kinds.din
of_another_grid 'of fewer options that are varied' 'several values of --l1-dassoc' '--l1-dassoc 1' \
    --vary --l1-dsize 8,16,32,64 --l1-dassoc 1 "${rest[@]}" -- kinds.din
of_another_grid 'of options in step' '--l1-isize 16' 'several values of --l1-isize' \
    --with l1-isize=l1-dsize "${grid[@]::6}" "${rest[@]:2}" -- kinds.din
ends 'of a full table' 2 'sweep: tasks was begun without --full' \
    "$sweep" --full --task 1/4 --into tasks "${grid[@]}" -- kinds.din
"$sweep" --task 1 --into faulty --vary --l1-dsize 8 "${rest[@]}" -- faulty.din >"$out" 2>"$err"
status=$?
[ "$status" -eq 1 ] && [ ! -s "$out" ] && [ "$(<"$err")" = 'sweep: faulty.din: line 2: label
sweep: configurations of task 1 with a fault: 1 of 1, the first: line 2: label' ]
verdict 'a task of a faulty trace' $?
ends 'a task with refused configurations' 1 "sweep: configurations of task 1 with a fault: 2 of 3, \
the first: l1-dcache: size is not a power of two" \
    "$sweep" --task 1/2 --into odd --vary --l1-dsize 8,24,40,16,32,64 "${rest[@]}" -- kinds.din
ends 'and one without' 0 '' \
    "$sweep" --task 2/2 --into odd --vary --l1-dsize 8,24,40,16,32,64 "${rest[@]}" -- kinds.din
run "$sweep" --gather odd
first='line 3 of the table: l1-dcache: size is not a power of two'
[ "$status" -eq 1 ] && [ "$(rows_of 2,36)" = "8 -,24 ${first#*: },40 ${first#*: },16 -,32 -,64 -," ] &&
    [ "$(<"$err")" = "sweep: configurations with a fault: 2 of 6, the first in $first (column fault)" ]
verdict 'their rows are kept' $?
rm -r odd
cp kinds.din changing.din
"$sweep" --task 1 --into changing "${grid[@]}" -- changing.din >"$out" 2>"$err"
touch changing.din
"$sweep" --task 2 --into changing "${grid[@]}" -- changing.din >>"$out" 2>>"$err"
[ ! -s "$out" ] && [ ! -s "$err" ] && [ "$(ls changing)" = $'1\n2\ngrid' ]
verdict 'tasks of a trace that was touched' $?
printf '2 0\n' >changing.din
ends 'a task of a trace that has changed' 2 \
    'sweep: changing.din has changed since changing was begun, or is another file' \
    "$sweep" --task 3 --into changing "${grid[@]}" -- changing.din
cp changing/grid changing/part && head -n 3 changing/part >changing/grid
ends 'gathering by half of a grid' 4 "sweep: $PWD/changing/grid is damaged" "$sweep" --gather changing
sed -i '1s/fault$/flaw/' changing/part && mv changing/part changing/grid
ends 'a task of another simulator' 2 'sweep: changing is of another simulator' \
    "$sweep" --task 3 --into changing "${grid[@]}" -- changing.din
rm -r tasks faulty changing changing.din
mkdir own && : >own/1-2
refused '--into: own/1-2, for the rows, is a trace of this call' \
    --task 1/2 --into own "${grid[@]}" -- own/1-2
[ "$(ls own)" = 1-2 ] && [ ! -s own/1-2 ]
verdict 'it is left as it was' $?
rm -r own

# A grid of 6 sizes and 2 numbers of ways, which is cut into 6 tasks by its sizes.
test_missing() {
    local number six=(--vary --l1-dsize 8,16,32,64,128,256 --vary --l1-dassoc 1,2 "${rest[@]}")
    local tell='sweep: of the tasks 1-6, these have not left all of their rows:'
    for number in 1 2 4; do
        "$sweep" --task $number/6 --into six "${six[@]}" -- kinds.din
    done >"$out" 2>"$err"
    run "$sweep" --gather six
    [ "$status" -eq 1 ] && [ "$(<"$err")" = "$tell 3,5-6
sweep: configurations with a fault: 6 of 12, the first in line 6 of the table: \
not simulated (column fault)" ]
    verdict 'the tasks that are missing, as sbatch takes them' $?
    head -n 1 six/1-6 >"$work/cut" && cp "$work/cut" six/1-6
    run "$sweep" --gather six
    [ "$status" -eq 1 ] && [ "$(head -n 1 "$err")" = "$tell 1,3,5-6" ]
    verdict 'and one that has left a part of its rows' $?
    for number in 1 3 5 6; do
        "$sweep" --task $number/6 --into six "${six[@]}" -- kinds.din
    done >"$out" 2>"$err"
    run "$sweep" --gather six
    [ "$status" -eq 0 ] && [ ! -s "$err" ]
    verdict 'once these are made, no row is missing' $?
    # The second task of six has the second size, which is configurations 3 and 4.
    rm six/2-6 && cp six/1-6 six/1-3
    run "$sweep" --gather six
    [ "$status" -eq 1 ] && [ "$(<"$err")" = 'sweep: tasks of several cuts have left rows in six; '\
"of the configurations 1-12, these have none: 3-4
sweep: configurations with a fault: 2 of 12, the first in line 4 of the table: \
not simulated (column fault)" ]
    verdict 'the configurations that are missing from tasks of several cuts' $?
    for number in 3 4; do
        "$sweep" --task $number --into six "${six[@]}" -- kinds.din
    done >"$out" 2>"$err"
    run "$sweep" --gather six
    [ "$status" -eq 0 ] && [ ! -s "$err" ]
    verdict 'and no line tells of several cuts once these are made' $?
    rm -r six
}

# again_with UNPACKER: the task of two traces once more, of which this unpacks the second.
# Sets `earlier` to the rows that it had left.
again_with() {
    earlier=$(<again/1-1)
    mkdir -p "$work/unpacking"
    printf '#!/bin/sh\n%s\n' "$1" >"$work/unpacking/zcat"
    chmod +x "$work/unpacking/zcat"
    again=("$sweep" --task 1/1 --into again "${grid[@]}" -- kinds.din fifo.din.gz)
}

# has_rows ROWS..: the task has these and no others, each once.
has_rows() {
    cmp -s <(sort again/1-1) <(printf '%s\n' "$@" | sort)
}

# A task that is made again, as Slurm does where a node was lost, may be cut off or fail.
test_again() {
    local earlier again head
    gzip -k fifo.din
    run "$sweep" --task 1/1 --into again "${grid[@]}" -- kinds.din fifo.din.gz
    again_with ': >"$MARK"; exec sleep 60'
    signalled TERM "$work/unpacking" "${again[@]}" && [ "$status" -eq 143 ] &&
        lines_at_least again/1-1 8 && has_rows "$earlier"
    verdict 'a task that is made again and interrupted keeps its rows' $?
    again_with 'exit 1'
    run env PATH="$work/unpacking:$PATH" "${again[@]}"
    [ "$status" -eq 4 ] && [ "$(tail -n 1 "$err")" = 'sweep: task 1 has not all of its rows' ] &&
        has_rows "$earlier"
    verdict 'and where it fails' $?
    head=$(head -n 4 again/1-1)
    head -c -9 again/1-1 >"$work/cut" && cp "$work/cut" again/1-1
    run env PATH="$work/unpacking:$PATH" "${again[@]}"
    [ "$status" -eq 4 ] && has_rows "$(head -n 7 <<<"$earlier")"
    verdict 'half of a row is none of them' $?
    echo 'of no grid' >>again/1-1
    run "${again[@]}"
    [ "$status" -eq 0 ] && [ ! -s "$err" ] && has_rows "$earlier" &&
        [ "$(head -n 4 again/1-1)" = "$head" ]
    verdict 'a task that is made again as a whole has its new rows alone' $?
    rm -r again fifo.din.gz "$work/unpacking"
}
test_missing
test_again
