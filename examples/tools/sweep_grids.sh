# Tests how bin/sweep cuts grids into runs, options in step, grids that have grown, and packed
# traces. Read by tools.sh.
# shellcheck shell=bash disable=SC2016,SC2054,SC2154  # names that tools.sh and its other files set

# A simulator that notes its calls, in a copy of the commands that have it in place of theirs.
noting=$work/noting/lib/dinero_pipe
mkdir -p "$noting"
cp "$bin"/common.sh "$bin"/sweep* "$noting"
cp "$bin/installed_program.sh" "$noting/program.sh"
cat >"$noting/dinero_grid" <<'END'
#!/usr/bin/env bash
[ "$1" = --help ] || [ /dev/stdin -ef /dev/null ] || echo "$*" >>"$CALLS"
exec "$GRID" "$@"
END
chmod +x "$noting/dinero_grid"

# noted WORD..: a sweep, whose calls of the simulator are then in the file `calls`.
simulator=$top/crates/dinero_grid/out/dinero_grid
noted() {
    : >"$work/calls"
    run env CALLS="$work/calls" GRID="$simulator" "$noting/sweep" "$@"
}

# calls_of OPTION: its values in each call, sorted.
calls_of() {
    sed "s/.*$1 \([^ ]*\).*/\1/" "$work/calls" | LC_ALL=C sort | tr '\n' ' '
}

# A trace is read once where there are as many traces as runs at once, and else as often as there is
# something to do.
noted --jobs 1 "${grid[@]}" -- kinds.din fifo.din
check 'sweep with a simulator that notes its calls' is_table_of_rows
[ "$(calls_of --l1-dsize)" = '8,16 8,16 ' ] && [ "$(calls_of --l1-dassoc)" = '1,2 1,2 ' ]
verdict 'a run has all configurations of a trace' $?
noted --jobs 4 "${grid[@]}" -- kinds.din fifo.din
is_table_of_rows && [ "$(calls_of --l1-dsize)" = '16 16 8 8 ' ] &&
    [ "$(calls_of --l1-dassoc)" = '1,2 1,2 1,2 1,2 ' ]
verdict 'with more cores it is cut along the first option' $?
noted --jobs 3 "${grid[@]}" -- kinds.din fifo.din
is_table_of_rows && [ "$(calls_of --l1-dsize)" = '16 16 8 8 8 8 ' ]
verdict 'so that all cores have as many runs' $?
noted --jobs 9 "${grid[@]}" -- kinds.din fifo.din
is_table_of_rows && [ "$(calls_of --l1-dsize)" = '16 16 16 16 8 8 8 8 ' ] &&
    [ "$(calls_of --l1-dassoc)" = '1 1 1 1 2 2 2 2 ' ]
verdict 'and then along the next one' $?
odd=(--vary --l1-dsize 8,16,32)
noted --jobs 2 "${odd[@]}" --vary --l1-dassoc 1,2 "${rest[@]}" -- kinds.din
[ "$status" -eq 0 ] && [ "$(calls_of --l1-dsize)" = '8,16,32 8,16,32 ' ] &&
    [ "$(calls_of --l1-dassoc)" = '1 2 ' ]
verdict 'or along an option of the same cache whose values make equal parts' $?
noted --jobs 2 "${odd[@]}" --vary --flushcount 2,3 "${rest[@]}" -- kinds.din
[ "$status" -eq 0 ] && [ "$(calls_of --l1-dsize)" = '32 8,16 ' ] &&
    [ "$(calls_of --flushcount)" = '2,3 2,3 ' ]
verdict 'but not along one of another' $?
if has parallel; then
    echo 3/: >machines
    noted --hosts machines "${grid[@]}" -- kinds.din
    [ "$status" -eq 0 ] && shared "$out" | cmp -s - <(head -n 4 "$work/rows") &&
        [ "$(calls_of --l1-dsize)" = '16 8 8 ' ]
    verdict 'into as many parts as the machines of a list can run at once' $?
fi
# A machine of two cores, which nproc says where OpenMP is told nothing.
mkdir "$work/two"
printf '#!/bin/sh\n[ -z "$OMP_NUM_THREADS$OMP_THREAD_LIMIT" ] && echo 2 || echo 1\n' >"$work/two/nproc"
chmod +x "$work/two/nproc"
OMP_NUM_THREADS=1 OMP_THREAD_LIMIT=1 PATH=$work/two:$PATH noted "${grid[@]}" -- kinds.din
[ "$status" -eq 0 ] && [ "$(calls_of --l1-dsize)" = '16 8 ' ]
verdict 'by default into as many parts as there are cores, whatever OpenMP is told' $?
noted --jobs 1 --vary --skipcount 0,1 "${grid[@]}" -- kinds.din
[ "$status" -eq 0 ] && [ "$(calls_of --skipcount)" = '0 1 ' ] &&
    [ "$(calls_of --l1-dsize)" = '8,16 8,16 ' ] && [ "$(rows_of 2-4)" = \
    '0 8 1,0 8 2,0 16 1,0 16 2,1 8 1,1 8 2,1 16 1,1 16 2,' ]
verdict 'an option that takes no list cuts the grid' $?
power='l1-dcache: size is not a power of two'
noted --jobs 1 --vary --maxcount 0,3 "${grid[@]}" -- kinds.din
[ "$status" -eq 0 ] && [ "$(calls_of --maxcount)" = '0 3 ' ] && [ "$(rows_of 2-5)" = \
    '0 8 1 0,0 8 2 0,0 16 1 0,0 16 2 0,3 8 1 0,3 8 2 0,3 16 1 0,3 16 2 0,' ]
verdict 'and so does the other one' $?
run "$sweep" --vary --skipcount 0,1 --vary --l1-dsize 24,16 "${rest[@]}" -- kinds.din
first="line 2 of the table: $power"
[ "$status" -eq 1 ] &&
    [ "$(<"$err")" = "sweep: configurations with a fault: 2 of 4, the first in $first (column fault)" ] &&
    [ "$(rows_of 2,3,37)" = "0 24 $power,0 16 -,1 24 $power,1 16 -," ]
verdict 'and its first configuration may be refused' $?
# Each run has every second row of a trace, and waits with them for the other.
several_rows=(--vary --l1-dsize 8,16,32 --vary --l1-dassoc 1,2 --vary --skipcount 0,1)
noted --jobs 1 "${several_rows[@]}" "${rest[@]}" -- kinds.din fifo.din
[ "$status" -eq 0 ] && [ ! -s "$err" ] && lines_at_least "$out" 25 &&
    [ "$(calls_of --skipcount)" = '0 0 1 1 ' ]
verdict 'runs whose rows stand between those of others' $?

# 65 by 64 configurations are more than one call takes. Their values are written in many ways.
many=$(seq -s , -f 0000%05.0f 100 164)
others=$(seq -s , -f 000%05.0f 201 264)
noted --jobs 1 --vary --flushcount "$many" --vary --l1-dassoc "$others" --l1-dsize 8 \
    "${rest[@]}" -- kinds.din
[ "$status" -eq 1 ] && [ "$(wc -l <"$out")" -eq 4161 ] && [ "$(wc -l <"$work/calls")" -eq 2 ] &&
    [ "$(calls_of --l1-dassoc)" = "$others $others " ] &&
    [ "$(<"$err")" = "sweep: configurations with a fault: 4160 of 4160, the first in line 2 of the table: \
l1-dcache: associativity is not a power of two (column fault)" ]
verdict 'a grid that is too large for one call' $?

# fails_with COMMAND LINE: a simulator that ends so whenever it reads a trace. Its rows say so, and
# are not kept in the log, from which the next call goes on.
fails_with() {
    printf '#!/bin/sh\n[ "$1" = --help ] || [ /dev/stdin -ef /dev/null ] || %s\nexec "%s" "$@"\n' \
        "$1" "$top/crates/dinero_grid/out/dinero_grid" >"$work/failing"
    chmod +x "$work/failing"
    simulator=$work/failing
    rm -f failed.log
    noted --jobs 1 --resume failed.log "${grid[@]}" -- kinds.din fifo.din
    simulator=$top/crates/dinero_grid/out/dinero_grid
    [ "$status" -eq 1 ] && [ "$(rows_of 37 | tr -s ,)" = "$(printf "$2,%.0s" {1..8})" ] &&
        [ "$(<"$err")" = "sweep: kinds.din: $2
sweep: fifo.din: $2
sweep: configurations with a fault: 8 of 8, the first in line 2 of the table: \
$2 (column fault)" ] &&
        [ "$(wc -l <failed.log)" -eq 1 ] || return
    run "$sweep" --resume failed.log "${grid[@]}" -- kinds.din fifo.din
    is_table_of_rows
}
check 'a simulator that has no memory' \
    fails_with '{ echo "dinero_grid: no memory" >&2; exit 3; }' 'no memory'
check 'a simulator that says nothing' fails_with '{ exit 4; }' 'not simulated'
check 'a simulator whose lines stand in another order' fails_with \
    "{ '$simulator' \"\$@\" | { IFS= read -r names; echo \"\$names\"; tac; }; exit 0; }" 'not simulated'
simulator=$work/failing
noted --task 1/2 --into none "${grid[@]}" -- kinds.din
simulator=$top/crates/dinero_grid/out/dinero_grid
[ "$status" -eq 4 ] && [ "$(ls none)" = grid ] &&
    [ "$(<"$err")" = $'sweep: kinds.din: not simulated\nsweep: task 1 has not all of its rows' ]
verdict 'a task whose simulator says nothing' $?
rm -r none

# Options in step: the table is that of the rows of all combinations in which they are equal.
step=(--vary --l1-dsize 8,16,32 --vary --l1-dassoc 1,2 --l1-ibsize 4 --l1-dbsize 4 --l2-usize 32
    --l2-ubsize 8)
run "$sweep" --vary --l1-isize 8,16,32 "${step[@]}" -- kinds.din fifo.din
awk -F '\t' -v OFS='\t' \
    '$2 == $3 || NR == 1 { size = $2; $2 = $3; $3 = $4; $4 = size; print }' "$out" >"$work/diagonal"
noted --jobs 1 --with --l1-isize=--l1-dsize "${step[@]}" -- kinds.din fifo.din
[ "$status" -eq 0 ] && [ ! -s "$err" ] && lines_at_least "$out" 13 && cmp -s "$out" "$work/diagonal"
verdict 'options in step' $?
[ "$(calls_of --l1-isize)" = '16 16 32 32 8 8 ' ] &&
    [ "$(calls_of --l1-dassoc)" = '1,2 1,2 1,2 1,2 1,2 1,2 ' ]
verdict 'no configuration is simulated that is not asked for' $?
run "$sweep" --with l1-isize=l1-dsize "${step[@]}" -- kinds.din fifo.din
cmp -s "$out" "$work/diagonal"
verdict 'their names without hyphens' $?
run "$sweep" "${grid[@]::6}" --with l1-iassoc=l1-dassoc --with l1-isize=l1-dsize "${rest[@]:2}" \
    -- kinds.din
[ "$status" -eq 0 ] && [ "$(rows_of 2-5)" = '8 1 1 8,8 2 2 8,16 1 1 16,16 2 2 16,' ] &&
    [ "$(head -n 1 "$out" | cut -f 2-5)" = $'l1-dsize\tl1-dassoc\tl1-iassoc\tl1-isize' ]
verdict 'each in step with its own' $?
refused '--with: --l2-usize is not varied' --with --l1-isize=--l2-usize "${step[@]}" -- kinds.din
refused '--l1-dassoc is given twice' --with --l1-dassoc=--l1-dsize "${step[@]}" -- kinds.din
refused 'unknown option: --l1-csize' --with --l1-csize=--l1-dsize --l1-isize 8 "${step[@]}" \
    -- kinds.din
refused "--l1-irepl: not a lawful letter: '8' (from --l1-dsize)" --with --l1-irepl=--l1-dsize \
    --l1-isize 8 "${step[@]}" -- kinds.din
refused "--l2-uassoc: a count has no unit: '1k' (from --l1-dsize)" --with --l2-uassoc=--l1-dsize \
    --vary --l1-dsize 8,1k --l1-isize 8 "${step[@]:6}" -- kinds.din
refused "--flushcount: not a number: 'l' (from --l1-drepl)" --with flushcount=l1-drepl \
    --vary l1-drepl=l,f --l1-isize 8 "${step[@]}" -- kinds.din
refused "--l2-usize: not a number: 'a'" --vary l2-usize=1k,a --l1-isize 8 "${step[@]:0:10}" \
    --l2-ubsize 8 -- kinds.din
refused "--skipcount: a count has no unit: '1k'" --skipcount 1k --l1-isize 8 "${step[@]}" -- kinds.din

# A grid that has grown by values, by an option and by a trace, from a log that has the old one.
grown=(--vary --l1-dsize 8,16,32 --vary --l1-dassoc 1,2 --vary --l1-drepl l,f "${rest[@]}")
run "$sweep" "${grown[@]}" -- kinds.din fifo.din
cp "$out" whole
rm -f grown.log
run "$sweep" --resume grown.log "${grid[@]}" -- kinds.din
noted --jobs 1 --resume grown.log "${grown[@]}" -- kinds.din fifo.din
[ "$status" -eq 0 ] && cmp -s "$out" whole && [ "$(wc -l <grown.log)" -eq 25 ] &&
    [ -z "$(cut -f 1-21 grown.log | sort | uniq -d)" ]
verdict 'sweep goes on with a grid that has grown' $?
noted --resume grown.log "${grid[@]}" -- kinds.din fifo.din
is_table_of_rows && [ ! -s "$work/calls" ]
verdict 'and with a part of it' $?
noted --jobs 1 --resume grown.log --vary --l1-dsize 8,16,32,64 --l1-dassoc 2 "${rest[@]}" \
    -- kinds.din
[ "$status" -eq 0 ] && [ "$(calls_of --l1-dsize)" = '64 ' ] && lines_at_least "$out" 5
verdict 'only what is new is simulated' $?

# A log of every second one of 600 configurations.
rm -f half.log
run "$sweep" --resume half.log --vary --flushcount "$(seq -s , 1 2 599)" --l1-dsize 8 "${rest[@]}" \
    -- kinds.din
noted --jobs 1 --resume half.log --vary --flushcount "$(seq -s , 600)" --l1-dsize 8 "${rest[@]}" \
    -- kinds.din
[ "$status" -eq 0 ] && [ "$(calls_of --flushcount)" = "$(seq -s , 2 2 600) " ] &&
    [ "$(rows_of 2)" = "$(seq -s , 600)," ] && [ "$(wc -l <half.log)" -eq 601 ]
verdict 'nor is more of a large grid' $?

# By tasks: each part of the grid once, and the same table.
run "$sweep" "${grid[@]}" -- kinds.din fifo.din
cp "$out" whole
for tasks in 1 2 3 5 8; do
    : >"$work/all"
    for ((number = 1; number <= tasks; number++)); do
        noted --task $number/$tasks --into parts "${grid[@]}" -- kinds.din fifo.din
        if [ "$status" -ne 0 ] || [ -s "$out" ] || [ ! -s "$work/calls" ]; then break; fi
        name=$number-$tasks
        [ $tasks -lt 8 ] || name=$number
        cut -f 1-21 "parts/$name" >>"$work/all"
    done
    [ "$number" -gt $tasks ] && run "$sweep" --gather parts && [ "$status" -eq 0 ] &&
        cmp -s "$out" whole && [ "$(sort -u "$work/all" | wc -l)" -eq 8 ] &&
        [ "$(wc -l <"$work/all")" -eq 8 ]
    verdict "a grid in $tasks parts" $?
    rm -rf parts
done

# packed ENDING TOOL PACKAGE COMMAND..: a trace that the command has packed is read as it is.
packed() {
    if ! has "$2"; then
        skip "a trace that is packed as $1" "$2 ($3)"
        return
    fi
    "${@:4}" <long.din >"long.din.$1"
    run "$sweep" "${long[@]}" -- long.din
    sed "2,\$s/^long.din/long.din.$1/" "$out" >"$work/packed"
    run "$sweep" "${long[@]}" -- "long.din.$1"
    [ "$status" -eq 0 ] && [ ! -s "$err" ] && cmp -s "$out" "$work/packed"
    verdict "a trace that is packed as $1" $?
    head -c 100000 "long.din.$1" >"half.din.$1"
    run "$sweep" --vary --l1-dsize 1k,2k "${long[@]:3}" -- "half.din.$1"
    [ "$status" -eq 1 ] &&
        [[ $(rows_of 36) == "$2 ended with status "*",$2 ended with status "* ]] &&
        grep -qx "sweep: half.din.$1: $2 ended with status [0-9]*: [a-zA-Z].*" "$err"
    verdict 'half of it is refused' $?
    { cat faulty.din long.din long.din; } | "${@:4}" >"faulty.din.$1"
    run "$sweep" --vary --l1-dsize 1k,2k "${long[@]:3}" -- "faulty.din.$1"
    [ "$status" -eq 1 ] && [ "$(rows_of 36)" = 'line 2: label,line 2: label,' ]
    verdict 'and a faulty line in it is told' $?
    ends "a trace that is packed as $1, without $2" 69 \
        "sweep: $2 is missing: install the package $3" \
        env PATH="$(without "$2")" "$sweep" "${grid[@]}" -- kinds.din "long.din.$1"
    cp kinds.din "not.$1"
    ends "a trace whose name says $1" 4 "sweep: not.$1 is not packed, though its name says so" \
        "$sweep" "${grid[@]}" -- "not.$1"
    : >"not.$1"
    ends "an empty trace whose name says $1" 4 \
        "sweep: not.$1 is empty, though its name says that it is packed" \
        "$sweep" "${grid[@]}" -- "not.$1"
    cp "long.din.$1" no-ending
    ends "a trace for $2 without its ending" 4 \
        "sweep: no-ending is compressed: give it a name that ends in .$1, \
or pipe it through $2 into a file, and take that" \
        "$sweep" "${grid[@]}" -- no-ending
    rm "long.din.$1" "half.din.$1" "faulty.din.$1" "not.$1" no-ending
}
packed gz zcat gzip gzip -c
packed xz xzcat xz-utils xz -1 -c
packed zst zstdcat zstd zstd -q -c
if has bzip2; then
    bzip2 -c <kinds.din >-kinds
    ends 'sweep of a trace packed by bzip2' 4 \
        'sweep: -kinds is compressed: pipe it through bzcat into a file, and take that' \
        "$sweep" "${grid[@]}" -- kinds.din -kinds
    rm ./-kinds
fi

# A list of more values than the simulator takes at once is not tried one by one.
test_long_list() {
    local -x TRIALS=$work/trials
    local real=$simulator
    local simulator=$work/trying
    printf '#!/bin/sh\n%s\nexec "%s" "$@"\n' \
        '[ "$1" = --help ] || [ ! /dev/stdin -ef /dev/null ] || echo "$2" >>"$TRIALS"' "$real" \
        >"$simulator"
    chmod +x "$simulator"
    noted --full --vary --flushcount "$(seq -s , 4098)" --l1-dsize 8 "${rest[@]}" -- kinds.din
    [ "$status" -eq 0 ] && [ ! -s "$err" ] && [ "$(wc -l <"$TRIALS")" -eq 3 ] &&
        tail -n +2 "$out" | cut -f 20 | cmp -s - <(seq 4098)
    verdict 'sweep of a long list' $?
    refused "--flushcount: not a number: 'x'" --vary --flushcount "$(seq -s , 4097),x" \
        --l1-dsize 8 "${rest[@]}" -- kinds.din
}
test_long_list

# Each row beside a run of dinero_pipe.
run "$top/examples/tools/random_grids" 10
grep -v '^passed' "$out" >>"$err"
[ "$status" -eq 0 ] && [ "$(tail -n 1 "$out")" = '10 passed, 0 failed' ]
verdict 'ten random grids beside dinero_pipe' $?
