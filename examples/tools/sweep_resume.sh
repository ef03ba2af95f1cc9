# Tests that a log knows its traces, and that it goes on from wherever it was left. Read by
# tools.sh.
# shellcheck shell=bash disable=SC2154  # names that tools.sh and its other files set

# with_log WORD..: the grid of one trace, with a log.
with_log() {
    run "$sweep" --resume known "$@" "${grid[@]}" -- known.din
}

# A trace of the same size, whose first access differs; and what the sweep says of it without a log.
replace_trace() {
    sed '1s/.$/f/' kinds.din >other.din
    run "$sweep" "${grid[@]}" -- other.din
    sed 's/^other/known/' "$out" >whole
    [ "$(wc -c <other.din)" -eq "$(wc -c <kinds.din)" ] && ! cmp -s other.din kinds.din
}

# is_refused NAME LINE: with status 2, and the log is as it was.
is_refused() {
    cp known "$work/before"
    with_log
    [ "$status" -eq 2 ] && [ ! -s "$out" ] && [ "$(<"$err")" = "sweep: $2" ] &&
        cmp -s known "$work/before"
    verdict "$1" $?
}

test_known_traces() {
    local changed='known.din has changed since known was begun, or is another file; --restart forgets its rows'
    rm -f known
    cp -p kinds.din known.din
    with_log && cp "$out" first && with_log
    [ "$status" -eq 0 ] && cmp -s "$out" first && lines_at_least "$out" 5
    verdict 'sweep goes on with the same trace' $?
    touch -d '2001-01-01' known.din
    is_refused 'a trace of another time' "$changed"
    touch -r kinds.din known.din
    replace_trace && cp other.din known.din && touch -r kinds.din known.din
    is_refused 'a trace of the same size and time' "$changed"
    with_log --restart
    [ "$status" -eq 0 ] && cmp -s "$out" whole && [ "$(wc -l <known)" -eq 5 ] &&
        [ "$(<"$err")" = 'sweep: known: rows kept: 0, forgotten: 4' ]
    verdict 'sweep begins anew with the trace of now' $?
    echo '0 0' >>known.din
    is_refused 'a trace that has grown' "$changed"
    with_log --restart
    [ "$status" -eq 0 ] && lines_at_least "$out" 5
    verdict 'sweep begins anew with it, too' $?
    sed '1s/l1-dsize/l1-csize/' known >other && cp known mine && cp other known
    is_refused 'a log of another simulator' 'known is of another simulator; --restart begins anew'
    cp mine known
    cp kinds.din no-log
    ends 'a log that is none is not begun anew' 2 'sweep: no-log is no log of a sweep; try --help' \
        "$sweep" --resume no-log --restart "${grid[@]}" -- kinds.din
    cmp -s no-log kinds.din
    verdict 'it is left as it was' $?
}

# A log that ends at any byte, as one may after a kill or on a full disk: the same table, and each
# row stands in the log once.
test_cut_logs() {
    local size cut
    with_log
    cp known mine && cp "$out" whole
    size=$(wc -c <mine) cut=1
    for ((; cut < size; cut += 83)); do
        head -c $cut mine >known
        with_log
        if [ "$status" -ne 0 ] || ! cmp -s "$out" whole || ! cmp -s <(sort known) <(sort mine); then
            break
        fi
    done
    [ "$cut" -ge "$size" ]
    verdict 'sweep goes on from a log that was cut off anywhere' $?
    { head -c $((size - 20)) mine && head -c 40 /dev/zero; } >known
    with_log
    [ "$status" -eq 0 ] && [ ! -s "$err" ] && cmp -s "$out" whole && cmp -s <(sort known) <(sort mine)
    verdict 'sweep goes on from a log that ends in zeros' $?
    cp mine known
}

# What happens to a trace while a run reads it.
change=grow
grow() {
    echo '0 0' >>growing.din
}
write_over() {
    printf 1 | dd of=growing.din conv=notrunc status=none
}

# is_held: the run that reads the trace stands still. Sets `held` to its process.
is_held() {
    local process
    for process in /proc/[0-9]*; do
        if [ "$process/fd/0" -ef growing.din ] && kill -STOP "${process#/proc/}" 2>/dev/null; then
            held=${process#/proc/}
            return
        fi
    done
    return 1
}

is_held_or_over() {
    is_held || has_ended
}

# changed_midway NAME COMMAND..: a trace changes while a run reads it, and no row of that is told or
# kept. What the runs call is not the place of the program, in which there may be another one.
changed_midway() {
    local called tries held=
    yes '0 0' | head -n 4000000 >growing.din
    for ((tries = 0; tries < 10; tries++)); do
        rm -rf grown tasks
        start "${@:2}" --l1-isize 1k --l1-ibsize 16 --l1-dbsize 16 --l2-usize 4k --l2-ubsize 16 \
            --vary --l1-dsize 1k,2k -- growing.din
        until_true is_held_or_over
        [ -z "$held" ] || break
        # It was over too soon.
        wait "$started"
    done
    called=$(readlink "$TMPDIR"/*/dinero_grid)
    "$change"
    kill -CONT "$held"
    status=0
    wait "$started" || status=$?
    [ "$status" -eq 4 ] && [ "$(wc -l <"$out")" -le 1 ] && [[ $called == /proc/*/fd/* ]] &&
        [ "$(<"$err")" = 'sweep: growing.din has changed while it was read' ]
    verdict "$1" $?
}

test_changes() {
    changed_midway 'sweep of a trace that grows' "$sweep" --jobs 1
    changed_midway 'sweep of a trace that grows, with a log' "$sweep" --jobs 1 --resume grown
    [ "$(wc -l <grown)" -eq 1 ]
    verdict 'the log has no row of it' $?
    changed_midway 'a task with a trace that grows' "$sweep" --task 1/1 --into tasks
    [ "$(ls tasks)" = grid ]
    verdict 'the task has no row' $?
    change=write_over
    changed_midway 'sweep of a trace whose size stays' "$sweep" --jobs 1
    rm -rf growing.din grown tasks
}

# A row whose options are not in step is of no configuration of a grid in which they are.
test_steps() {
    # shellcheck disable=SC2054  # commas between values
    local step=(--vary --l1-dsize 8,16 "${rest[@]:2}")
    run "$sweep" --with l1-isize=l1-dsize "${step[@]}" -- kinds.din
    cp "$out" whole
    rm -f step.log
    run "$sweep" --resume step.log --l1-isize 16 "${step[@]}" -- kinds.din
    run "$sweep" --resume step.log --with l1-isize=l1-dsize "${step[@]}" -- kinds.din
    [ "$status" -eq 0 ] && cmp -s "$out" whole &&
        [ "$(tail -n +2 step.log | cut -f 3,7 | sort | tr '\t\n' ' ,')" = '16 16,16 8,8 8,' ]
    verdict 'sweep goes on with options in step from a log of others' $?
}

# A trace of more than two MiB, by a link. Its first record, its last one or its time of change is
# then another one, and nothing else.
test_long_trace() {
    local changed='known.din has changed since known was begun, or is another file; --restart forgets its rows'
    local time='2001-01-01 00:00:00'
    rm -f known known.din
    yes '0 0' | head -n 600000 >behind.din
    touch -d "$time.1" behind.din
    ln -s behind.din known.din
    with_log
    [ "$status" -eq 0 ] && lines_at_least known 5
    verdict 'sweep of a long trace by a link' $?
    sed -i '1s/^0/1/' behind.din && touch -d "$time.1" behind.din
    is_refused 'a long trace that has another first record' "$changed"
    sed -i '1s/^1/0/; $s/^0/1/' behind.din && touch -d "$time.1" behind.din
    is_refused 'a long trace that has another last record' "$changed"
    sed -i '$s/^1/0/' behind.din && touch -d "$time.2" behind.din
    is_refused 'a trace of another part of a second' "$changed"
    touch -d "$time.1" behind.din
    with_log
    [ "$status" -eq 0 ] && [ "$(wc -l <known)" -eq 5 ]
    verdict 'and as it was it is known again' $?
    rm known behind.din known.din && cp -p kinds.din known.din
}

# A task knows its trace by all of its bytes.
test_long_task() {
    yes '0 0' | head -n 900000 >behind.din
    "$sweep" --task 1/2 --into long "${grid[@]}" -- behind.din
    sed -i '450000s/^0/1/' behind.din
    ends 'a task of a trace that has another record in its midst' 2 \
        'sweep: behind.din has changed since long was begun, or is another file' \
        "$sweep" --task 2/2 --into long "${grid[@]}" -- behind.din
    rm -r behind.din long
}

# end_all: of a sweep, as after a power cut.
end_all() {
    # shellcheck disable=SC2046  # numbers of processes
    kill -KILL $(our_processes | sed -nE 's,^/proc/([0-9]+)/.*,\1,p') 2>/dev/null
    wait "$started" 2>/dev/null
    until_true all_have_ended
    rm -rf "${TMPDIR:?}"/*
}

# killed LINES: a sweep whose log has so many lines, or has just begun. Nothing is left to tidy up,
# as after a power cut.
killed() {
    start "$sweep" --resume kept --jobs 1 "${long[@]}" -- "${several[@]}"
    if [ "$1" -eq 0 ]; then sleep 0.05; else until_true lines_at_least kept "$1" 2>/dev/null; fi
    end_all
}

test_kills() {
    local lines
    run "$sweep" "${long[@]}" -- "${several[@]}"
    cp "$out" whole
    rm -f kept
    for lines in 0 1 7 13; do
        killed $lines
    done
    lines_at_least kept 13 && ! lines_at_least kept 19
    verdict 'sweep is killed before its end' $?
    run "$sweep" --resume kept "${long[@]}" -- "${several[@]}"
    [ "$status" -eq 0 ] && [ ! -s "$err" ] && cmp -s "$out" whole && [ "$(wc -l <kept)" -eq 19 ]
    verdict 'sweep goes on after kills at four moments' $?
}

log=same.tsv
"$sweep" --resume "$log" "${grid[@]}" -- kinds.din >same.tsv 2>"$err"
status=$?
[ "$status" -eq 2 ] && [ ! -s same.tsv ] &&
    [ "$(<"$err")" = 'sweep: --resume: same.tsv is where the table goes; try --help' ]
verdict 'a log where the table goes' $?
# A trace that is empty, as a log may be that is to begin.
: >own.din && ln own.din own.log
for words in own.din own.log 'own.log --restart'; do
    # shellcheck disable=SC2086  # several words
    refused "--resume: ${words% *} is a trace of this call" \
        --resume $words "${grid[@]}" -- kinds.din own.din
done
[ ! -s own.din ]
verdict 'it is left as it was' $?
rm own.din own.log
test_known_traces
test_steps
test_long_trace
test_long_task
test_cut_logs
test_changes
test_kills
ends 'sweep without awk' 69 'sweep: awk is missing: install the package mawk' \
    env PATH="$(without awk)" "$sweep" "${grid[@]}" -- kinds.din
ends 'sweep with a log, without flock' 69 'sweep: flock is missing: install the package util-linux' \
    env PATH="$(without flock)" "$sweep" --resume no-lock "${grid[@]}" -- kinds.din
for words in '--resume no-log-begun' '--task 1 --into no-folder'; do
    # shellcheck disable=SC2086  # several words
    ends "sweep $words, without cmp" 69 'sweep: cmp is missing: install the package diffutils' \
        env PATH="$(without cmp)" "$sweep" $words "${grid[@]}" -- kinds.din
done
[ ! -e no-lock ] && [ ! -e no-log-begun ] && [ ! -e no-folder ]
verdict 'and no log and no folder is made' $?
