# Tests bin/sweep on a machine that has other files, and with runs that are cut off. Read by
# tools.sh.
# shellcheck shell=bash disable=SC2016,SC2054,SC2154  # names that tools.sh and its other files set

# What stands in for ssh: it is given a machine and a command. There, the folder of temporary files
# and that of the traces are another one.
mkdir "$work/there"
cat >"$work/elsewhere" <<'END'
#!/usr/bin/env bash
shift
[ "$1" != -- ] || shift
export COMMAND=$*
exec unshare -rm bash -c 'mount --bind "$THERE" "$TMPDIR" && mount --bind "$THERE" "$HERE" &&
    cd / && eval "$COMMAND"'
END
chmod +x "$work/elsewhere"

# on_another_machine WORD..: a sweep whose runs are made there.
on_another_machine() {
    echo 2/another >machines
    run env PARALLEL_SSH="$work/elsewhere" THERE="$work/there" HERE="$PWD" \
        "$sweep" --hosts machines "$@"
}

test_another_machine() {
    on_another_machine "${grid[@]}" -- kinds.din fifo.din
    check 'sweep on a machine that has none of its files' is_table_of_rows
    [ -d "$work/there" ] && [ -z "$(ls -A "$work/there")" ]
    verdict 'what was copied there is removed' $?
    gzip -k kinds.din
    on_another_machine "${grid[@]}" -- kinds.din.gz
    check 'and with a trace that is packed' is_table_of_packed
    rm kinds.din.gz
}

is_table_of_packed() {
    [ "$status" -eq 0 ] && [ ! -s "$err" ] &&
        shared "$out" | cmp -s - <(head -n 4 "$work/rows" | sed 's/^kinds.din/&.gz/')
}

if has parallel && has rsync && has ssh &&
    unshare -rm mount --bind "$work/there" "$TMPDIR" 2>"$err"; then
    test_another_machine
else
    skip 'sweep on a machine that has none of its files' \
        'parallel, ssh, rsync and the right to mount (parallel, openssh-client, rsync)'
fi

# Two of three machines can't be reached.
if has parallel && has rsync && has ssh; then
    printf '#!/bin/sh\nexit 255\n' >"$work/unreachable"
    chmod +x "$work/unreachable"
    printf '1/:\n1/another\n1/third\n' >machines
    run env PARALLEL_SSH="$work/unreachable" \
        "$sweep" --hosts machines "${grid[@]}" -- kinds.din fifo.din
    check "sweep of which two machines can't be reached" is_table_of_rows
else
    skip "sweep of which two machines can't be reached" 'parallel, ssh and rsync'
fi

# No more runs are made at once than there are: parallel would try out how many there can be.
test_few_runs() {
    local noted=$work/noted-parallel
    mkdir "$noted"
    cat >"$noted/parallel" <<END
#!/bin/sh
[ "\$1" = --version ] || { cp hosts "$noted/hosts"; echo " \$*" >"$noted/words"; }
exec $(command -v parallel) "\$@"
END
    chmod +x "$noted/parallel"
    echo 9999/: >machines
    run env PATH="$noted:$PATH" "$sweep" --hosts machines "${grid[@]}" -- kinds.din fifo.din
    is_table_of_rows && [ "$(<"$noted/hosts")" = 8/: ]
    verdict 'sweep over a machine that can make more runs than there are' $?
    run env PATH="$noted:$PATH" "$sweep" --hosts machines --jobs 999999999 "${grid[@]}" \
        -- kinds.din fifo.din
    is_table_of_rows && grep -q ' --jobs 8 ' "$noted/words"
    verdict 'and with --jobs' $?
}
if has parallel; then test_few_runs; else skip 'sweep with more jobs than runs' parallel; fi

# Another program that is called parallel.
mkdir "$work/another-parallel"
printf '#!/bin/sh\necho "parallel: invalid option" >&2\nexit 1\n' >"$work/another-parallel/parallel"
chmod +x "$work/another-parallel/parallel"
echo : >machines
ends 'sweep --hosts with a parallel that is not of GNU' 69 \
    'sweep: --hosts needs GNU parallel: install the package parallel' \
    env PATH="$work/another-parallel:$PATH" "$sweep" --hosts machines "${grid[@]}" -- kinds.din

# What unpacks a trace is killed in the midst of it, and the simulator sees a short one. No row of
# that is kept.
mkdir "$work/cut-off"
printf '#!/bin/sh\ngzip -dc | head -n 2\nkill -KILL $$\n' >"$work/cut-off/zcat"
chmod +x "$work/cut-off/zcat"
gzip -k kinds.din
rm -f packed.log
run env PATH="$work/cut-off:$PATH" "$sweep" --resume packed.log "${grid[@]}" -- kinds.din.gz
reason='zcat ended with status 137'
[ "$status" -eq 1 ] && [ "$(<"$err")" = "sweep: kinds.din.gz: $reason
sweep: configurations with a fault: 4 of 4, the first in line 2 of the table: \
$reason (column fault)" ] &&
    [ "$(rows_of 4,37 | tr , '\n' | sort -u)" = "- $reason" ] &&
    [ "$(wc -l <packed.log)" -eq 1 ]
verdict 'sweep of a trace whose unpacker is killed' $?
run "$sweep" --resume packed.log "${grid[@]}" -- kinds.din.gz
is_table_of_packed && [ "$(wc -l <packed.log)" -eq 5 ]
verdict 'the next call simulates it' $?
rm kinds.din.gz packed.log

# Tables that are none, though the simulator says that all is well.
check 'a simulator whose table lacks a column' fails_with \
    "{ '$simulator' \"\$@\" | sed '2s/\\t-\$//'; exit 0; }" 'not simulated'
printf '#!/bin/sh\n[ /dev/stdin -ef /dev/null ] || lines="head -n 1"\n"%s" "$@" | ${lines-cat}\n' \
    "$simulator" >"$work/failing"
good=$simulator simulator=$work/failing
rm -f failed.log
noted --jobs 4 --resume failed.log "${grid[@]}" -- kinds.din
simulator=$good
[ "$status" -eq 1 ] && [ "$(wc -l <"$work/calls")" -eq 4 ] && [ "$(wc -l <failed.log)" -eq 1 ] &&
    [ "$(rows_of 37)" = 'not simulated,not simulated,not simulated,not simulated,' ]
verdict 'a simulator whose table has no line' $?

# Runs are made one by one where --jobs says so, also by parallel.
if has parallel; then
    printf '#!/bin/sh\n[ /dev/stdin -ef /dev/null ] && exec "%s" "$@"\n%s\n"%s" "$@"\n%s\n' \
        "$simulator" 'echo begin >>"$MARKS"; sleep 0.5' "$simulator" 'echo end >>"$MARKS"' \
        >"$work/failing"
    good=$simulator simulator=$work/failing
    export MARKS=$work/marks
    noted --hosts machines --jobs 1 "${grid[@]}" -- kinds.din fifo.din
    export -n MARKS
    simulator=$good
    is_table_of_rows && [ "$(tr '\n' ' ' <"$work/marks")" = 'begin end begin end ' ]
    verdict 'sweep --hosts with one run at once' $?
fi

# The shell of the first run is killed. What had been said is no fault of the trace, and the other
# run is made.
cat >"$work/failing" <<END
#!/bin/sh
{ [ /dev/stdin -ef /dev/null ] || ! mkdir "\$MARKS"; } 2>/dev/null && exec "$simulator" "\$@"
echo "dinero_grid: line 1" >&2
kill -KILL \$PPID
END
good=$simulator simulator=$work/failing
export MARKS=$work/killed
noted --jobs 1 "${grid[@]}" -- kinds.din fifo.din
export -n MARKS
simulator=$good
[ "$status" -eq 1 ] && [ -d "$work/killed" ] && [ "$(<"$err")" = "sweep: kinds.din: not simulated
sweep: configurations with a fault: 4 of 8, the first in line 2 of the table: \
not simulated (column fault)" ] &&
    [ "$(rows_of 37)" = 'not simulated,not simulated,not simulated,not simulated,-,-,-,-,' ] &&
    shared "$out" | tail -n 4 | cmp -s - <(tail -n 4 "$work/rows")
verdict 'sweep whose first run is killed' $?

# A simulator that goes on when it is told to end. It leaves a mark once it does.
printf '#!/bin/sh\n[ /dev/stdin -ef /dev/null ] && exec "%s" "$@"\n%s\n%s\nsleep 60\n' \
    "$simulator" 'trap "" TERM' ': >"$MARK"' >"$work/failing"

# start_endless WORD..: a sweep of it, which has begun a run.
start_endless() {
    start_marked env CALLS="$work/calls" GRID="$work/failing" "$noting/sweep" --jobs 1 "$@" \
        "${grid[@]}" -- kinds.din
}

start_endless
kill -TERM "$started"
status=0
wait "$started" 2>/dev/null || status=$?
[ "$status" -eq 143 ] && [ "$(<"$err")" = 'sweep: interrupted' ]
verdict 'sweep that is sent TERM while its simulator does not end' $?

# A sweep that is killed alone leaves a run behind, which does not keep the log to itself.
rm -f left.log
start_endless --resume left.log
{
    kill -KILL "$started"
    wait "$started"
} 2>/dev/null
run "$sweep" --resume left.log "${grid[@]}" -- kinds.din
left=$(our_processes)
end_all
[ "$status" -eq 0 ] && [ ! -s "$err" ] && [ -n "$left" ] && [ "$(wc -l <left.log)" -eq 5 ]
verdict 'sweep goes on where a run of another one is left' $?
rm left.log
