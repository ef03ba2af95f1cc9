# Tests which signals the program gets that bin/record runs. Read by tools.sh, behind record.sh.
# shellcheck shell=bash disable=SC2154  # names that tools.sh and its other files set

# A program that tells of each signal, and ends with the last kind.
# shellcheck disable=SC2016  # the inner shell's words
telling='for name in HUP INT QUIT; do trap "echo $name >&2" $name; done
    trap "exit 7" TERM
    echo ready >&2
    while :; do :; done'

# start_ready COMMAND..: until the program says that it has its traps. What stands there now is of
# another one.
start_ready() {
    : >"$err"
    start "$@"
    until_true grep -qx ready "$err"
}

# send_each TARGET: each signal has come to the program before the next is sent.
send_each() {
    local signal
    for signal in HUP INT QUIT; do
        kill -$signal -- "$1"
        until_true grep -qx $signal "$err"
    done
}

# has_told_once: the last signal is for the command alone, and what was passed on before it came
# before it.
has_told_once() {
    kill -TERM "$started"
    wait_for_started
    [ "$status" -eq 7 ] && [ "$(<"$err")" = $'ready\nHUP\nINT\nQUIT' ] &&
        [ -z "$(tail -c 1 "$out")" ]
}

is_stopped() {
    grep -q '^State:.T' "/proc/$started/status"
}

# has_settled: the command waits again, and no signal waits for it.
has_settled() {
    [ "$(grep -cE '^State:.S|^ShdPnd:.0+$' "/proc/$started/status")" -eq 2 ]
}

# The command stands still until the program has told of what all got, so that what it passes on
# would be told once more.
test_group() {
    start_ready "$record" --split 64 sh -c "$telling"
    kill -STOP "$started"
    until_true is_stopped
    send_each "-$started"
    kill -CONT "$started"
    until_true has_settled
    check 'record passes on no signal that the program has got' has_told_once
}

# A signal after another, which may come while the command still passes that on.
test_alone() {
    start_ready "$record" --split 64 sh -c "$telling"
    send_each "$started"
    check 'record passes on the signals that it alone gets' has_told_once
}

# tells_twice SIGNAL
tells_twice() {
    [ "$(grep -cx "$1" "$err")" -eq 2 ]
}

# What the group was sent is not taken for what the command alone is sent after it.
test_after_group() {
    start_ready "$record" --split 64 sh -c "$telling"
    kill -INT -- "-$started"
    until_true grep -qx INT "$err"
    until_true has_settled
    kill -INT "$started"
    until_true tells_twice INT
    kill -TERM "$started"
    wait_for_started
    [ "$status" -eq 7 ] && [ "$(<"$err")" = $'ready\nINT\nINT' ]
    verdict 'record passes on a signal after one that all got' $?
}

# ends_early NAME LINE SIGNAL STATUS: of a copy that sends itself the signal behind this line.
ends_early() {
    mkdir "$work/early"
    cp "$bin/common.sh" "$bin"/record* "$work/early"
    sed -i "/^$2\$/a kill -s $3 \$\$" "$work/early/record"
    run "$work/early/record" --split 64 sleep 20
    rm -r "$work/early"
    [ "$status" -eq "$4" ]
    verdict "$1 $3" $?
}

test_early() {
    ends_early 'record that is sent, before it calls valgrind,' check_streams QUIT 131
    local signal
    for signal in HUP:129 INT:130 QUIT:131 TERM:143; do
        ends_early 'record that is sent, while it calls valgrind,' forward_signals \
            "${signal%:*}" "${signal#*:}"
    done
}

# The group's signal does not come to a program that has left it. It would end by itself.
test_parted() {
    start_ready "$record" setsid sh -c 'trap "exit 7" TERM
        echo ready >&2
        for second in 1 2 3 4 5 6 7 8 9 10; do sleep 1; done'
    kill -TERM -- "-$started"
    wait_for_started
    [ "$status" -eq 7 ]
    verdict 'record of a program that has left the process group' $?
}

# What blocks the signals has much memory to give back when it is ended, each time more, so that it
# ends while the command does. The shell that ends it says nothing of that.
test_slow_end() {
    local line='record: the trace could not be written'
    local -x MARK=$work/blocks BYTES
    # shellcheck disable=SC2016  # the inner shell's word
    fake_valgrind 'until [ -e "$MARK" ]; do sleep 0.01; done'
    cat >"$work/valgrind/tail" <<'END'
#!/usr/bin/env bash
printf -v memory '%*d' "$BYTES" 0
: >"$MARK"
exec {none}<> <(:)
read -rt 60 -u "$none"
END
    chmod +x "$work/valgrind/tail"
    for ((BYTES = 4000000; BYTES <= 60000000; BYTES += 4000000)); do
        rm -f "$MARK"
        status=0
        PATH=$work/valgrind:$PATH "$record" true >/dev/full 2>"$err" </dev/null || status=$?
        [ "$(<"$err")" = "$line" ] || break
    done
    [ "$status" -eq 4 ] && [ "$(<"$err")" = "$line" ]
    verdict 'record says nothing of what it has ended itself' $?
    rm "$MARK" "$work/valgrind/tail"
}

# A signal of the program's own is told. Another status of the same number is none.
test_crashes() {
    local signal
    for signal in SEGV ABRT FPE KILL; do
        # shellcheck disable=SC2016  # the inner shell's word
        run "$record" --split 64 sh -c 'kill -s "$1" $$' sh "$signal"
        [ "$status" -eq $((128 + $(kill -l $signal))) ] && [ -z "$(tail -c 1 "$out")" ] &&
            [ "$(<"$err")" = "record: sh was ended by signal $(kill -l $signal)" ]
        verdict "record of a program that ends by $signal" $?
        ends_quietly "exit $((128 + $(kill -l $signal)))"
    done
    # shellcheck disable=SC2016  # the inner shell's word
    ends_quietly 'kill -PIPE $$'
}

# ends_quietly WORDS: of a shell. The command says nothing, and its trace is whole.
ends_quietly() {
    run "$record" --split 64 sh -c "$1"
    [ "$status" -gt 128 ] && [ ! -s "$err" ] && [ -s "$out" ] && [ -z "$(tail -c 1 "$out")" ]
    verdict "record of a program that does: $1" $?
}

# Valgrind leaves nothing behind, though it can tidy nothing up.
test_killed() {
    # shellcheck disable=SC2016  # the inner shell's words
    start_ready "$record" --split 64 sh -c 'echo $$ >traced; echo ready >&2; while :; do :; done'
    kill -KILL "$(<traced)"
    wait_for_started
    [ "$status" -eq 137 ] &&
        [ "$(tail -n 1 "$err")" = 'record: valgrind was killed: the trace is not whole' ]
    verdict 'record whose valgrind is killed' $?
    rm traced
}

test_slow_end
if has valgrind; then
    test_killed
    test_crashes
    test_group
    test_alone
    test_after_group
    test_early
    test_parted
else
    skip 'record of a program that gets signals' valgrind
fi
