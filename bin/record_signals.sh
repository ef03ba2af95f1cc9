# Which signals are for the program. Read by record.
# shellcheck shell=bash disable=SC2154,SC2034  # names that record sets, or uses
#
# Ctrl-C, `timeout` or a shell's `kill %1` send a signal to a whole process group, and so to the
# program, too. Only what was sent to this command alone is sent on, or it would come twice.

traced=
started=
early=
witness=
# The signals that all got and that this command has still to catch, a bit for each.
seen=0
# Those that this command has caught, each between blanks.
got=' '

# forward_signals: from here on, instead of ending this command.
forward_signals() {
    begin_witness
    trap 'forward 1' HUP
    trap 'forward 2' INT
    trap 'forward 3' QUIT
    trap 'forward 15' TERM
}

# begin_witness: a process that blocks the signals, so that what the whole group is sent waits there
# to be seen. It ends with this command.
begin_witness() {
    (
        trap '' HUP INT QUIT TERM
        exec {words}>&- {trace}>&- {messages}>&- {go}>&- {input}<&-
        [ -z "$printed" ] || exec {printed}>&-
        exec env --block-signal=HUP,INT,QUIT,TERM tail --pid=$$ -s 1 -f /dev/null
    ) < /dev/null > /dev/null 2>&1 &
    witness=$!
}

# end_witness: waits until it has ended, or the shell would tell of it later.
end_witness() {
    kill -KILL "$witness" 2>/dev/null || true
    wait "$witness" || true
}

# read_number: sets `number` to the next one that the shell of the program tells, and `said` where
# it says something before.
read_number() {
    said=
    while read -r number; do
        [[ ! $number =~ ^[0-9]+$ ]] || return 0
        said=yes
    done <&"$told"
    return 1
}

# forward SIGNAL
# shellcheck disable=SC2317  # the traps call it
forward() {
    got+="$1 "
    if [ -z "$started" ]; then
        early=$1
    elif ! is_started || ! was_for_all "$1" || ! has_stayed; then
        send "$1"
    fi
}

# start_program: its process waits for this with the signals as they are for programs. What came
# before may have been passed over there.
start_program() {
    started=yes
    echo >&"$go"
    [ -z "$early" ] || send "$early"
}

# send SIGNAL: to the program. The shell that becomes it may still pass signals over.
send() {
    until is_started; do sleep 0.01 || true; done
    kill -n "$1" "$traced" 2>/dev/null || true
}

# is_started: the shell has become valgrind, or has ended.
is_started() {
    [ ! "/proc/$traced/exe" -ef "/proc/$$/exe" ]
}

# was_for_all SIGNAL: it has waited at the witness, too. The kernel sends it there before it comes
# to this command, which is older; but `timeout` may send it here before it sends it to the group.
# Within a trap, `return` alone would give the status of the command before the trap.
was_for_all() {
    has_waited "$1" || { sleep 0.1 || true; has_waited "$1"; } || return 1
    seen=$((seen & ~(1 << ($1 - 1))))
}

# has_waited SIGNAL
has_waited() {
    note_waiting
    (((seen >> ($1 - 1)) & 1))
}

# note_waiting: adds to `seen` the signals that wait at the witness. Then another one takes its
# place, or they would be taken for the next ones.
note_waiting() {
    local key mask=0
    while IFS=$' \t' read -r key mask && [ "$key" != ShdPnd: ]; do :; done < "/proc/$witness/status"
    mask=$((16#$mask))
    [ $mask -ne 0 ] || return 0
    seen=$((seen | mask))
    end_witness
    begin_witness
} 2>/dev/null

# has_stayed: the program has not left the process group.
has_stayed() {
    group_of "$traced" && local of_program=$group && group_of $$ && [ "$group" = "$of_program" ]
}

# group_of PROCESS: sets `group` to the number of its process group. A name in parentheses, which
# may hold anything, and two words stand before it.
group_of() {
    local line=
    IFS= read -r line < "/proc/$1/stat"
    [[ ${line##*) } =~ ^[A-Z]\ [0-9]+\ ([0-9]+)\  ]] && group=${BASH_REMATCH[1]}
} 2>/dev/null
