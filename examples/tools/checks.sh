# What a test of the commands checks, and how it calls them. Read by tools.sh.
# shellcheck shell=bash disable=SC2154  # names that tools.sh and its other files set

# verdict NAME STATUS: of the check that has just ended.
verdict() {
    if [ "$2" -eq 0 ] && is_tidy; then
        pass "$1"
    else
        fail "$1 (status ${status-})"
        head -n 5 "$err"
    fi
}

# is_tidy: nothing is left of the command, neither a file nor a process.
is_tidy() {
    [ -z "$(ls -A "$TMPDIR")" ] && until_true all_have_ended && return
    echo "left behind: $(ls -A "$TMPDIR") $(our_processes)"
    return 1
}

# our_processes: those that were started from here, as their environment tells.
our_processes() {
    env -u TMPDIR grep -lzxF "TMPDIR=$TMPDIR" /proc/[0-9]*/environ 2>/dev/null
}

all_have_ended() {
    [ -z "$(our_processes)" ]
}

# check NAME COMMAND..: the test passes where the command does.
check() {
    "${@:2}"
    verdict "$1" $?
}

# run COMMAND..: keeps both streams and the status.
run() {
    status=0
    "$@" >"$out" 2>"$err" </dev/null || status=$?
}

has() {
    command -v "$1" >/dev/null
}

# ends NAME STATUS LINE COMMAND..: the command prints nothing, and says this one line.
ends() {
    run "${@:4}"
    [ "$status" -eq "$2" ] && [ ! -s "$out" ] && [ "$(<"$err")" = "$3" ]
    verdict "$1" $?
}

# to_full NAME LINE COMMAND..: the command's output is a full disk.
to_full() {
    status=0
    "${@:3}" >/dev/full 2>"$err" </dev/null || status=$?
    [ "$status" -eq 4 ] && [ "$(<"$err")" = "$2" ]
    verdict "$1" $?
}

# no_room KILOBYTES COMMAND..: no file can grow longer, as on a full disk.
no_room() (
    ulimit -f "$1"
    trap '' XFSZ
    exec "${@:2}"
)

# start COMMAND..: in the background, in a group of its own, as a terminal starts it; its output is
# a table or a trace in $out, and $started is its number.
start() {
    : >"$out"
    set -m
    "$@" >"$out" 2>"$err" </dev/null &
    started=$!
    set +m
}

# wait_for_started: sets `status` to that of what was started. If it does not end within a minute,
# it is killed with all that it began.
wait_for_started() {
    until_true has_ended || kill -KILL -- "-$started"
    status=0
    wait "$started" 2>/dev/null || status=$?
}

has_ended() {
    ! kill -0 "$started" 2>/dev/null
}

# until_true COMMAND..: waits for a minute at most, as other programs may use all processors.
until_true() {
    local end=$((SECONDS + 60))
    until "$@"; do
        [ $SECONDS -lt $end ] || return
        sleep 0.05
    done
}

lines_at_least() {
    [ "$(wc -l <"$1")" -ge "$2" ]
}

# whole_lines FILE FIELDS: it ends in a line feed, and each line has so many fields.
whole_lines() {
    [ -s "$1" ] && [ -z "$(tail -c 1 "$1")" ] &&
        awk -F '\t' -v fields="$2" 'NF != fields { exit 1 }' "$1"
}

# without COMMAND: a folder to take as PATH, with all of this machine's commands but that one.
without() {
    local folder=$work/without-$1
    if [ ! -d "$folder" ]; then
        mkdir "$folder"
        ln -s -t "$folder" /usr/bin/*
        [ /bin -ef /usr/bin ] || ln -sf -t "$folder" /bin/*
        rm -f "$folder/$1"
    fi
    echo "$folder"
}

# standing_still TOOL: a folder whose TOOL leaves a mark and half of its last word's file, if that
# is one of these tests, and then does nothing for long.
standing_still() {
    local folder=$work/still-$1
    mkdir -p "$folder"
    cat >"$folder/$1" <<'END'
#!/usr/bin/env bash
: >"$MARK"
case $(realpath -m -- "${@: -1}") in
"${MARK%/*}"/*) echo half >"${@: -1}" ;;
esac
exec sleep 60
END
    chmod +x "$folder/$1"
    echo "$folder"
}

# slow_folders: a folder whose mktemp leaves a mark once it has made one, and takes long to say so.
slow_folders() {
    mkdir -p "$work/slow"
    cat >"$work/slow/mktemp" <<'END'
#!/bin/sh
folder=$(PATH=/usr/bin:/bin mktemp "$@") && : >"$MARK" && sleep 0.5 && echo "$folder"
END
    chmod +x "$work/slow/mktemp"
    echo "$work/slow"
}

# start_marked COMMAND..: as start, and waits until something that the command calls has left the
# mark.
start_marked() {
    rm -f "$work/still"
    MARK=$work/still start "$@"
    until_true test -e "$work/still"
}

# signalled SIGNAL FOLDER COMMAND..: the signal is sent to the command and all that it began, as a
# terminal does, once a tool of the folder has left its mark. Was that how the command ended?
signalled() {
    start_marked env PATH="$2:$PATH" "${@:3}"
    kill "-$1" -- "-$started"
    status=0
    wait "$started" 2>/dev/null || status=$?
    [ "$status" -eq $((128 + $(kill -l "$1"))) ] && grep -qx "[a-z]*: interrupted" "$err"
}

# stopped_in NAME SIGNAL FOLDER COMMAND..: a command without output, as in `signalled`.
stopped_in() {
    signalled "${@:2}" && [ ! -s "$out" ]
    verdict "$1" $?
}

# stopped NAME TOOL COMMAND..: interrupts of each kind while the command waits for the tool.
stopped() {
    local signal
    for signal in INT HUP TERM; do
        stopped_in "$1 that is sent $signal" "$signal" "$(standing_still "$2")" "${@:3}"
    done
}
