# Calls of a program as a user makes them. Read by the scripts that try command lines: $program is
# what is called, $trace a good trace, $nothing an empty file, and $refused the line where words are
# refused. It makes $work, a folder for what is printed, which goes at the end. tally.sh counts.
# shellcheck shell=bash disable=SC2154

work=$(mktemp -d)
trap 'rm -rf "$work"' EXIT
. "$(dirname "${BASH_SOURCE[0]}")/tally.sh"

# judge NAME STATUS OUTPUT LINE: compares the call that has just left its streams and its status.
judge() {
    printf '%s' "$4" >"$work/line"
    if [ "$status" = "$2" ] && cmp -s "$work/out" "$3" && cmp -s "$work/err" "$work/line"; then
        pass "$1"
    else
        fail "$1 (status $status, wanted $2)"
        diff "$3" "$work/out" | head -n 5
        diff "$work/line" "$work/err" | head -n 5
    fi
}

# call NAME STATUS OUTPUT LINE INPUT WORD..: runs the program and judges it.
call() {
    local name=$1 want=$2 output=$3 line=$4 input=$5
    shift 5
    "$program" "$@" <"$input" >"$work/out" 2>"$work/err"
    status=$?
    judge "$name" "$want" "$output" "$line"
}

# leave_trace LINE WORD..: words that are refused before the trace is asked for, so all of it is
# left to read.
leave_trace() {
    local line=$1
    shift
    {
        "$program" "$@" 2>"$work/err"
        status=$?
        cat
    } <"$trace" >"$work/out"
    judge 'refused words, and no byte of the trace is read' 2 "$trace" "$line"
}

# fail_to_print LINE WORD..: outputs that are full or closed, for these words and for help.
fail_to_print() {
    local line=$1
    shift
    : >"$work/out"
    "$program" "$@" <"$trace" >/dev/full 2>"$work/err"
    status=$?
    judge 'a full output' 4 "$nothing" "$line"
    "$program" "$@" <"$trace" >&- 2>"$work/err"
    status=$?
    judge 'a closed output' 4 "$nothing" "$line"
    "$program" --help >/dev/full 2>"$work/err"
    status=$?
    judge 'help to a full output' 4 "$nothing" "$line"
}

# help_names OPTION..: help is right where it names these and the options of the caches; its text is
# clap's.
help_names() {
    local option
    "$program" --help >"$work/help" 2>"$work/err"
    status=$?
    : >"$work/out"
    for option in l1-{i,d}size l1-{i,d}bsize l1-{i,d}assoc l1-{i,d}repl l1-dwback l1-dwalloc \
        l2-u{size,bsize,assoc,repl,wback,walloc} "$@"; do
        grep -q -e " --$option <" "$work/help" || echo "--$option is missing" >>"$work/out"
    done
    judge 'help' 0 "$nothing" ''
}

# help_anywhere LINE: help, as `help_names` has it, is printed unless a word before it is refused as
# such, here with this line, or any word is no text.
help_anywhere() {
    call 'help by one letter' 0 "$work/help" '' "$nothing" -h
    call 'help before an unknown option' 0 "$work/help" '' "$nothing" --help --l3-usize 64
    call 'help behind a bad value' 0 "$work/help" '' "$nothing" --maxcount two -h
    call 'help behind an unknown option' 2 "$nothing" "$1" "$nothing" --l3-usize 64 --help
    call 'help before a word that is no text' 2 "$nothing" "$refused" "$nothing" --help $'\xff'
}
