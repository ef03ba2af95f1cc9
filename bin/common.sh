# What the commands of bin/ share. Each sets `self`, its name, before it reads this file.
# shellcheck shell=bash

# A function of the caller's, which the shell has taken over, would stand in for the tool of its
# name. Before it reads this file, each command sets POSIXLY_CORRECT: until that is taken back
# below, no function comes before `unset`, `set` and `.`.
while builtin read -r _ _ theirs; do
    builtin unset -f -- "$theirs" || true
done <<<"$(builtin declare -F)"

# A relative name leads from where the command runs, and from nowhere else. A pipe that says nothing
# is waited for. A trace is unpacked, whatever else gzip and xz are told to do by default.
unset CDPATH TMOUT GZIP XZ_OPT XZ_DEFAULTS || true

# complain TEXT: a line on standard error, in the name of the command.
complain() {
    # shellcheck disable=SC2154  # each command sets its name
    echo "$self: $1" >&2 || true
}

# die STATUS TEXT
die() {
    complain "$2"
    exit "$1"
}

# refuse TEXT: the words of the call are not what the command takes.
refuse() {
    die 2 "$1; try --help"
}

# need COMMAND PACKAGE: ends the command where a tool is missing.
need() {
    command -v "$1" >/dev/null || die 69 "$1 is missing: install the package $2"
}

# end_unwritten STATUS WHAT: ends the command if it could not print that, and without a word if the
# reader of a pipe has gone.
end_unwritten() {
    [ "$1" -ne 141 ] || exit 141
    [ "$1" -eq 0 ] || die 4 "$2 could not be written"
}

# show_help: prints what the command's own function `usage` says, and ends the command.
show_help() {
    local status=0
    usage 2>/dev/null || status=$?
    end_unwritten "$status" 'the help text'
    exit 0
}

# Where POSIXLY_CORRECT is set, a file that can't be opened would end the shell without a word. What
# SHELLOPTS may hold would leave a star a star, take words for variables, or refuse to write to a
# file that is there; and what BASHOPTS may hold, make two lines of a text with a backslash, take
# large letters for small ones, or find other files for a star, or none.
set +fkC +o posix
shopt -u xpg_echo nocasematch nocaseglob nullglob failglob dotglob extdebug lastpipe
# The signal of a limit on files would end a tool without a word. The program of record gets it.
# shellcheck disable=SC2154  # each command sets its name
[ "$self" = record ] || trap '' XFSZ

# A closed output stays one that can't be written, and a closed input one that can't be read, but no
# file of the command's takes its number. To duplicate a number to itself would always succeed.
{ : 3>&1; } 2>/dev/null || exec 1< /dev/null
closed_input=
# shellcheck disable=SC2034  # commands use it
{ : 3<&0; } 2>/dev/null || { exec 0> /dev/null && closed_input=yes; }

# What prints how many cores there are: nproc itself goes by what OpenMP is told.
# shellcheck disable=SC2034  # commands use it
cores=(env -u OMP_NUM_THREADS -u OMP_THREAD_LIMIT nproc)

# read_version: of the product, from the one file that has it.
read_version() {
    local version
    version=$(cat -- "${BASH_SOURCE[0]%/*}/../VERSION" 2>/dev/null) || return
    [[ $version =~ ^[0-9]+\.[0-9]+\.[0-9]+$ ]] && echo "$version"
}

# show_version: of the product, in the name of the command, and ends the command.
show_version() {
    local version status=0
    version=$(read_version) || die 4 'the file VERSION is missing or damaged'
    (echo "$self $version") 2>/dev/null || status=$?
    end_unwritten "$status" 'the version'
    exit 0
}
[ "${1-}" != --version ] || show_version

# The names of temporary files are absolute, and so begin with no hyphen.
[[ ${TMPDIR:-/} == /* ]] || TMPDIR=$PWD/$TMPDIR

# What a command leaves in the file system for itself, and takes away at its end, when an interrupt
# comes too late.
leftovers=()
remove_leftovers() {
    trap '' HUP INT TERM
    [ ${#leftovers[@]} -eq 0 ] || rm -rf -- "${leftovers[@]}"
}

# make_temporary: sets `temporary` to a new folder, which goes at the command's end. Its name has no
# link. An interrupt comes before it is made, or once it is known.
make_temporary() {
    leftovers+=("$(
        trap '' HUP INT TERM
        cd -P -- "${TMPDIR:-/tmp}" 2>/dev/null && export TMPDIR=$PWD
        exec mktemp -d
    )") || die 4 'no folder for temporary files'
    # shellcheck disable=SC2034  # commands use it
    temporary=${leftovers[-1]}
}

# no_room: for the files that a command keeps for itself.
no_room() {
    die 4 "no room for temporary files in ${TMPDIR:-/tmp}"
}

# tidy_up_with FUNCTION: it is called at the command's end, also where that is an interrupt. In the
# shell that catches it, no command has two substitutions `$(..)`: bash 5.2 loses an interrupt that
# comes during the first of them.
tidy_up_with() {
    # shellcheck disable=SC2064  # the function of now
    trap "$1" EXIT
    trap 'interrupt 129' HUP
    trap 'interrupt 130' INT
    trap 'interrupt 143' TERM
}

# interrupt STATUS
interrupt() {
    die "$1" interrupted
}

# unreadable WHAT FILE: ends the command, since the file can't be read, and says why, if that is
# known.
unreadable() {
    local fault
    fault=$({ cat < "$2" > /dev/null; } 2>&1) || true
    die 4 "no $1 to read: $2${fault:+: ${fault##*: }}"
}

# place MODE FILE TARGET: puts a whole copy of the file in the target's place, or nothing.
place() {
    local part=$3.part$$ fault
    leftovers+=("$part")
    if [ ! -L "$3" ]; then
        [ ! -d "$3" ] || die 4 "$3 could not be written: Is a directory"
        [ ! -e "$3" ] || [ -f "$3" ] || die 4 "$3 could not be written: Not a regular file"
    fi
    fault=$({
        export LC_ALL=C
        cp -- "$2" "$part" && chmod "$1" -- "$part" && mv -fT -- "$part" "$3"
    } 2>&1) || die 4 "$3 could not be written${fault:+: ${fault##*: }}"
}
