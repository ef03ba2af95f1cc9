# The words of a call. Read by record.
# shellcheck shell=bash disable=SC2034  # names that record and its other files use

split=
from=
until=
output=

# once OPTION VALUE: the value that an earlier word gave it is empty.
once() {
    [ -z "$2" ] || refuse "$1 is given twice"
}

# parse WORD..: puts the program and its arguments into `program`.
parse() {
    local taken=
    while [ $# -gt 0 ]; do
        case $1 in
        -h | --help) foreseen=yes && show_help ;;
        --split=* | --from=* | --until=* | --output=*) set -- "${1%%=*}" "${1#*=}" "${@:2}" ;;
        --split | --from | --until | --output) [ $# -ge 2 ] || refuse "$1 has no value" ;;
        --)
            taken=
            shift
            break
            ;;
        -*) refuse "unknown option: $1" ;;
        *) break ;;
        esac
        [ -n "$2" ] || refuse "$1 has no value"
        taken=" ($2 was taken as the value of $1)"
        case $1 in
        --split) once "$1" "$split" && split=$2 ;;
        --from) once "$1" "$from" && from=$2 ;;
        --until) once "$1" "$until" && until=$2 ;;
        --output) once "$1" "$output" && output=$2 ;;
        esac
        shift 2
    done
    check_split
    [ $# -gt 0 ] || refuse "no program is given$taken"
    [ -n "$1" ] || refuse 'the name of the program is empty'
    program=("$@")
}

# is_block BYTES: a power of two, of which no bit stands in the number below it.
is_block() {
    [[ $1 =~ ^[1-9][0-9]{0,3}$ ]] && [ "$1" -le 4096 ] && [ $(($1 & ($1 - 1))) -eq 0 ]
}

check_split() {
    [ -z "$split" ] || is_block "$split" ||
        refuse "--split: not a power of two from 1 to 4096: '$split'"
}
