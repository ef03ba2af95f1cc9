# What a sweep asks the simulator before any run: its options, and whether it takes the values of
# each that has several. Read by sweep.
# shellcheck shell=bash disable=SC2154,SC2034  # names that sweep and its other files set, or use

# ask: begins all of it. It may yet turn out that the simulator is of other sources.
ask() {
    local i list
    begin help ask_for_help
    for i in "${!varied[@]}"; do
        begin "${varied[i]}" run_trial "${varied[i]}" "${values[i]}"
    done
    for i in "${!tied[@]}"; do
        find_list "${leads[i]}"
        begin "${tied[i]}" run_trial "${tied[i]}" "$list"
    done
} 2>/dev/null

ask_for_help() {
    exec "$program" --help > "$work/help"
}

# find_words OPTION VALUES: sets `words` to these values, and the first one of each other option
# that has several. All values of all options at once could be more than the memory holds.
find_words() {
    local i list
    words=("${fixed[@]}")
    for i in "${!varied[@]}"; do
        [ "${varied[i]}" = "$1" ] || words+=("${varied[i]}" "${values[i]%%,*}")
    done
    for i in "${!tied[@]}"; do
        find_list "${leads[i]}"
        [ "${tied[i]}" = "$1" ] || words+=("${tied[i]}" "${list%%,*}")
    done
    words+=("$1" "$2")
}

# run_trial OPTION VALUES: becomes the simulator with these words, on a trace without records. Its
# table, with a line for each value, is in a file that is named for the option.
run_trial() {
    local words
    find_words "$@"
    exec "$program" --threads 1 ${full:+"$full"} "${words[@]}" \
        < /dev/null > "$work/tried$1" 2> "$work/told$1"
}

# refuse_value OPTION VALUE: in the words of the simulator, which has refused this trial. They begin
# with an option: what its value is, and where it is from, is added.
refuse_value() {
    local i fault words
    fault=$(sed 's/^dinero_grid: //; q' "$work/told$1")
    find_words "$@"
    for ((i = 0; i < ${#words[@]}; i += 2)); do
        [ "${words[i]}" = "${fault%%:*}" ] || continue
        [ "$fault" != "${words[i]}: not a number" ] || explain "${words[i]}" "${words[i + 1]}"
        fault+=": '${words[i + 1]}'"
    done
    for i in "${!tied[@]}"; do
        [ "${tied[i]}" != "${fault%%:*}" ] || fault+=" (from ${leads[i]})"
    done
    refuse "$fault"
}

# explain OPTION VALUE: puts into `fault` why this is no number, where its form tells it.
explain() {
    local unit=
    [[ ! $2 =~ ^[0-9]+([A-Za-z]+)$ ]] || unit=${BASH_REMATCH[1]}
    if [ -n "$unit" ] && ! is_size "$1"; then
        fault="$1: a count has no unit"
    elif [ -n "$unit" ] && [[ $unit != [kKmM] ]]; then
        fault="$1: a unit is k or m, and not $unit"
    elif [[ $2 =~ ^[0-9]{13} ]]; then
        fault="$1: more than 12 digits"
    fi
}

# try OPTION VALUES: the same, and refuses what the simulator does.
try() {
    local status=0
    (run_trial "$@") || status=$?
    case $status in
    0 | 5) ;;
    2) refuse_value "$@" ;;
    *)
        end_where_full "tried$1"
        die 4 "the simulator failed with status $status: $(< "$work/told$1")"
        ;;
    esac
}

# find_list OPTION: sets `list` to the values of one that is varied.
find_list() {
    local i
    list=
    for i in "${!varied[@]}"; do
        [ "${varied[i]}" != "$1" ] || list=${values[i]}
    done
}

# find_counts: sets `counts` to the names of the columns behind those of options, in the tables that
# were tried.
find_counts() {
    local name
    IFS= read -r counts < "$work/tried${varied[0]}"
    while read -r name _; do
        counts=${counts#"$name"$'\t'}
    done <<<"$options"
}

# check_values: one that the simulator can't read would spoil all rows of a run, so it is refused
# before any.
check_values() {
    local i list
    for i in "${!varied[@]}"; do
        try_values "${varied[i]}" "${values[i]}"
    done
    for i in "${!tied[@]}"; do
        find_list "${leads[i]}"
        try_values "${tied[i]}" "$list"
    done
    find_counts
    [ -z "$full" ] || note_shared
}

# How many values the simulator takes at once: the greatest size of a grid.
most_at_once=4096

# try_values OPTION LIST: all at once where the simulator takes them, or else in lists of as many as
# it may take.
try_values() {
    local status=0 all=() i
    finish "$1" || status=$?
    ! is_taken "$1" "$2" "$status" || return 0
    for i in ${2//,/ }; do
        all+=("$i")
    done
    for ((i = 0; i < ${#all[@]}; i += most_at_once)); do
        try_part "$1" "${all[@]:i:most_at_once}"
    done
}

# is_taken OPTION LIST STATUS: the trial that has ended says so. Then it is noted.
is_taken() {
    [ "$3" -eq 0 ] || [ "$3" -eq 5 ] || return
    [ -z "$full" ] || note_shown "${1#--}" "$2"
}

# try_part OPTION VALUE..: these of `all`, and what the simulator does not take at once, one by one:
# some options take no list. It has refused all of them before.
try_part() {
    local status=0 value list
    list=$(IFS=, && echo "${*:2}")
    if [ ${#all[@]} -ge $# ]; then
        (run_trial "$1" "$list") || status=$?
        ! is_taken "$1" "$list" "$status" || return 0
    fi
    for value in "${@:2}"; do
        try "$1" "$value"
        [ -z "$full" ] || note_shown "${1#--}" "$value"
    done
}

# note_shown NAME LIST: adds to `shown`, for each of the values that were tried, the name, the
# value, and how a full table has it.
shown=()
note_shown() {
    local name value row at=0
    while read -r name _ && [ "$name" != "$1" ]; do
        at=$((at + 1))
    done <<<"$options"
    {
        read -r _
        for value in ${2//,/ }; do
            IFS=$'\t' read -ra row
            shown+=("$1" "$value" "${row[at]}")
        done
    } < "$work/tried--$1"
}

# note_shared: the same, in front of those, for each value that all rows have.
note_shared() {
    local name value row shared=() at=0
    { read -r _ && IFS=$'\t' read -ra row; } < "$work/tried${varied[0]}"
    while read -r name value; do
        find_value "--$name"
        [ -z "$value" ] || shared+=("$name" "$value" "${row[at]}")
        at=$((at + 1))
    done <<<"$options"
    shown=("${shared[@]}" "${shown[@]}")
}
