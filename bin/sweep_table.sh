# The table of a sweep. Read by sweep.
# shellcheck shell=bash disable=SC2154,SC2034  # names that sweep and its other files set, or use

# The number of the next line, how many lines have a fault, the first of them and its fault, and how
# many lines the grid has.
next=0
faults=0
first_fault=
last=0

# put_lines: those that sweep_table.awk has made: each that can follow the last one, as soon as its
# row and all before it are there.
put_lines() {
    local some first lines status=0 fault table
    { IFS=$'\t' read -r some last first && mapfile lines; } < "$work/lines.$call" 2>/dev/null ||
        no_room
    faults=$((faults + some))
    [ -n "$first_fault" ] || first_fault=$first
    next=$((next + ${#lines[@]}))
    [ ${#lines[@]} -gt 0 ] || return 0
    exec {table}>&1
    fault=$(printf %s "${lines[@]}" 2>&1 >&"$table") || status=$?
    exec {table}>&-
    # If its reader has gone away, a command ends so.
    [ "$status" -ne 141 ] || exit 141
    [ "$status" -eq 0 ] || die 4 "the table could not be written: ${fault##*: }"
}

# put_last_lines: also those that have no row.
put_last_lines() {
    of_grid table part=rows "from=$next" all=yes "$work/pending" 2>/dev/null || no_room
    put_lines
}

# read_runs PROGRAMS N..: puts into the file `rows` those of the runs that another run of the same
# would make again, and sets `verdicts` to a line for each run.
read_runs() {
    local number list=
    for number in "${@:2}"; do
        list+=$number$'\t'${run_lines[number - 1]}$'\n'
    done
    { of_grid "$1" part=run - part=rows "from=$next" "$work/pending" <<<"${list%$'\n'}" &&
        mapfile -t verdicts < "$work/verdict.$call" && [ ${#verdicts[@]} -eq $(($# - 1)) ]; } \
        2>/dev/null || no_room
}

# read_verdict N VERDICT: sets `ended`, `fault` and `trace` to those of the run.
read_verdict() {
    ended=${2%%$'\t'*} fault=${2#*$'\t'}
    trace=${traces[${run_lines[$1 - 1]%%$'\t'*} - 1]}
}

# tell_fault: that of a run, once.
told=$'\n'
tell_fault() {
    if [ "$fault" != - ] && [[ $told != *$'\n'"$trace: $fault"$'\n'* ]]; then
        complain "$trace: $fault"
        told+="$trace: $fault"$'\n'
    fi
}

# take_in N..: runs that have ended. Only what another run would say again is kept in the log.
take_in() {
    local number i=0
    check_traces
    read_runs 'rows table' "$@"
    [ -z "$log" ] || [ ! -s "$work/rows.$call" ] || keep "$work/rows.$call"
    for number; do
        read_verdict "$number" "${verdicts[i++]}"
        [ "$ended" = whole ] || end_where_full "raw.$number"
        { : > "$work/raw.$number"; } 2>/dev/null || true
        tell_fault
    done
    put_lines
}

# tell_faults WHAT ALL FIRST: how many of all configurations have one, if any has, and the first.
tell_faults() {
    [ "$faults" -gt 0 ] || return 0
    complain "$1 with a fault: $faults of $2, the first$3"
    exit 1
}

tell_faults_of_table() {
    tell_faults configurations "$last" " in line ${first_fault%%$'\t'*} of the table: \
${first_fault#*$'\t'} (column fault)"
}

tell_faults_of_task() {
    local rows row
    mapfile -t rows < "$work/kept"
    for row in "${rows[@]}"; do
        [[ $row != *$'\t-' ]] || continue
        faults=$((faults + 1))
        [ -n "$first_fault" ] || first_fault=${row##*$'\t'}
    done
    tell_faults "configurations of task $task" "${#rows[@]}" ": $first_fault"
}

gather_table() {
    local file added files=() ends=(0)
    { [ -z "$log$restarts$full$hosts$jobs$task$into" ] &&
        [ -z "${fixed[*]}${varied[*]}${tied[*]}${lacking[*]}${traces[*]}" ]; } ||
        refuse '--gather takes no other words'
    choose_folder "$gather"
    described=$store/grid
    [ "$({ head -n 1 "$described" | cut -f 1; } 2>/dev/null)" = counts ] ||
        die 4 "no folder of rows: $gather"
    grep -q $'^trace\t' "$described" || die 4 "$described is damaged"
    { : > "$work/pending"; } 2>/dev/null || no_room
    for file in "$store"/*; do
        [[ ${file##*/} =~ ^[0-9]+(-([0-9]+))?$ ]] || continue
        note_tasks "${BASH_REMATCH[2]:-all}"
        add_rows "$file" "$work/pending"
        files+=("$file") ends+=($((ends[-1] + added)))
    done
    check_gathered
    find_missing
    put_last_lines
    [ -z "$missing" ] || tell_missing
    tell_faults_of_table
}

# add_rows FILE TARGET: its whole lines, and sets `added` to how many these are. What stands behind
# the last line feed is a part of a row, as a copy may have it that was cut off.
add_rows() {
    { [ -f "$1" ] && [ -r "$1" ]; } || die 4 "$1 can't be read"
    { added=$(wc -l < "$1") && head -n "$added" -- "$1" >> "$2"; } 2>/dev/null || no_room
}

# check_gathered: ends the command where the counts of a row do not agree with one another, or two
# rows of one configuration differ.
check_gathered() {
    local what some at first
    { of_grid 'counts gather' part=gathered "$work/pending" &&
        IFS=$'\t' read -r what some < "$work/verdict.$call"; } 2>/dev/null || no_room
    case $what in
    damaged)
        find_line "$some"
        die 4 "$at is damaged: its counts do not agree; make its task again"
        ;;
    differ)
        find_line "${some%$'\t'*}"
        first=$at
        find_line "${some#*$'\t'}"
        die 4 "$first and $at are of one configuration, and differ; make their tasks again"
        ;;
    esac
}

# find_line NUMBER: of all lines that were gathered. Sets `at` to its file, and to its number there:
# `ends` has the number of the last line before each file.
find_line() {
    local i=0
    while [ "$1" -gt "${ends[i + 1]}" ]; do
        i=$((i + 1))
    done
    at="${files[i]}: line $(($1 - ends[i]))"
}

# note_tasks SOME: sets `of` to how many tasks the grid is cut into, or to nothing if the names of
# the files do not agree on that.
of=0
note_tasks() {
    [ "$of" != 0 ] || of=$1
    [ "$of" = "$1" ] || of=
}

# find_missing: sets `missing` to the numbers of the tasks that have not left all of their rows, as
# the option --array of sbatch takes them; or of the configurations without a row, if it is not
# known how many tasks there are.
missing=
find_missing() {
    [[ $of =~ ^(all|[1-9][0-9]*)?$ ]] || return 0
    { of_grid 'plan parts commands' "of=${of:-all}" part=rows "$work/pending" &&
        read -r missing < "$work/missing.$call"; } 2>/dev/null || no_room
}

# tell_missing: these, and what they are numbers of.
tell_missing() {
    if [ -n "$of" ]; then
        complain "of the tasks 1-${of/all/$last}, these have not left all of their rows: $missing"
    else
        complain "tasks of several cuts have left rows in $gather; \
of the configurations 1-$last, these have none: $missing"
    fi
}

# writing_fault FILE: why it can't grow, such as a full disk, if it can't.
writing_fault() {
    local fault
    fault=$({ head -c 8192 /dev/zero >> "$1"; } 2>&1) && fault=
    echo "${fault##*: }"
}

# end_where_stuck: ends the command if no rows can be written.
end_where_stuck() {
    local fault probe=$store/probe.$$
    leftovers+=("$probe")
    fault=$(writing_fault "$probe")
    rm -f -- "$probe"
    [ -z "$fault" ] || die 4 "no rows can be written to $folder: $fault"
}

# end_where_full FILE: ends the command if what a run prints can't be kept. The file, in the folder
# of the sweep, has what the run has printed so far, if that is known.
end_where_full() {
    [ -z "$(writing_fault "$work/$1")" ] || no_room
}
