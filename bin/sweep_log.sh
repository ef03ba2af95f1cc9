# The log of a sweep, from which a call goes on: the whole rows of all runs that have ended, with a
# line of names. Read by sweep.
# shellcheck shell=bash disable=SC2154,SC2034  # names that sweep and its other files set, or use

keeps_log=
log_lock=

# log_names: the first line of a log.
log_names() {
    local name
    printf 'trace\tsum'
    while read -r name _; do
        printf '\t%s' "$name"
    done <<<"$options"
    printf '\t%s\n' "$counts"
}

# open_log: it is kept from another call that would go on with it.
open_log() {
    local begins fault
    need flock util-linux
    need cmp diffutils
    [ ! "$log" -ef /dev/stdout ] || refuse "--resume: $log is where the table goes"
    # A pipe would have to be waited for.
    [ ! -e "$log" ] || [ -d "$log" ] || [ -f "$log" ] ||
        die 4 "$log could not be written: Not a regular file"
    begins=$({ head -c 10 < "$log" | tr '\0' ' '; } 2>/dev/null) || true
    [[ $'trace\tsum\t' == "$begins"* ]] || refuse "$log is no log of a sweep"
    fault=$({ : >> "$log"; } 2>&1) || die 4 "$log could not be written: ${fault##*: }"
    { exec {log_lock}>>"$log"; } 2>/dev/null || die 4 "$log could not be written"
    flock -n "$log_lock" || die 4 "$log is written by another sweep"
    end_last_line
    log_names > "$work/names" || no_room
    [ -z "$restarts" ] || [ ! -s "$log" ] || restart_log
    if [ -s "$log" ]; then
        read_log
    else
        keep "$work/names"
    fi
    keeps_log=yes
}

# end_last_line: a machine that was shut down may have left half of it, or zeros.
end_last_line() {
    [ -z "$(tail -c 1 < "$log" | tr '\0' 0)" ] || truncate -s "-$(tail -n 1 < "$log" | wc -c)" -- "$log"
}

# judge_log WORD..: sets `what` to what is to be said of the log, and `counted` to the numbers that
# sweep_log.awk has found.
judge_log() {
    {
        of_grid 'counts log' "$@" part=log - < "$log" &&
            { IFS= read -r what && IFS=$'\t' read -ra counted; } < "$work/verdict.$call"
    } 2>/dev/null
}

# find_kept: sets `kept` to how many configurations of the grid are in the log, and what that is
# good for, if it can still be found out.
find_kept() {
    local what counted verb=are
    { end_last_line && judge_log; } 2>/dev/null || return 0
    kept="none of the ${counted[1]} configurations is in $log"
    [ "${counted[0]}" -gt 0 ] || return 0
    [ "${counted[0]}" -ne 1 ] || verb=is
    kept="${counted[0]} of ${counted[1]} configurations $verb in $log"
    kept+='; the same call goes on from there'
}

# read_log: its rows are those of this simulator, and of the traces as they stand.
read_log() {
    local what counted said
    has_names || say_other_names
    judge_log || no_room
    said=${what#*$'\t'}
    case $what in
    good) ;;
    damaged*) die 2 "$log: line $said is damaged; --restart forgets it" ;;
    differ*)
        die 2 "$log: lines ${said/$'\t'/ and } are of one configuration, and differ; \
--restart forgets both"
        ;;
    *)
        die 2 "$said has changed since $log was begun, or is another file; \
--restart forgets its rows"
        ;;
    esac
}

# restart_log: forgets damaged lines and the rows of the traces that have changed, or all of a log
# that is of other options.
restart_log() {
    local what counted left=0 gone
    if has_names; then
        judge_log forgets=yes || no_room
        left=${counted[2]} gone=${counted[3]}
        [ "$gone" -eq 0 ] || replace_log "$work/left.$call"
    else
        gone=$(($(wc -l < "$log") - 1))
        : > "$log"
    fi
    complain "$log: rows kept: $left, forgotten: $gone"
}

# replace_log FILE: puts it into the place of the log, which is whole at any time. No other call
# gets between: the old file stays locked to the end, and the new one is so before it has the name.
replace_log() {
    local paths part fault
    find_paths "$log"
    part=${paths[0]}.part$$
    leftovers+=("$part")
    fault=$({
        exec 2>&1
        cp --attributes-only --preserve=mode,ownership -- "$log" "$part" && cat -- "$1" > "$part"
    }) || die 4 "$log could not be written: ${fault##*: }"
    { exec {log_lock}>>"$part"; } 2>/dev/null || die 4 "$log could not be written"
    flock -n "$log_lock" || die 4 "$log is written by another sweep"
    fault=$(mv -fT -- "$part" "${paths[0]}" 2>&1) ||
        die 4 "$log could not be written: ${fault##*: }"
}

# has_names: the log begins with the names of this sweep.
has_names() {
    head -n 1 < "$log" | cmp -s - "$work/names"
}

# say_other_names: the log is full where this sweep is not, or the other way about; or it is of
# another simulator.
say_other_names() {
    local how=without
    if [ -z "$full" ]; then
        how=with full=--full
    else
        full=
    fi
    try "${varied[0]}" "${values[0]%%,*}"
    find_counts
    log_names > "$work/names" || no_room
    ! has_names || die 2 "$log was begun $how --full; --restart begins anew"
    die 2 "$log is of another simulator; --restart begins anew"
}

# keep FILE: adds its lines to the log.
keep() {
    local fault
    fault=$({ cat "$1" >&"$log_lock"; } 2>&1) ||
        die 4 "$log could not be written: ${fault##*: }"
}
