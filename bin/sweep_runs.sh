# The runs of a sweep, here and on other machines. Read by sweep.
# shellcheck shell=bash disable=SC2154,SC2034  # names that sweep and its other files set, or use

# What a shell does, in the folder of the sweep, to make a run, whose number and line of shell it is
# given. It leaves what the run prints in the file `raw.N`, and says the number at the end. The run
# has a shell of its own: if that is killed, this one goes on, since xargs makes no other run behind
# one that a signal has ended. Without `|| :`, dash would forget the first of both redirections.
# shellcheck disable=SC2016  # the inner shell's words
one_run='{ (eval "$2") > "raw.$1" || :; } 2>/dev/null; echo "$1"'

run_with_xargs() {
    local number
    for ((number = 1; number <= runs; number++)); do
        printf '%s\0' "$number" "${commands[number - 1]}"
    done | (cd "$work" && exec xargs -0 -P "$slots" -n 2 sh -c "$one_run" run)
}

# parallel logs each run as it ends, and keeps what it printed. It takes braces in the name of a
# file for its own, and runs what stands in them; so it is given names of ours. Its bar shows what
# it is given for a run: the number. It tries out how many processes there can be, so it is asked
# for no more of them than there are runs.
run_with_parallel() {
    local number words=(--plain --joblog joblog --results 'raw.{#}')
    [ -z "$jobs" ] || words+=(--jobs $((jobs < runs ? jobs : runs)))
    [ ! -t 2 ] || words+=(--bar)
    [ -z "$hosts" ] || words+=("${host_words[@]}")
    cd "$work" && : > joblog || return
    # A terminal may stop who writes to it from behind, and the bar would stand still for ever.
    trap '' TTOU
    # What it finds out about a machine goes into the folder of the sweep, and not into that of the
    # user.
    # shellcheck disable=SC2016  # the inner shell's words
    PARALLEL_HOME=$work/parallel TMPDIR=${work%/*} PARALLEL_SHELL=/bin/sh parallel "${words[@]}" \
        'eval "$(sed -n {}p commands)"' < <(seq "$runs") > /dev/null &
    tail --pid $! -s 0.1 -n +1 -f joblog |
        while IFS=$'\t' read -r number _; do
            ! is_number "$number" || echo "$number"
        done
}

# A line of a list of machines: how many runs one makes at once, if that is said; and `:`, which is
# this machine, or the name of another one, with the user before it and the port behind it, if these
# are said. parallel puts them into a line of shell as they stand.
machine_name='[A-Za-z0-9_][A-Za-z0-9._-]*'
machine_form="^(([1-9][0-9]{0,3})/)?(:|($machine_name@)?$machine_name(:[1-9][0-9]{0,4})?)\$"

# read_machines: sets `machines` to the lines of the list that are neither empty nor comments. It is
# read once, since it may be a pipe.
machines=()
read_machines() {
    local line name number=0
    local -A named=()
    while IFS= read -r line || [ -n "$line" ]; do
        number=$((number + 1))
        line=${line#"${line%%[![:space:]]*}"}
        line=${line%"${line##*[![:space:]]}"}
        [[ -n $line && $line != '#'* ]] || continue
        [[ $line =~ $machine_form ]] ||
            refuse "--hosts: line $number of $hosts names no machine: '${line//[[:cntrl:]]/?}'"
        name=${BASH_REMATCH[3]}
        [ -z "${named[$name]-}" ] || refuse "--hosts: $name stands twice in $hosts"
        named[$name]=yes
        machines+=("$line")
    done < <(tr '\0' '?' < "$hosts")
    [ ${#machines[@]} -gt 0 ] || die 4 "no machine stands in $hosts"
}

# list_machines: for parallel, with as many runs at once as there are, or fewer.
list_machines() {
    local machine
    for machine in "${machines[@]}"; do
        [[ $machine != */* ]] || [ "${machine%%/*}" -le "$runs" ] || machine=$runs/${machine#*/}
        echo "$machine"
    done
}

# On each machine the runs are made in a folder of one name: here it has links, elsewhere copies. It
# is not the folder that is copied, since a list may name this machine by its address too.
host_words=()
choose_hosts() {
    local name site=$work
    # Other machines' shells, and parallel, could take other characters for their own.
    if [[ $site =~ [^A-Za-z0-9/._-] ]]; then
        TMPDIR=/tmp make_temporary
        site=$temporary
    fi
    { mkdir "$site/host" && furnish "$site/host" && ln -s "$work/commands" "$site/host/commands" &&
        list_machines > "$work/hosts"; } 2>/dev/null || no_room
    host_words=(--sshloginfile hosts --workdir "$site/host")
    grep -qvE '^([0-9]+/)?:$' "$work/hosts" || return 0
    need ssh openssh-client
    need rsync rsync
    # What can't be reached has its runs made by another machine: no run fails for another reason.
    # Each machine may be tried.
    host_words+=(--retries $((${#machines[@]} + 1)))
    host_words+=(--basefile dinero_grid --basefile commands --cleanup --rsync-opts -rLDzR)
    for name in "${!traces[@]}"; do
        host_words+=(--basefile "$name.din")
    done
}

count_cores() {
    exec "${cores[@]}" > "$work/cores"
}

# find_slots: sets `slots` to how many runs can be made at once. A machine of the list that does not
# say how many has as many cores as this one.
find_slots() {
    local machine each
    slots=$jobs
    [ -n "$jobs" ] || { finish cores && read -r slots < "$work/cores"; } 2>/dev/null || no_room
    [ -n "$hosts" ] || return 0
    each=$slots slots=0
    for machine in "${machines[@]}"; do
        if [ -z "$jobs" ] && [[ $machine == */* ]]; then
            slots=$((slots + ${machine%%/*}))
        else
            slots=$((slots + each))
        fi
    done
}

has_parallel() {
    parallel --version 2>/dev/null | grep -q '^GNU parallel'
}

# choose_engine: parallel takes longer to start than xargs, but knows of other machines, and shows
# the progress.
choose_engine() {
    engine=run_with_xargs
    [ -n "$hosts" ] || [ -t 2 ] || return 0
    if has_parallel; then
        engine=run_with_parallel
    elif [ -n "$hosts" ]; then
        die 69 '--hosts needs GNU parallel: install the package parallel'
    fi
}

# begin_runs: here or on other machines. Sets `finished` to the end of the pipe that tells of them.
begin_runs() {
    local both
    # A pipe without a name. It is opened for both ends first: none waits for the other, which may
    # have been interrupted.
    exec {both}<> <(:)
    begin runs run_engine
    exec {finished}< "/dev/fd/$both" {both}>&-
}

# take_runs: takes in what each has to say, as soon as it has ended; at the end, also those that
# were not heard of.
take_runs() {
    local number some heard=()
    while read_ended; do
        for number in "${some[@]}"; do
            heard[number]=yes
        done
        take_in "${some[@]}"
    done <&"$finished"
    exec {finished}<&-
    finish runs || true
    some=()
    for ((number = 1; number <= runs; number++)); do
        [ -n "${heard[number]-}" ] || some+=("$number")
    done
    [ ${#some[@]} -eq 0 ] || take_in "${some[@]}"
}

# run_engine: the runs do not hold the log, so that another call can go on from it as soon as this
# one has ended.
run_engine() {
    [ -z "$log_lock" ] || exec {log_lock}>&-
    "$engine" > "/dev/fd/$both" {both}>&-
}

# read_ended: waits for the end of a run, and sets `some` to its number and those of all that have
# ended by then.
read_ended() {
    local number
    some=()
    read -r number || return
    some+=("$number")
    while read -rt 0 && read -r number; do
        some+=("$number")
    done
}

# name_rows: sets `rows_name` to what the file of the task's rows is called.
name_rows() {
    rows_name=$task
    [ "$tasks" -eq "$cells" ] || rows_name=$task-$tasks
}

# one_task: its rows are kept as soon as a run of it has ended. Those of an earlier call stay until
# all are there anew.
one_task() {
    local number rows_name
    name_rows
    claim "$into"
    plan 'plan parts commands' "task=$task" "tasks=$tasks"
    take_earlier "$store/$rows_name"
    : > "$work/kept"
    for ((number = 1; number <= runs; number++)); do
        (cd "$work" && exec sh -c "$one_run" run "$number" "${commands[number - 1]}") > /dev/null ||
            true
        check_traces
        read_runs rows "$number"
        read_verdict "$number" "${verdicts[0]}"
        [ "$ended" = whole ] || end_where_full "raw.$number"
        tell_fault
        if [ "$ended" != whole ]; then
            end_where_stuck
            die 4 "task $task has not all of its rows"
        fi
        [ "$number" -lt "$runs" ] || : > "$work/earlier"
        keep_for_task "$store/$rows_name"
    done
    tell_faults_of_task
}

# take_earlier FILE: what an earlier call of the task has left there.
take_earlier() {
    { : > "$work/earlier"; } 2>/dev/null || no_room
    [ ! -f "$1" ] || add_rows "$1" "$work/earlier"
}

# keep_for_task FILE: puts there the rows of the run that has ended, behind those of the runs before
# it and of an earlier call.
keep_for_task() {
    { cat "$work/rows.$call" >> "$work/kept" &&
        awk '!given[$0]++' "$work/earlier" "$work/kept" > "$work/rows"; } 2>/dev/null || no_room
    place 644 "$work/rows" "$1"
}
