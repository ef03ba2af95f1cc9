# The grid of a sweep, and how it is cut into runs. Read by sweep.
# shellcheck shell=bash disable=SC2154,SC2034  # names that sweep and its other files set, or use

# of_grid PROGRAMS WORD..: programs of awk, which read the grid's description, and then what the
# words say: files, and values of names. The names of the files that they make end in the number
# `call`. A file that was made before would be emptied first, and some file systems write such a one
# to the disk as soon as it is closed.
call=0
of_grid() {
    local program programs=()
    call=$((call + 1))
    for program in grid $1; do
        programs+=(-f "$here/sweep_$program.awk")
    done
    # An awk may fail at its end where its output is closed, though it has printed nothing.
    work=$work call=$call awk "${programs[@]}" "$described" "${@:2}" > /dev/null
}

# find_value OPTION: sets `value`, its default, to that of all rows, or to nothing if they have
# several.
find_value() {
    value=${fixed_values[$1]-$value}
    [[ " ${varied[*]} ${tied[*]} " != *" $1 "* ]] || value=
}

# describe_grid: as sweep_grid.awk reads it.
describe_grid() {
    local name value i
    printf 'counts\t%s\n' "$counts"
    while read -r name value; do
        find_value "--$name"
        printf 'option\t%s\t%s\n' "$name" "$value"
    done <<<"$options"
    for i in "${!varied[@]}"; do
        printf 'vary\t%s\t%s\n' "${varied[i]#--}" "${values[i]}"
    done
    for i in "${!tied[@]}"; do
        printf 'with\t%s\t%s\n' "${tied[i]#--}" "${leads[i]#--}"
    done
    [ -z "$full" ] || printf 'shown\t%s\t%s\t%s\n' "${shown[@]}"
    for i in "${!traces[@]}"; do
        printf 'trace\t%s\t%s\t%s\n' "${sums[i]:--}" "${unpackers[i]}" "${traces[i]}"
    done
}

# state_of TRACE: its size, its time of change, and sums of its first and last MiB. Tasks may run on
# machines that each have a copy of it: for them, a sum of all of it.
state_of() {
    if [ -n "$task" ]; then
        b2sum < "$1"
    else
        stat -L -c '%s %.9Y' -- "$1" && head -c 1M < "$1" | sha256sum && tail -c 1M < "$1" | sha256sum
    fi
}

# find_sums: for each trace one of its state.
sums=()
find_sums() {
    local trace sum
    for trace in "${traces[@]}"; do
        sum=$({ state_of "$trace" | sha256sum; } 2>/dev/null) || no_trace "$trace"
        sums+=("${sum::16}")
    done
}

# find_paths NAME..: sets `paths` to the whole paths of the files, in which any byte may stand.
find_paths() {
    mapfile -d '' -t paths < <(realpath -zm -- "$@" 2>/dev/null)
    [ ${#paths[@]} -eq $# ] || die 4 "$1 has no whole name: is the working folder gone?"
}

# furnish FOLDER: gives the program and the traces their short names in it. The link leads to the
# file that this shell has opened, also where another one is put in its place meanwhile.
furnish() {
    local i path
    ln -s "/proc/$$/fd/$opened" "$1/dinero_grid" || return
    for i in "${!traces[@]}"; do
        path=${traces[i]}
        [[ $path == /* ]] || path=$PWD/$path
        ln -s "$path" "$1/$i.din" || return
    done
}

# furnish_work: the folder of the sweep. Its shell ends behind all that it begins.
furnish_work() {
    trap exit TERM
    : > "$work/pending" && furnish "$work" && { (list_traces) > "$work/begun" || true; }
}

# list_traces: becomes what prints a line for each that is there, by which it is known whether it is
# still the file that it was.
list_traces() {
    local i names=()
    for i in "${!traces[@]}"; do
        names+=("$work/$i.din")
    done
    exec stat -L -c '%d %i %s %.9Y' -- "${names[@]}"
}

# check_traces: ends the command where one is not what it was before the first run. Then it is not
# known what has been counted.
begun=()
check_traces() {
    local i now
    mapfile -t now < <(list_traces 2>/dev/null)
    for i in "${!traces[@]}"; do
        [ "${now[i]-}" = "${begun[i]}" ] || die 4 "${traces[i]} has changed while it was read"
    done
}

# make_work: the folder of the sweep.
make_work() {
    make_temporary
    work=$temporary
    described=$work/grid
}

# prepare: what the log or the rows of a task are of is found out after what the runs are held to.
prepare() {
    local i
    check_values
    { finish links && mapfile -t begun < "$work/begun"; } 2>/dev/null || no_room
    for i in "${!traces[@]}"; do
        [ -e "$work/$i.din" ] || no_trace "${traces[i]}"
    done
    [ -z "$log$task" ] || find_sums
    { describe_grid > "$described"; } 2>/dev/null || no_room
}

# plan PROGRAMS WORD..: the runs that are left to make. The words say how to cut the grid. Sets
# `run_lines` and `commands` to a line for each run and the line of shell that makes it, and `runs`
# to how many there are.
plan() {
    of_grid "$1" "${@:2}" part=rows "$work/pending" 2>/dev/null || no_room
    mapfile -t run_lines < "$work/runs"
    mapfile -t commands < "$work/commands"
    runs=${#run_lines[@]}
}

# claim FOLDER: the folder of the rows is of this grid, from now on or since an earlier call.
claim() {
    local fault
    need cmp diffutils
    choose_folder "$1"
    if ! [ -f "$store/grid" ]; then
        make_store 2> "$work/told" || {
            fault=$(< "$work/told")
            die 4 "the folder $folder could not be made: ${fault##*: }"
        }
        end_where_stuck
        place 644 "$described" "$store/grid"
    fi
    cmp -s "$described" "$store/grid" || refuse_grid
}

# refuse_grid: the folder is of another one than this call: says which trace has changed, or what
# differs first.
refuse_grid() {
    local ours theirs i=0 said there=--full
    grep -q $'^shown\t' "$store/grid" || there=
    [ "$there" = "$full" ] || die 2 "$folder was begun ${there:+with}${full:+without} --full"
    { mapfile -t ours < "$described" && mapfile -t theirs < "$store/grid"; } 2>/dev/null ||
        die 4 "$store/grid can't be read"
    while [ "$i" -lt ${#ours[@]} ] && [ "${ours[i]}" = "${theirs[i]-}" ]; do
        i=$((i + 1))
    done
    say_line "${theirs[i]-}"
    there=$said
    say_line "${ours[i]-}"
    [ "$i" -gt 0 ] || die 2 "$folder is of another simulator"
    [[ $said != 'the trace '* || $said != "$there" ]] ||
        die 2 "${said#the trace } has changed since $folder was begun, or is another file"
    refuse "$folder is of another grid: it has $there, and this call has $said"
}

# say_line LINE: sets `said` to what a line of a description is in a call.
say_line() {
    local word name value
    IFS=$'\t' read -r word name value <<<"$1"
    case $word in
    option) said=${value:+--$name $value} && said=${said:-several values of --$name} ;;
    vary) said="--vary --$name $value" ;;
    with) said="--with --$name=--$value" ;;
    trace) said="the trace ${value#*$'\t'}" ;;
    *) said=nothing ;;
    esac
}

# make_store: the folder of the rows, if it is not there. Sets `made_store` if it makes it.
make_store() {
    mkdir -p -- "${store%/*}/" || return
    [ ! -d "$store" ] || return 0
    made_store=yes
    mkdir -- "$store" || {
        made_store=
        [ -d "$store" ]
    }
}

# choose_folder FOLDER: of the rows. Its name is kept for what is said of it.
choose_folder() {
    local paths
    folder=$1
    find_paths "$folder"
    store=${paths[0]}
}
