# The words of a call of sweep. Read by sweep.
# shellcheck shell=bash disable=SC2154,SC2034  # names that sweep and its other files set, or use

fixed=()
declare -A fixed_values=()
varied=()
values=()
tied=()
leads=()
# The options that no value stands behind. They may be none of the simulator's.
lacking=()
traces=()
jobs=
log=
restarts=
full=
hosts=
task=
tasks=
into=
gather=

# The options of sweep itself that have one value, each with the variable that gets it.
declare -A own=([--jobs]=jobs [--resume]=log [--hosts]=hosts [--task]=task [--into]=into
    [--gather]=gather)

# once OPTION: it was not given before.
declare -A once_given=()
once() {
    [ -z "${once_given[$1]-}" ] || refuse "$1 is given twice"
    once_given[$1]=yes
}

# take OPTION VALUES: neither has a character that a shell could take for its own.
take() {
    local value='[A-Za-z0-9][A-Za-z0-9.+_-]*'
    [[ $1 =~ ^--[a-z0-9-]+$ ]] || refuse "unknown option: $1"
    once "$1"
    [[ $2 =~ ^$value(,$value)*$ ]] || refuse "$1: no such value: '$2'"
}

# is_size OPTION: its values are numbers of bytes, which may have a unit.
is_size() {
    [[ $1 == *size ]]
}

# find_number OPTION VALUE: sets `number` to what the simulator reads, or to the value itself where
# that is no number.
find_number() {
    local unit
    number=$2
    [[ $2 =~ ^([0-9]{1,12})([kKmM]?)$ ]] || return 0
    unit=${BASH_REMATCH[2]}
    [ -z "$unit" ] || is_size "$1" || return 0
    number=$((10#${BASH_REMATCH[1]}))
    [[ $unit != [kK] ]] || number=$((number * 1024))
    [[ $unit != [mM] ]] || number=$((number * 1048576))
}

# vary OPTION VALUES
vary() {
    local value number
    local -A seen=()
    take "$1" "$2"
    for value in ${2//,/ }; do
        find_number "$1" "$value"
        [ "${seen[$number]-}" != "$value" ] || refuse "$1: $value stands there twice"
        [ -z "${seen[$number]-}" ] || refuse "$1: ${seen[$number]} and $value are one value"
        seen[$number]=$value
    done
    varied+=("$1")
    values+=("$2")
}

# tie OPTION=OPTION: the hyphens in front may be left out.
tie() {
    local name='(--)?([a-z0-9][a-z0-9-]*)' option lead
    [[ $1 =~ ^$name=$name$ ]] || refuse "--with: not OPTION=OPTION: '$1'"
    option=--${BASH_REMATCH[2]} lead=--${BASH_REMATCH[4]}
    once "$option"
    tied+=("$option")
    leads+=("$lead")
}

# set_once NAME OPTION VALUE: sets the variable of this name, which is empty before.
set_once() {
    [ -n "$3" ] || refuse "$2 has no value"
    [ -z "${!1}" ] || refuse "$2 is given twice"
    printf -v "$1" %s "$3"
}

# set_word OPTION VALUE
set_word() {
    if [ "$1" = --with ]; then
        tie "$2"
    elif [ -n "${own[$1]-}" ]; then
        set_once "${own[$1]}" "$@"
    else
        take "$1" "$2"
        [[ $2 != *,* ]] || refuse "$1 has several values, but no --vary before it"
        fixed+=("$1" "$2")
        fixed_values[$1]=$2
    fi
}

# need_value OPTION WORD..: a value stands behind it, or it may be one of the simulator's. A word
# with two hyphens in front is no value but the next option, unless an option is wanted, or it is
# joined to this one by an equals sign.
need_value() {
    local next=${2-"--"} last=${3-"--"}
    case $1 in
    --vary)
        [[ $next == *=* ]] || [[ $next != -- && $last != --* ]] ||
            refuse '--vary has no values'
        ;;
    --with) [ "$next" != -- ] || refuse "$1 has no value" ;;
    *)
        [ -z "$is_joined" ] && [[ $next == --* ]] || return 0
        [ -z "${own[$1]-}" ] || refuse "$1 has no value"
        return 1
        ;;
    esac
}

parse() {
    local is_joined=
    while [ $# -gt 0 ]; do
        case $1 in
        -h | --help) show_help ;;
        --)
            traces=("${@:2}")
            return
            ;;
        --version) refuse '--version has to be the first word' ;;
        --restart=* | --full=*) refuse "${1%%=*} takes no value" ;;
        --restart) once "$1" && restarts=yes && shift && continue ;;
        --full) once "$1" && full=--full && shift && continue ;;
        --*=*)
            set -- "${1%%=*}" "${1#*=}" "${@:2}"
            is_joined=yes
            continue
            ;;
        --*) need_value "$@" || { lacking+=("$1") && shift && continue; } ;;
        *) refuse "unknown word: $1 (traces stand behind --)" ;;
        esac
        is_joined=
        if [ "$1" = --vary ]; then
            [[ $2 != *=* ]] || set -- --vary "${2%%=*}" "${2#*=}" "${@:3}"
            [[ $2 == -* ]] || set -- --vary "--$2" "${@:3}"
            vary "$2" "$3"
            shift
        else
            set_word "$1" "$2"
        fi
        shift 2
    done
}

is_number() {
    [[ $1 =~ ^[1-9][0-9]{0,8}$ ]]
}

# find_options: sets `options` to those of the simulator's that say what is counted, as its help has
# them, a line for each: its name, and its default if it has one.
find_options() {
    local help lines line name
    if ! { finish help && mapfile -t lines < "$work/help"; } 2>/dev/null; then
        be_sure
        help=$("$program" --help)
        mapfile -t lines <<<"$help"
    fi
    for line in "${lines[@]}"; do
        [[ $line == ' '*' --'*' <'*'>  '* ]] || continue
        name=${line#*--}
        name=${name%% *}
        [ "$name" != threads ] || continue
        if [[ $line == *'[default: '*']' ]]; then
            line=${line##*'[default: '}
            name+=" ${line%']'}"
        fi
        options+=${options:+$'\n'}$name
    done
}

check_words() {
    local i
    find_options
    check_options
    [ -z "$jobs" ] || is_number "$jobs" || refuse "--jobs: not a number of runs: '$jobs'"
    [ "${task:+task}" = "${into:+task}" ] || refuse '--task and --into go together'
    [ -z "$restarts" ] || [ -n "$log" ] || refuse '--restart goes with --resume'
    [ -z "$task" ] || check_alone
    [ ${#varied[@]} -gt 0 ] || refuse 'no option is varied (one value behind --vary is enough)'
    [ ${#traces[@]} -gt 0 ] || refuse 'no trace is given'
    for i in "${!tied[@]}"; do
        [[ " ${varied[*]} " == *" ${leads[i]} "* ]] ||
            refuse "--with: ${leads[i]} is not varied"
    done
    check_required
    [ -z "$task" ] || check_task
}

# check_alone: a task runs here, and has no log.
check_alone() {
    [ -z "$jobs" ] || refuse '--jobs does not go with --task'
    [ -z "$hosts" ] || refuse '--hosts does not go with --task'
    [ -z "$log" ] || refuse '--resume does not go with --task'
}

# check_options: the simulator has each that is given, and each has a value.
check_options() {
    local option known=' '
    while read -r option _; do
        known+="--$option "
    done <<<"$options"
    for option in "${fixed[@]}" "${varied[@]}" "${tied[@]}" "${lacking[@]}"; do
        [[ $option == --* ]] || continue
        [ "$option" != --ring ] ||
            refuse '--ring is an option of dinero_pipe, and changes no count'
        [ "$option" != --threads ] ||
            refuse '--threads: each run has one thread, and --jobs says how many run at once'
        [[ $known == *" $option "* ]] || refuse "unknown option: $option"
    done
    [ ${#lacking[@]} -eq 0 ] || refuse "${lacking[0]} has no value"
}

# check_required: each option that the simulator requires is given.
check_required() {
    local option value given=" ${fixed[*]} ${varied[*]} ${tied[*]} "
    while read -r option value; do
        [ -n "$value" ] || [[ $given == *" --$option "* ]] || refuse "--$option is required"
    done <<<"$options"
}

# check_task: sets `task` and `tasks` to the numbers of N/M, or of a configuration and of all.
check_task() {
    local list one
    [[ $task =~ ^([1-9][0-9]{0,8})(/([1-9][0-9]{0,8}))?$ ]] ||
        refuse "--task: neither N nor N/M: '$task'"
    task=${BASH_REMATCH[1]} tasks=${BASH_REMATCH[3]}
    cells=${#traces[@]}
    for list in "${values[@]}"; do
        IFS=, read -ra one <<<"$list"
        cells=$((cells * ${#one[@]}))
    done
    [ "${tasks:=$cells}" -le "$cells" ] ||
        refuse "--task: the grid has $cells configurations, which are no $tasks parts"
    [ "$task" -le "$tasks" ] || [ "$tasks" -ne "$cells" ] ||
        refuse "--task: the grid has $cells configurations, and no $task"
    [ "$task" -le "$tasks" ] || refuse "--task: there is no part $task of $tasks"
}
