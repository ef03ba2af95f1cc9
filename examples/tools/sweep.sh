# Tests bin/sweep. Read by tools.sh.
# shellcheck shell=bash disable=SC2154  # names that tools.sh and its other files set

sweep=$bin/sweep
fields=37
cp "$top/examples/1-kinds/kinds.din" kinds.din
cp "$top/examples/3-fifo/trace.din" fifo.din
rest=(--l1-isize 16 --l1-ibsize 4 --l1-dbsize 4 --l2-usize 32 --l2-ubsize 8 --l2-uassoc 2)
# shellcheck disable=SC2054
grid=(--vary --l1-dsize 8,16 --vary --l1-dassoc 1,2 "${rest[@]}")

# A trace that takes some tenths of a second.
awk 'BEGIN { srand(1); for (i = 0; i < 200000; i++) printf "%d %x\n", 3 * rand(), 65536 * rand() }' >long.din
# shellcheck disable=SC2054
long=(--vary --l1-dsize 1k,2k,4k,8k,16k,32k --l1-isize 1k --l1-ibsize 16 --l1-dbsize 16
    --l2-usize 64k --l2-ubsize 16)

# one_by_one TRACE..: the table of the grid, from a report for each configuration.
one_by_one() {
    local trace size ways
    for trace; do
        for size in 8 16; do
            for ways in 1 2; do
                printf '%s\t%s\t%s\t' "$trace" "$size" "$ways"
                "$bin/dinero_pipe" --l1-dsize "$size" --l1-dassoc "$ways" "${rest[@]}" <"$trace" |
                    awk -f "$top/examples/tools/report_row.awk"
            done
        done
    done
}

one_by_one kinds.din fifo.din >"$work/rows"

# shared FILE: the rows of a table, with what a report has too.
shared() {
    awk -f "$top/examples/tools/shared.awk" "$1"
}

is_table_of_rows() {
    [ "$status" -eq 0 ] && [ ! -s "$err" ] && shared "$out" | cmp -s - "$work/rows"
}

names_are_right() {
    local cache names=$'trace\tl1-dsize\tl1-dassoc'
    for cache in l1-icache l1-dcache l2-ucache; do
        names+=$(printf "\t$cache-%s" fetches misses miss-rate compulsory capacity conflict \
            fully-associative-misses blocks-fetched written-back writes-sent-on flushes)
    done
    [ "$(head -n 1 "$out")" = "$names"$'\tfault' ]
}

# rows_of FIELDS: of the table, joined by commas.
rows_of() {
    tail -n +2 "$out" | cut -f "$1" | tr '\t\n' ' ,'
}

run "$sweep" "${grid[@]}" -- kinds.din fifo.din
check 'sweep against reports made one by one' is_table_of_rows
check "the names of sweep's columns" names_are_right

# Misses of lesson 3, worked out by hand: FIFO in the small and the large cache, LRU in both.
run "$sweep" --vary --l1-drepl f,l --vary --l1-dsize 8,16 --l1-dassoc 2 "${rest[@]}" -- fifo.din
[ "$status" -eq 0 ] &&
    [ "$(rows_of 2,3,16)" = 'f 8 6,f 16 7,l 8 7,l 16 6,' ]
verdict 'sweep of a lesson' $?

cp long.din first.din
run "$sweep" "${grid[@]}" -- first.din kinds.din
[ "$status" -eq 0 ] && [ "$(rows_of 1-3)" = \
    'first.din 8 1,first.din 8 2,first.din 16 1,first.din 16 2,kinds.din 8 1,kinds.din 8 2,kinds.din 16 1,kinds.din 16 2,' ]
verdict "sweep's lines stand in the grid's order" $?
rm first.din

run "$sweep" --vary --l1-dsize 16,24,32 --vary --l1-dassoc 4,8 "${rest[@]}" -- kinds.din
first='line 3 of the table: l1-dcache: associativity is too large'
[ "$status" -eq 1 ] && whole_lines "$out" $fields &&
    [ "$(<"$err")" = "sweep: configurations with a fault: 3 of 6, the first in $first (column fault)" ] &&
    [ "$(rows_of 2,3,37)" = \
    '16 4 -,16 8 l1-dcache: associativity is too large,24 4 l1-dcache: size is not a power of two,24 8 l1-dcache: size is not a power of two,32 4 -,32 8 -,' ]
verdict 'sweep goes on behind a refused configuration' $?

printf '2 0\n9 0\n' >faulty.din
run "$sweep" --vary --l1-dsize 8 "${rest[@]}" -- faulty.din kinds.din
[ "$status" -eq 1 ] && [ "$(rows_of 1,36)" = 'faulty.din line 2: label,kinds.din -,' ] &&
    [ "$(<"$err")" = "sweep: faulty.din: line 2: label
sweep: configurations with a fault: 1 of 2, the first in line 2 of the table: \
line 2: label (column fault)" ]
verdict 'sweep of a faulty trace' $?

# refused LINE WORD..: the words are refused so.
refused() {
    ends "sweep: $1" 2 "sweep: $1; try --help" "$sweep" "${@:2}"
}
refused 'no option is varied (one value behind --vary is enough)' "${rest[@]}" -- kinds.din
refused 'no trace is given' "${grid[@]}"
refused 'unknown word: kinds.din (traces stand behind --)' "${grid[@]}" kinds.din
refused 'unknown option: --l3-usize' --l3-usize 4 "${grid[@]}" -- kinds.din
refused 'unknown option: --quick' --vary --quick 1,2 "${grid[@]}" -- kinds.din
refused '--l1-dsize is given twice' --l1-dsize 8 "${grid[@]}" -- kinds.din
refused '--full is given twice' --full --full "${grid[@]}" -- kinds.din
refused '--restart is given twice' --restart --restart --resume log "${grid[@]}" -- kinds.din
refused '--l2-usize is required' "${grid[@]:0:12}" --l2-ubsize 8 -- kinds.din
refused "--l1-dsize: no such value: '8,,16'" --vary --l1-dsize 8,,16 "${rest[@]}" -- kinds.din
refused "--l1-dsize: no such value: '8;ls'" --vary --l1-dsize '8;ls' "${rest[@]}" -- kinds.din
refused '--l1-dsize has several values, but no --vary before it' --l1-dsize 8,16 -- kinds.din
refused '--vary has no values' --vary --l1-dsize
refused "--jobs: not a number of runs: 'all'" --jobs all "${grid[@]}" -- kinds.din
refused "--l1-dsize: no such value: '-8'" --vary --l1-dsize -8 "${rest[@]}" -- kinds.din
refused '--gather takes no other words' --gather tasks "${grid[@]}" -- kinds.din
refused '--task and --into go together' --task 1 "${grid[@]}" -- kinds.din
refused "--task: neither N nor N/M: '0/2'" --task 0/2 --into tasks "${grid[@]}" -- kinds.din
refused '--task: there is no part 3 of 2' --task 3/2 --into tasks "${grid[@]}" -- kinds.din
refused '--task: the grid has 4 configurations, which are no 5 parts' \
    --task 3/5 --into tasks "${grid[@]}" -- kinds.din
refused '--ring is an option of dinero_pipe, and changes no count' \
    --ring 64 "${grid[@]}" -- kinds.din
refused '--threads: each run has one thread, and --jobs says how many run at once' \
    --threads 2 "${grid[@]}" -- kinds.din
refused '--l1-dsize: 8 stands there twice' --vary --l1-dsize 8,16,8 "${rest[@]}" -- kinds.din
refused 'the trace kinds.din is given twice' "${grid[@]}" -- kinds.din fifo.din kinds.din
refused "--l1-drepl: not a lawful letter: 'x'" --vary --l1-drepl l,x "${grid[@]}" -- kinds.din
refused "--l2-urepl: not a lawful letter: 'x'" --l2-urepl x "${grid[@]}" -- kinds.din
ends 'sweep of what is at its own input' 4 \
    'sweep: /dev/stdin is another file for each run of a sweep: give the name of the file itself' \
    "$sweep" "${grid[@]}" -- /dev/stdin
ends 'gathering from nowhere' 4 'sweep: no folder of rows: nowhere' "$sweep" --gather nowhere
to_full 'sweep to a full disk' \
    'sweep: the table could not be written: No space left on device' \
    "$sweep" "${long[@]}" -- long.din
"$sweep" "${long[@]}" -- long.din 2>"$err" | head -n 1 >"$out"
status=${PIPESTATUS[0]}
[ "$status" -eq 141 ] && [ ! -s "$err" ]
verdict 'sweep whose reader goes away' $?

cp kinds.din own.din
status=0
"$sweep" "${grid[@]}" -- own.din >>own.din 2>"$err" || status=$?
[ "$status" -eq 2 ] && [ "$(<"$err")" = 'sweep: own.din is where the table goes; try --help' ] &&
    cmp -s own.din kinds.din
verdict 'sweep whose table goes to its trace' $?

# interrupted NAME SIGNAL WORD..: once the table has the lines of one trace. Ctrl-C goes to the
# whole group.
several=(long.din again.din third.din)
ln -s long.din again.din
# The last one is much longer, so that an interrupt comes before its end on a busy machine, too.
for _ in {1..12}; do cat long.din; done >third.din
interrupted() {
    start "$sweep" "${@:3}" --jobs 1 "${long[@]}" -- "${several[@]}"
    until_true lines_at_least "$out" 7
    if [ "$2" = INT ]; then kill -INT -- "-$started"; else kill "-$2" "$started"; fi
    status=0
    wait "$started" 2>/dev/null || status=$?
    [ "$status" -eq $((128 + $(kill -l "$2"))) ] && whole_lines "$out" 36 &&
        ! lines_at_least "$out" 19 && grep -q '^sweep: interrupted' "$err"
    verdict "$1" $?
}
interrupted 'sweep and Ctrl-C' INT
interrupted 'sweep that is sent TERM' TERM
interrupted 'sweep that is sent HUP' HUP
stopped_in 'sweep and Ctrl-C while its folder is made' INT "$(slow_folders)" \
    "$sweep" "${long[@]}" -- long.din

# finished: the rows of a log, without their counts.
finished() {
    tail -n +2 log | cut -f 1-21
}

test_log() {
    run "$sweep" "${long[@]}" -- "${several[@]}"
    cp "$out" whole
    interrupted 'sweep with a log and Ctrl-C' INT --resume log
    cp log before
    finished >"$work/finished"
    run "$sweep" --resume log --jobs 1 "${long[@]}" -- "${several[@]}"
    # The log begins as it did, and has each configuration once.
    [ "$status" -eq 0 ] && cmp -s "$out" whole && [ -s "$work/finished" ] &&
        head -n "$(wc -l <before)" log | cmp -s - before && [ "$(finished | wc -l)" -eq 18 ] &&
        [ -z "$(finished | sort | uniq -d)" ]
    verdict 'sweep goes on after an interrupt' $?
    cp log before
    run "$sweep" --resume log "${long[@]}" -- "${several[@]}"
    [ "$status" -eq 0 ] && cmp -s "$out" whole && cmp -s log before
    verdict 'a finished sweep runs nothing again' $?
    cp kinds.din no-log
    ends 'a log that is none' 2 'sweep: no-log is no log of a sweep; try --help' \
        "$sweep" --resume no-log "${grid[@]}" -- kinds.din
    cmp -s no-log kinds.din
    verdict 'it is left as it was' $?
    exec {lock}<log
    flock "$lock"
    ends 'a log in use' 4 'sweep: log is written by another sweep' \
        "$sweep" --resume log "${long[@]}" -- "${several[@]}"
    exec {lock}<&-
    ends 'a log where none can be' 4 'sweep: /dev/null/log could not be written: Not a directory' \
        "$sweep" --resume /dev/null/log "${grid[@]}" -- kinds.din
    ends 'a log in no folder' 4 'sweep: no/log could not be written: No such file or directory' \
        "$sweep" --resume no/log "${grid[@]}" -- kinds.din
    ends 'a log that is a folder' 4 "sweep: $PWD could not be written: Is a directory" \
        "$sweep" --resume "$PWD" "${grid[@]}" -- kinds.din
    mkfifo pipe
    ends 'a log that is a pipe' 4 'sweep: pipe could not be written: Not a regular file' \
        timeout 60 "$sweep" --resume pipe "${grid[@]}" -- kinds.din
    rm pipe
}

test_parallel() {
    local nothing
    echo : >machines
    run "$sweep" --hosts machines "${grid[@]}" -- kinds.din fifo.din
    check "sweep over parallel's own host" is_table_of_rows
    ends 'sweep over machines of no list' 4 \
        'sweep: no list of machines to read: nowhere: No such file or directory' \
        "$sweep" --hosts nowhere "${grid[@]}" -- kinds.din
    nothing=$(without parallel)
    run env PATH="$nothing" "$sweep" "${grid[@]}" -- kinds.din fifo.din
    check 'sweep without parallel' is_table_of_rows
    rm -f unlogged
    run env PATH="$nothing" "$sweep" --resume unlogged "${grid[@]}" -- kinds.din fifo.din
    check 'sweep with a log without parallel' is_table_of_rows
    test_refusals_without_parallel "$nothing"
    PATH=$nothing interrupted 'sweep without parallel and Ctrl-C' INT
    PATH=$nothing interrupted 'sweep without parallel that is sent TERM' TERM
}

# test_refusals_without_parallel PATH
test_refusals_without_parallel() {
    ends 'sweep --hosts without parallel' 69 \
        'sweep: --hosts needs GNU parallel: install the package parallel' \
        env PATH="$1" "$sweep" --hosts file "${grid[@]}" -- kinds.din
}

# A server of ssh for this user alone, and a list with this machine's address. What a shell of the
# user's reads at its start may have something to say, so it finds nothing there.
start_sshd() {
    local folder=$work/ssh port=$((20000 + RANDOM % 10000))
    mkdir "$folder"
    [ -d /run/sshd ] || mkdir -p /run/sshd 2>/dev/null
    ssh-keygen -q -t ed25519 -N '' -f "$folder/host"
    ssh-keygen -q -t ed25519 -N '' -f "$folder/user"
    cat >"$folder/conf" <<END
ListenAddress 127.0.0.1:$port
HostKey $folder/host
AuthorizedKeysFile $folder/user.pub
PidFile none
StrictModes no
UsePAM no
PasswordAuthentication no
SetEnv HOME=$folder
END
    env -u TMPDIR "$(command -v sshd)" -D -e -f "$folder/conf" 2>"$folder/log" &
    daemons+=($!)
    cat >"$folder/client" <<END
IdentityFile $folder/user
BatchMode yes
StrictHostKeyChecking no
UserKnownHostsFile $folder/known
LogLevel ERROR
END
    echo "2/127.0.0.1:$port" >machines
    until_true ssh -F "$folder/client" -p $port 127.0.0.1 true 2>/dev/null
}

test_ssh() {
    local before
    if ! start_sshd; then
        skip 'sweep over ssh' 'a login by ssh to this machine'
        return
    fi
    before=$(grep -c '^Accepted publickey' "$work/ssh/log")
    run env PARALLEL_SSH="ssh -F $work/ssh/client" \
        "$sweep" --hosts machines --resume hosts.log "${grid[@]}" -- kinds.din fifo.din
    check 'sweep over ssh' is_table_of_rows
    [ "$(grep -c '^Accepted publickey' "$work/ssh/log")" -gt "$before" ]
    verdict 'its runs were made there' $?
    echo nowhere.invalid >machines
    run "$sweep" --hosts machines "${grid[@]}" -- kinds.din
    [ "$status" -eq 1 ] &&
        [ "$(cut -f 37 "$out" | sort | uniq -c | tr -s ' \n' ' ')" = ' 1 fault 4 not simulated ' ]
    verdict 'sweep over a machine that is not there' $?
}

test_log
if has parallel; then
    test_parallel
    if has ssh && has rsync && PATH=$PATH:/usr/sbin has sshd; then
        PATH=$PATH:/usr/sbin test_ssh
    else
        skip 'sweep over ssh' 'ssh, sshd and rsync (openssh-client, openssh-server, rsync)'
    fi
else
    skip 'hosts' parallel
    test_refusals_without_parallel "$PATH"
fi
