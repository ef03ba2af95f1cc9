# Tests what bin/sweep makes of its words: empty ones, repeated ones and other forms of them, lists
# of machines and traces that are no files, and closed streams. Read by tools.sh.
# shellcheck shell=bash disable=SC2054,SC2154  # names that tools.sh and its other files set

for word in --jobs --resume --hosts --task --into --gather; do
    refused "$word has no value" $word '' "${grid[@]}" -- kinds.din
    refused "$word is given twice" $word 1 $word=2 "${grid[@]}" -- kinds.din
done
[ ! -e 1 ]
verdict 'no log is begun' $?

# What stands behind an option is no value of it where it is the next option, or ends the options.
for word in --jobs --resume --hosts --task --into --gather --l1-isize; do
    refused "$word has no value" "${grid[@]:0:6}" "$word"
    refused "$word has no value" "${grid[@]:0:6}" "$word" -- kinds.din
    refused "$word has no value" "$word" --vary l1-dsize=8,16 "${rest[@]}" -- kinds.din
    refused "$word has no value" "$word" --full "${grid[@]}" -- kinds.din
done
for words in --vary '--vary -- kinds.din' '--vary --l1-dsize -- kinds.din' '--vary=l1-dsize' \
    '--vary l1-dsize --jobs 2 -- kinds.din' '--vary=l1-dsize --jobs 2 -- kinds.din'; do
    # shellcheck disable=SC2086  # several words
    refused '--vary has no values' $words
done
refused '--with has no value' "${grid[@]}" --with -- kinds.din
refused '--with has no value' "${grid[@]}" --with
refused "--with: not OPTION=OPTION: '--jobs'" --with --jobs 2 "${grid[@]}" -- kinds.din
# Where an equals sign joins the two, it is one.
run "$sweep" --resume=--log "${grid[@]}" -- kinds.din fifo.din
is_table_of_rows && [ "$(wc -l <./--log)" -eq 9 ]
verdict 'a log whose name is like an option' $?
rm ./--log
[ -z "$(find . -name '-*')" ]
verdict 'no file has the name of an option' $?

# An option that is varied, in the forms that --with takes.
for words in '--vary l1-dsize 8,16 --vary l1-dassoc 1,2' \
    '--vary --l1-dsize=8,16 --vary --l1-dassoc=1,2' '--vary=l1-dsize=8,16 --vary l1-dassoc=1,2'; do
    # shellcheck disable=SC2086  # several words
    run "$sweep" $words "${rest[@]}" -- kinds.din fifo.din
    check "sweep $words" is_table_of_rows
done
refused '--vary has no values' --vary l1-dsize
refused "--l1-dsize: no such value: ''" --vary l1-dsize= "${rest[@]}" -- kinds.din
refused 'unknown option: --quick' --vary quick=1 "${rest[@]}" -- kinds.din

# Values that are no numbers, and why. The simulator's help has the rules.
for words in 'not a number:x' 'not a number:0x40' 'not a number:1.5k' 'not a number:8k8' \
    'more than 12 digits:1234567890123' 'more than 12 digits:0000000000008m' \
    'a unit is k or m, and not kb:8kb' 'a unit is k or m, and not g:1234567890123g'; do
    refused "--l1-dsize: ${words%:*}: '${words#*:}'" --vary "l1-dsize=8,${words#*:}" "${rest[@]}" \
        -- kinds.din
    refused "--l1-dsize: ${words%:*}: '${words#*:}'" --vary l2-uassoc=1 --l1-dsize "${words#*:}" \
        "${rest[@]::10}" -- kinds.din
done
refused "--l1-dassoc: a count has no unit: '2k'" --vary l1-dassoc=1,2k --l1-dsize 8 "${rest[@]}" \
    -- kinds.din
# In one list, each of these pairs is one number. 1024 bytes are 1k, and 1048576 are 1m.
for words in dsize=1k,1024 dsize=1K,1024 dsize=1m,1024k dsize=1048576,1M dsize=64,064 \
    dassoc=08,8; do
    one=${words#*=}
    refused "--l1-${words%=*}: ${one%,*} and ${one#*,} are one value" \
        --vary "l1-$words" "${rest[@]}" -- kinds.din
done
refused '--l1-dsize: 1k and 1024 are one value' --vary l1-dsize=8,1k,64,1024 "${rest[@]}" \
    -- kinds.din
run "$sweep" --vary l1-dsize=64,1k,64k,0000001m "${rest[@]}" -- kinds.din
[ "$status" -eq 0 ] && [ "$(rows_of 2)" = 64,1k,64k,0000001m, ]
verdict 'sweep of values that are four numbers' $?

refused "--jobs: not a number of runs: '0'" --jobs 0 "${grid[@]}" -- kinds.din
for words in '--jobs 2' '--resume 1' '--hosts 1'; do
    # shellcheck disable=SC2086  # several words
    refused "${words% *} does not go with --task" --task 1 --into 1 $words "${grid[@]}" -- kinds.din
done
refused '--restart takes no value' --restart=1 --resume 1 "${grid[@]}" -- kinds.din
refused '--version has to be the first word' "${grid[@]}" --version
# What the simulator does not have is told before what is left out.
refused 'unknown option: --quick' --quick --full "${grid[@]}" -- kinds.din
refused 'unknown option: --quick' "${rest[@]}" --quick
refused 'unknown option: --quick' --quick 2 "${rest[@]}" -- kinds.din
refused '--ring is an option of dinero_pipe, and changes no count' --ring 2 "${rest[@]}" -- kinds.din
refused '--threads: each run has one thread, and --jobs says how many run at once' \
    --threads 2 "${rest[@]}" -- kinds.din
refused '--gather takes no other words' --gather 1 --l1-dsize
[ ! -e 1 ]
verdict 'no log and no folder is made' $?
run "$sweep" --vary l1-dsize 8 "${rest[@]}" -- kinds.din fifo.din
[ "$status" -eq 0 ] && [ ! -s "$err" ] && [ "$(rows_of 1,2)" = 'kinds.din 8,fifo.din 8,' ]
verdict 'sweep of one configuration' $?
refused 'the name of a trace is empty' "${grid[@]}" -- kinds.din ''
ends 'sweep of a trace whose name has a tab' 2 \
    'sweep: the name of a trace has a tab or a line feed; try --help' \
    "$sweep" "${grid[@]}" -- $'x\ty.din'
# lacks REASON TRACE: it can't be read, and the reason is told.
lacks() {
    ends "sweep of no trace: $1" 4 "sweep: no trace to read: $2: $1" \
        "$sweep" "${grid[@]}" -- kinds.din "$2"
}
lacks 'No such file or directory' nowhere.din
lacks 'No such file or directory' 'nowhere: a.din'
lacks 'Not a directory' kinds.din/kinds.din
lacks 'Is a directory' "$work/here"
lacks 'Not a regular file' /dev/null
ends 'sweep of a hyphen' 4 \
    'sweep: - is no file, and a sweep takes files: bin/dinero_grid reads a pipe' \
    "$sweep" "${grid[@]}" -- kinds.din -

# test_private COMMAND..: a trace that nobody may read. Root may read all, so the command makes
# another user of it.
test_private() {
    cp kinds.din private.din && chmod 0 private.din && chmod a+rx "$work" && chmod a+rwx "$TMPDIR"
    ends 'sweep of no trace: Permission denied' 4 \
        'sweep: no trace to read: private.din: Permission denied' \
        "$@" "$sweep" "${grid[@]}" -- private.din
    chmod 755 "$TMPDIR" && rm -f private.din
}
if [ "$(id -u)" -ne 0 ]; then
    test_private env
elif setpriv --reuid 65534 test -x "$sweep"; then
    test_private setpriv --reuid 65534 --regid 65534 --clear-groups
else
    skip 'a trace that nobody may read' 'the rights of root'
fi

# Nothing but files is read several times.
exec {opened}<kinds.din
for name in /dev/fd/$opened /proc/self/fd/$opened; do
    ends "sweep of ${name%/*}" 4 \
        "sweep: $name is another file for each run of a sweep: give the name of the file itself" \
        "$sweep" "${grid[@]}" -- "$name"
done
exec {opened}<&-
mkfifo pipe.din
ends 'sweep of a pipe' 4 \
    'sweep: pipe.din is a pipe, and a sweep takes files: bin/dinero_grid reads a pipe' \
    "$sweep" "${grid[@]}" -- kinds.din pipe.din
rm pipe.din

# A list of machines in which lines stand that name none, without ssh and rsync.
test_lists() {
    local here_alone
    here_alone=$(without rsync)
    printf '# this machine\n\n \n  # twice\n2/:\n' >machines
    run env PATH="$here_alone" "$sweep" --hosts machines "${grid[@]}" -- kinds.din fifo.din
    check 'sweep over a list with comments and empty lines' is_table_of_rows
    run env PATH="$here_alone" "$sweep" --hosts <(cat machines) "${grid[@]}" -- kinds.din fifo.din
    check 'sweep over a list that is a pipe' is_table_of_rows
    ends 'a list of machines that is a folder' 4 \
        "sweep: no list of machines to read: $work: Is a directory" \
        "$sweep" --hosts "$work" "${grid[@]}" -- kinds.din
    printf '# none\n\n' >machines
    ends 'a list of machines that names none' 4 'sweep: no machine stands in machines' \
        "$sweep" --hosts machines "${grid[@]}" -- kinds.din
    printf ' 2/:\t\r' >machines
    run env PATH="$here_alone" "$sweep" --hosts machines "${grid[@]}" -- kinds.din fifo.din
    check 'sweep over a list whose line has blanks around it and no end' is_table_of_rows
}

# names_none LINE [SHOWN]: no machine can have that name, and none of it is run.
names_none() {
    printf ': \n%b\nnode1\n' "$1" >machines
    refused "--hosts: line 2 of machines names no machine: '${2-$1}'" \
        --hosts machines --resume unbegun "${grid[@]}" -- kinds.din
}

# What ssh, parallel or a shell would take for something else than a machine.
test_no_machines() {
    local line
    # shellcheck disable=SC2016  # nothing of these is to be expanded
    for line in -v -oProxyCommand=pwned 2/-v -lroot@node2 'node1,node2' ',' 2/ 0/node2 12345/node2 \
        two/node2 2/2/node2 'ssh node2' '/bin/sh node2' './ssh node2' @node2 me@ me:word@node2 \
        me@you@node2 node2: node2:ssh node2:123456 node2:-1 ::1 '[::1]' 'node2;pwned' '$(pwned)' \
        '$(pwned)@node2' '`pwned`' 'node2|pwned' 'node2&' "node'2" .. - '*' '~' node2#2 \
        @all/node2; do
        names_none "$line"
    done
    names_none 'no\tde2' 'no?de2'
    names_none 'no\x1bde2' 'no?de2'
    names_none 'no\0de2' 'no?de2'
    for line in node2 : me@node2 node2:22; do
        printf '# two\n2/%s\n\n%s\n' "$line" "$line" >machines
        refused "--hosts: $line stands twice in machines" \
            --hosts machines --resume unbegun "${grid[@]}" -- kinds.din
    done
    [ ! -e unbegun ]
    verdict 'no log is begun' $?
}

# A terminal that stops who writes to it from behind.
test_bar() {
    # shellcheck disable=SC2016  # the inner shell's words
    TABLE=$work/table run script -qec 'stty tostop; timeout 60 "$SWEEP" $GRID -- kinds.din fifo.din \
        >"$TABLE"' /dev/null
    [ "$status" -eq 0 ] && grep -q '100%' "$out" && ! grep -q dinero_grid "$out" &&
        shared "$work/table" | cmp -s - "$work/rows"
    verdict 'the bar of a sweep on a terminal that stops those behind' $?
    [ ! -e "$HOME" ]
    verdict "none of the user's folders is made" $?
}

if has parallel; then
    test_lists
    test_no_machines
    if has script; then
        HOME=$work/no-home SWEEP=$sweep GRID=${grid[*]} test_bar
    else
        skip 'the bar of a sweep' script
    fi
else
    skip 'lists of machines' parallel
fi

# What unpacks a trace may have something to say too.
printf '2 0\n9 9\n' | gzip -c >bad.din.gz
run env GZIP=-9 "$sweep" --vary --l1-dsize 8,16 "${rest[@]}" -- bad.din.gz
[ "$status" -eq 1 ] && [ "$(rows_of 36)" = 'line 2: label,line 2: label,' ]
verdict 'the fault of a trace whose unpacker warns' $?
mkdir late
printf '%s\n' '#!/bin/sh' 'gzip -dc' 'echo late >&2' >late/zcat
chmod +x late/zcat
gzip -c kinds.din >late.din.gz
run env PATH="$PWD/late:$PATH" "$sweep" --vary --l1-dsize 8,16 "${rest[@]}" -- late.din.gz
[ "$status" -eq 0 ] && [ ! -s "$err" ] && [ "$(rows_of 36)" = '-,-,' ]
verdict 'a trace whose unpacker says something at its end' $?
rm -r late late.din.gz
gzip -c long.din | head -c 1000 >bad.din.gz
run env GZIP=-9 "$sweep" --vary --l1-dsize 8,16 "${rest[@]}" -- bad.din.gz
reason='zcat ended with status 1: unexpected end of file'
[ "$status" -eq 1 ] && [ "$(rows_of 36)" = "$reason,$reason," ] &&
    [ "$(head -n 1 "$err")" = "sweep: bad.din.gz: $reason" ]
verdict 'what the unpacker of a trace that is cut off says' $?
rm bad.din.gz
cp faulty.din also-faulty.din
run "$sweep" --jobs 1 --vary --l1-dsize 8 "${rest[@]}" -- also-faulty.din faulty.din
[ "$status" -eq 1 ] && [ "$(<"$err")" = "sweep: also-faulty.din: line 2: label
sweep: faulty.din: line 2: label
sweep: configurations with a fault: 2 of 2, the first in line 2 of the table: \
line 2: label (column fault)" ]
verdict 'the faults of traces of which one ends in the name of the other' $?

# closed COMMAND..: its output is closed.
closed() {
    "$@" >&-
}
ends 'sweep whose output is closed' 4 \
    'sweep: the table could not be written: Bad file descriptor' \
    closed "$sweep" "${grid[@]}" -- kinds.din
run closed "$sweep" --task 1/1 --into closed "${grid[@]}" -- kinds.din
[ "$status" -eq 0 ] && [ ! -s "$err" ] && run "$sweep" --gather closed && [ "$status" -eq 0 ] &&
    shared "$out" | cmp -s - <(head -n 4 "$work/rows")
verdict 'a task whose output is closed' $?
rm -r closed
ends 'sweep --help whose output is closed' 4 'sweep: the help text could not be written' \
    closed "$sweep" --help
