# Tests bin/sweep with hostile names in each place where a name can stand. Read by tools.sh.
# shellcheck shell=bash disable=SC2016,SC2054,SC2154  # names that tools.sh and its other files set

one=(--vary --l1-dsize 8 --vary --l1-dassoc 1 "${rest[@]}")
paths=('x`touch pwned`$(touch pwned);touch pwned;"' "{=system('touch pwned')=}{#}" '-x=y'
    $'x\ntouch pwned\ny')

# is_row_of TRACE: the table has one line, which is that of kinds.din but for the name.
is_row_of() {
    [ "$status" -eq 0 ] && [ ! -s "$err" ] &&
        [ "$(shared "$out")" = "$1$(head -n 1 "$work/rows" | sed 's/^kinds\.din//')" ]
}

# The name stands for the trace, the folder of temporary files, and what the words say, each named
# from where the command runs, so that it begins as it stands. The second call reads the log.
sweeps() {
    local trace=${1//$'\n'/ } words=(--resume "$1.log")
    mkdir -- "./$1" && cp kinds.din "./$trace.din" && echo : >"./$1.hosts" || return
    ! has parallel || words+=(--hosts "$1.hosts")
    for _ in 1 2; do
        run env TMPDIR="$1" "$sweep" "${words[@]}" "${one[@]}" -- "$trace.din"
        is_row_of "$trace.din" || return
    done
    rmdir -- "./$1" && rm -- "./$trace.din" "./$1.hosts" "./$1.log"
}

# The same for a trace that is packed.
unpacks() {
    local trace=${1//$'\n'/ }
    gzip -c kinds.din >"./$trace.gz" || return
    run "$sweep" "${one[@]}" -- "$trace.gz"
    is_row_of "$trace.gz" && rm -- "./$trace.gz"
}

gathers() {
    run "$sweep" --task 1 --into "$1" "${one[@]}" -- kinds.din
    [ "$status" -eq 0 ] && [ ! -s "$out" ] && [ ! -s "$err" ] || return
    run "$sweep" --gather "$1"
    is_row_of kinds.din && rm -r -- "./$1"
}

# An option and a value that are more than that, though a line or a part of them is known.
refuses_option() {
    run "$sweep" --vary "$1" 8 "${one[@]:3}" -- kinds.din
    [ "$status" -eq 2 ] && [ "$(<"$err")" = "sweep: unknown option: $1; try --help" ] || return
    run "$sweep" --vary --l1-dsize "8$1" "${one[@]:3}" -- kinds.din
    [ "$status" -eq 2 ] &&
        [ "$(<"$err")" = "sweep: --l1-dsize: no such value: '8$1'; try --help" ] || return
    run "$sweep" --with "$1=--l1-dsize" "${one[@]}" -- kinds.din
    [ "$status" -eq 2 ] &&
        [ "$(<"$err")" = "sweep: --with: not OPTION=OPTION: '$1=--l1-dsize'; try --help" ]
}

at_all_names 'sweep with hostile names' sweeps "${paths[@]}"
at_all_names 'sweep of packed traces with hostile names' unpacks "${paths[@]}"
at_all_names 'sweep into folders with hostile names' gathers "${paths[@]}"
at_all_names 'sweep with hostile options' refuses_option $'--l1-dsize\ntouch pwned\n#' \
    '--l1-dsize\|;touch${IFS}pwned;' '--l1-dsize;touch pwned'
ends 'sweep of a trace whose name has a line feed' 2 \
    'sweep: the name of a trace has a tab or a line feed; try --help' \
    "$sweep" "${one[@]}" -- $'x\ntouch pwned'

# A log as somebody else could have made it: the last row has this text in place of a column.
alter_log() {
    rm -f theirs
    run "$sweep" --resume theirs "${one[@]}" -- kinds.din
    TEXT=$1 COLUMN=$2 awk -F '\t' -v OFS='\t' \
        '{ print } NR == 2 { $ENVIRON["COLUMN"] = ENVIRON["TEXT"]; print }' theirs >altered
    mv altered theirs
    run "$sweep" --resume theirs "${one[@]}" -- kinds.din
}

# Such a row is of no configuration of the grid, or of another trace, and what stands in it is data.
reads_log() {
    local column
    for column in 1 3 7 21; do
        alter_log "$1" $column
        is_row_of kinds.din || return
    done
    alter_log "$1" 2
    [ "$status" -eq 2 ] && [ "$(<"$err")" = \
        'sweep: kinds.din has changed since theirs was begun, or is another file; --restart forgets its rows' ] || return
    printf '%s\t:\t0\n' "$1" >>theirs
    run "$sweep" --resume theirs "${one[@]}" -- kinds.din
    [ "$status" -eq 2 ] && [ "$(<"$err")" = 'sweep: theirs: line 4 is damaged; --restart forgets it' ]
}
at_all_names 'sweep with a hostile log' reads_log "${few[@]::4}" 'finished[$(touch pwned)]'

# Each refusal of a cache has its reason in the table, also where it begins as a report does.
run "$sweep" --vary --l1-ibsize 2,4 "${grid[@]:6:2}" --l1-dsize 8 --l1-dbsize 4 "${rest[@]:6}" \
    -- kinds.din
[ "$status" -eq 1 ] && [ "$(rows_of 2,36)" = '2 l1-icache: block is out of range,4 -,' ]
verdict 'sweep tells why an instruction cache was refused' $?
"$sweep" --task 1 --into cut "${one[@]}" -- kinds.din
head -c 100 cut/1 >"$work/report" && cp "$work/report" cut/1
run "$sweep" --gather cut
[ "$status" -eq 1 ] && [ "$(tail -n 1 "$out" | cut -f 37)" = 'not simulated' ]
verdict 'gathering a report that was cut off' $?
# Half of a row is none, and what stands in the next file is none of its columns.
rm -r cut
for number in 1 2 3 4; do "$sweep" --task $number --into cut "${grid[@]}" -- kinds.din; done
cp cut/1 first
for bytes in 10 3 2 1; do
    head -c -$bytes first >cut/1
    run "$sweep" --gather cut
    [ "$status" -eq 1 ] && [ "$(sed -n 2p "$out" | cut -f 4,37)" = $'-\tnot simulated' ] &&
        shared "$out" | tail -n 3 | cmp -s - <(sed -n 2,4p "$work/rows") && [ "$(<"$err")" = \
        "sweep: of the tasks 1-4, these have not left all of their rows: 1
sweep: configurations with a fault: 1 of 4, the first in line 2 of the table: \
not simulated (column fault)" ]
    verdict "gathering a report that lacks its last bytes: $bytes" $?
done
rm -r cut first
# What else stands there is no report, but what is called as one has to be one.
"$sweep" --task 1/1 --into cut "${grid[@]}" -- kinds.din fifo.din
mkdir cut/others
run "$sweep" --gather cut
check 'gathering where a folder stands among the reports' is_table_of_rows
mkdir cut/2
ends 'gathering where a folder stands for a report' 4 "sweep: $PWD/cut/2 can't be read" \
    "$sweep" --gather cut
rm -r cut
# Folders that stand in one another, none of which was there.
"$sweep" --task 1 --into new/in/it "${one[@]}" -- kinds.din
run "$sweep" --gather new/in/it
check 'a task into a folder of folders that are made' is_row_of kinds.din
rm -r new
