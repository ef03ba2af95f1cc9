# Tests that bin/sweep cuts a long grid of one trace into parts where it keeps a log, and that an
# interrupt leaves those in the log that have ended. Read by tools.sh.
# shellcheck shell=bash disable=SC2054,SC2154  # names that tools.sh and its other files set

# A trace of 1 GiB, of which the disk holds nothing. In place of it, this simulator reads kinds.din.
# It stops before the run of the number $STOP.
truncate -s 1G huge.din
cat >"$work/stopping" <<'END'
#!/usr/bin/env bash
if [ "$1" != --help ] && ! [ /dev/stdin -ef /dev/null ]; then
    [ "$(wc -l <"$CALLS")" -ne "${STOP:-0}" ] || exec sleep 60
    exec <"$SHORT"
fi
exec "$REAL" "$@"
END
chmod +x "$work/stopping"
export SHORT=$PWD/kinds.din REAL=$simulator
simulator=$work/stopping

sizes=(--vary --l1-dsize 8,16,32,64,128,256,512)
# 28 configurations, each with a data cache of its own.
wide=("${sizes[@]}" --vary --l1-drepl l,f --vary --l1-dwback a,n "${rest[@]:0:10}")

# sizes_of_calls: how many configurations each call has, the largest first.
sizes_of_calls() {
    awk '{ n = 1; for (i = 1; i <= NF; i++) n *= split($i, one, ","); print n }' "$work/calls" |
        sort -nr | tr '\n' ' '
}

# each_once LOG COUNT: it has so many configurations, each once.
each_once() {
    [ "$(tail -n +2 "$1" | wc -l)" -eq "$2" ] && [ -z "$(cut -f 1-21 "$1" | sort | uniq -d)" ]
}

# whole_of WORD..: the table of a grid from one run of the real simulator is in the file `whole`.
whole_of() {
    run "$sweep" --jobs 1 "$@" -- kinds.din
    sed '2,$s/^kinds\.din/huge.din/' "$out" >whole
}

# cut_as NAME WANTED TRACE WORD..: the sizes of the calls are those that are wanted, and with a log
# the table is that of one run.
cut_as() {
    rm -f parts.log
    noted --resume parts.log "${@:4}" -- "$3"
    [ "$status" -eq 0 ] && [ ! -s "$err" ] && cmp -s <(sed 1d "$out" | cut -f 2-) \
        <(sed 1d whole | cut -f 2-) && [ "$(sizes_of_calls)" = "$2 " ] &&
        each_once parts.log $(($(wc -l <whole) - 1))
    verdict "$1" $?
}

# In hundredths of what reading and two families cost, a run has the work 30, and 35 for the
# instruction cache and for each of the 1, 2 or 4 families of data caches, which differ in more than
# their size, and 13.2 for each configuration. Of all 28, two parts with two families each cost 640
# in place of 575, which is 1.11 times as much, and four parts 1.34 times, which is more than a
# fourth. Of 8 with four families, two parts cost 1.21 times as much; of 4 with four families 1.252
# times, and of 6 with two families 1.30 times.
test_cuts() {
    local below=(--vary --l2-usize 512,1k,2k,4k "${wide[@]:0:9}" "${rest[@]:0:6}" --l2-ubsize 8)
    whole_of "${wide[@]}"
    noted --jobs 4 "${wide[@]}" -- huge.din
    [ "$status" -eq 0 ] && cmp -s "$out" whole && [ "$(sizes_of_calls)" = '8 8 6 6 ' ]
    verdict 'a long grid without a log: as many parts as jobs' $?
    cut_as 'with a log: those of 8 in two' '6 6 4 4 4 4' huge.din --jobs 4 "${wide[@]}"
    [ "$(calls_of --l1-drepl)" = 'f f f l l l ' ]
    verdict 'along the option that parts share least of' $?
    cut_as 'and no more where the trace is short' '8 8 6 6' kinds.din --jobs 4 "${wide[@]}"
    cut_as 'by one job: two, but not four' '14 14' huge.din --jobs 1 "${wide[@]}"
    cut_as 'by three jobs: 8, 8 and 12, each in two' '6 6 4 4 4 4' huge.din --jobs 3 "${wide[@]}"
    cut_as 'by five: 8, 6, 6, 4 and 4, the first in two' '6 6 4 4 4 4' huge.din \
        --jobs 5 "${wide[@]}"
    cut_as 'by more jobs than configurations' "$(printf '1 %.0s' {1..27})1" huge.din \
        --jobs 28 "${wide[@]}"
    # Sizes and ways share nearly all: of seven sizes, two parts cost 1.52 times as much.
    whole_of "${sizes[@]}" "${rest[@]:0:10}"
    cut_as 'where only sizes are varied' 7 huge.din --jobs 1 "${sizes[@]}" "${rest[@]:0:10}"
    # Its second level is varied first. To cut it there would simulate each first level anew.
    whole_of "${below[@]}"
    cut_as 'where the second level is varied first' '56 56' huge.din --jobs 1 "${below[@]}"
    [ "$(calls_of --l2-usize)" = '512,1k,2k,4k 512,1k,2k,4k ' ] &&
        [ "$(calls_of --l1-drepl)" = 'f l ' ]
    verdict 'each part has all of it' $?
}

# A grid that has grown by odd numbers: what is left of it is cut, too.
test_growth() {
    whole_of "${wide[@]}"
    rm -f parts.log
    noted --jobs 2 --resume parts.log --vary --l1-dsize 16,128,512 "${wide[@]:3}" -- huge.din
    [ "$status" -eq 0 ] && each_once parts.log 12
    verdict 'a part of a grid in a log' $?
    noted --jobs 3 --resume parts.log "${wide[@]}" -- huge.din
    [ "$status" -eq 0 ] && [ ! -s "$err" ] && cmp -s "$out" whole && each_once parts.log 28 &&
        [ "$(sizes_of_calls)" = '4 4 4 4 ' ]
    verdict 'and the rest of it' $?
}

# stopped_at RUN SIGNAL LINES WORD..: the simulator stands still in the run of this number. Once the
# log has so many lines, the signal is sent as a terminal does.
stopped_at() {
    : >"$work/calls"
    start env STOP="$1" CALLS="$work/calls" GRID="$simulator" "$noting/sweep" "${@:4}" \
        "${wide[@]}" -- huge.din
    until_true lines_at_least "$work/calls" "$1"
    [ "$3" -eq 0 ] || until_true lines_at_least parts.log "$3"
    kill "-$2" -- "-$started"
    status=0
    wait "$started" 2>/dev/null || status=$?
    [ "$status" -eq $((128 + $(kill -l "$2"))) ]
}

# says_kept COUNT: an interrupt, of the log.
says_kept() {
    [ "$(<"$err")" = "sweep: interrupted: $1 of 48 configurations are in parts.log; \
the same call goes on from there" ]
}

# 12 sizes in four families have the work 838. Four parts with one family each cost 1.23 times as
# much; of two families that are left, two parts cost 1.14 times as much, and of one, 1.4 times.
test_interrupts() {
    local signal wide=(--vary --l1-dsize 8,16,32,64,128,256,512,1k,2k,4k,8k,16k "${wide[@]:3}")
    whole_of "${wide[@]}"
    for signal in INT TERM HUP; do
        rm -f parts.log
        stopped_at 3 $signal 25 --jobs 1 --resume parts.log && says_kept 24 &&
            each_once parts.log 24 && lines_at_least "$out" 1 &&
            cmp -s "$out" <(head -n "$(wc -l <"$out")" whole)
        verdict "sweep of one trace with a log that is sent $signal" $?
    done
    cp parts.log before
    stopped_at 2 INT 37 --jobs 1 --resume parts.log && says_kept 36 && each_once parts.log 36 &&
        head -n 25 parts.log | cmp -s - before
    verdict 'and again' $?
    noted --jobs 4 --resume parts.log "${wide[@]}" -- huge.din
    [ "$status" -eq 0 ] && [ ! -s "$err" ] && cmp -s "$out" whole && each_once parts.log 48 &&
        [ "$(sizes_of_calls)" = '3 3 3 3 ' ]
    verdict 'it goes on, and its table is that of a sweep without an interrupt' $?
    rm -f parts.log
    stopped_at 1 INT 1 --jobs 1 --resume parts.log && each_once parts.log 0 &&
        [ "$(<"$err")" = 'sweep: interrupted: none of the 48 configurations is in parts.log' ]
    verdict 'sweep that is interrupted before its first part has ended' $?
    stopped_at 1 INT 0 --jobs 1 && [ "$(<"$err")" = 'sweep: interrupted' ]
    verdict 'sweep without a log promises nothing' $?
}

test_cuts
test_growth
test_interrupts
simulator=$REAL
unset SHORT REAL
rm huge.din parts.log before
