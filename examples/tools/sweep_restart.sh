# Tests that --restart forgets the rows of traces that have changed and no others, and that no two
# sweeps have one log. Read by tools.sh, behind sweep_resume.sh.
# shellcheck shell=bash disable=SC2154  # names that tools.sh and its other files set

# restarted KEPT FORGOTTEN: the sweep says how many rows of the log `many` there were.
restarted() {
    [ "$status" -eq 0 ] && [ "$(<"$err")" = \
        "sweep: many: rows kept: $1, forgotten: $2" ] && cmp -s "$out" whole
}

# A log of three traces with four rows each, one of which changes.
test_restart() {
    local three=(a.din b.din c.din) name
    for name in "${three[@]}"; do
        cp kinds.din "$name"
    done
    rm -f many real-log
    ln -s real-log many
    run "$sweep" --resume many "${grid[@]}" -- "${three[@]}"
    chmod 640 real-log
    cp "$out" whole && cp many before
    run "$sweep" --resume many --restart "${grid[@]}" -- "${three[@]}"
    restarted 12 0 && cmp -s many before
    verdict 'no row is forgotten where no trace has changed' $?
    cp fifo.din b.din
    ends 'one of three traces has changed' 2 \
        'sweep: b.din has changed since many was begun, or is another file; --restart forgets its rows' \
        "$sweep" --resume many "${grid[@]}" -- "${three[@]}"
    run "$sweep" --resume many "${grid[@]}" -- c.din a.din
    [ "$status" -eq 0 ] && [ ! -s "$err" ] && cmp -s many before
    verdict 'the others are taken' $?
    run "$sweep" "${grid[@]}" -- b.din c.din
    cp "$out" whole
    no_room_to_restart
    noted --jobs 1 --resume many --restart "${grid[@]}" -- b.din c.din
    restarted 8 4 && [ "$(sed 's/.*--l1-dsize //; s/ .*//' "$work/calls")" = 8,16 ] &&
        [ "$(grep -vc '^b' before)" -eq 9 ] && head -n 9 many | cmp -s - <(grep -v '^b' before) &&
        [ "$(tail -n +10 many | cut -f 1 | uniq -c | tr -s ' ')" = ' 4 b.din' ]
    verdict 'its rows alone are forgotten, and simulated again' $?
    [ -L many ] && [ "$(stat -c %a real-log)" = 640 ] && [ -z "$(find . -name '*.part*')" ]
    verdict 'the log has its place and its mode' $?
    test_damaged_fields
    test_damaged_lines
    rm many real-log "${three[@]}"
}

# In one line, a count that is no number, a fault beside counts, or neither.
test_damaged_fields() {
    local change
    cp many before
    for change in 's/[0-9]+\t-$/1x5\t-/' 's/-$/refused/' 's/-$//'; do
        sed -E "4$change" before >many
        ends "a log with a damaged field: $change" 2 \
            'sweep: many: line 4 is damaged; --restart forgets it' \
            "$sweep" --resume many "${grid[@]}" -- b.din c.din
    done
    cp before many
}

# Two lines of the log that are none: the rows of all three traces stay, and one that is lost is
# simulated again.
test_damaged_lines() {
    cp many before
    { head -n 3 before; echo damaged; tail -n +5 before; echo 'this one too'; } >many
    cp many mine
    ends 'a damaged log' 2 'sweep: many: line 4 is damaged; --restart forgets it' \
        "$sweep" --resume many "${grid[@]}" -- b.din c.din
    cmp -s many mine
    verdict 'it is left as it was, and' $?
    run "$sweep" --resume many --restart "${grid[@]}" -- b.din c.din
    restarted 11 2 && head -n 12 many | cmp -s - <(sed 4d before)
    verdict 'the damaged lines alone are forgotten' $?
    run "$sweep" --resume many "${grid[@]}" -- "${three[@]}"
    [ "$status" -eq 0 ] && cmp -s <(sort many) <(sort before)
    verdict 'and what stood there is simulated again' $?
}

# A log that is longer than the disk has room for, as it is read.
no_room_to_restart() {
    local sizes=8,16,32,64,128,256,512,1k,2k,4k,8k,16k
    cp many mine
    run "$sweep" --resume many --vary --l1-dsize $sizes --vary --l1-isize $sizes --l1-ibsize 4 \
        --l1-dbsize 4 --l2-usize 64 --l2-ubsize 8 -- a.din
    cp many before
    ends 'no room to forget rows' 4 "sweep: no room for temporary files in $TMPDIR" \
        no_room 16 "$sweep" --resume many --restart "${grid[@]}" -- b.din c.din
    [ "$(wc -c <before)" -gt 16384 ] && cmp -s many before
    verdict 'none is forgotten' $?
    cp mine before
    cat mine >many
}

# A log from which rows were forgotten is still kept from another call.
test_restarted_lock() {
    rm -f known
    with_log
    echo '0 0' >>known.din
    cat >"$work/waiting" <<'END'
#!/usr/bin/env bash
if [ "$1" != --help ] && ! [ /dev/stdin -ef /dev/null ]; then
    : >"$MARK"
    exec sleep 60
fi
exec "$REAL" "$@"
END
    chmod +x "$work/waiting"
    start_marked env REAL="$simulator" CALLS="$work/calls" GRID="$work/waiting" "$noting/sweep" \
        --resume known --restart --jobs 1 "${grid[@]}" -- known.din
    "$sweep" --resume known "${grid[@]}" -- known.din >"$work/other" 2>&1
    [ $? -eq 4 ] && [ "$(<"$work/other")" = 'sweep: known is written by another sweep' ] &&
        [ "$(wc -l <known)" -eq 1 ]
    status=$?
    kill -INT -- "-$started"
    wait "$started" 2>/dev/null
    [ "$status" -eq 0 ] && [ "$(<"$err")" = "sweep: known: rows kept: 0, forgotten: 4
sweep: interrupted: none of the 4 configurations is in known" ]
    verdict 'a log from which rows were forgotten, in use' $?
    with_log
    [ "$status" -eq 0 ] && [ ! -s "$err" ] && [ "$(wc -l <known)" -eq 5 ]
    verdict 'it is free again' $?
}

# The log of another sweep is not emptied.
test_lock() {
    local lock
    with_log
    cp known before
    exec {lock}<known
    flock "$lock"
    ends 'a log in use that is to be begun anew' 4 'sweep: known is written by another sweep' \
        "$sweep" --resume known --restart "${grid[@]}" -- known.din
    exec {lock}<&-
    cmp -s known before && [ -s known ]
    verdict 'it is left to the other sweep' $?
}

refused '--restart goes with --resume' --restart "${grid[@]}" -- kinds.din
test_restart
test_restarted_lock
test_lock
