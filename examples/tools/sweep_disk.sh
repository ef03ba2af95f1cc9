# Tests bin/sweep on a full disk, and with folders that can't be used. Read by tools.sh, behind
# sweep_resume.sh.
# shellcheck shell=bash disable=SC2154  # names that tools.sh and its other files set

# A log of 145 lines, longer than what else a sweep and GNU parallel write.
test_full_log() {
    local sizes=8,16,32,64,128,256,512,1k,2k,4k,8k,16k
    rm -f known
    run "$sweep" --resume known --vary --l1-dsize $sizes --vary --l1-isize $sizes \
        --l1-ibsize 4 --l1-dbsize 4 --l2-usize 64 --l2-ubsize 8 -- known.din
    run no_room 16 "$sweep" --resume known "${grid[@]}" -- known.din
    [ "$status" -eq 4 ] && [ "$(<"$err")" = 'sweep: known could not be written: File too large' ] &&
        [ "$(wc -c <known)" -gt 16384 ] && lines_at_least "$out" 1
    verdict 'sweep with a log on a full disk' $?
    with_log
    [ "$status" -eq 0 ] && whole_lines "$out" "$fields" && cmp -s "$out" whole
    verdict 'it goes on once there is room' $?
}

# limited KILOBYTES COMMAND..: a file that grows longer sends a signal.
limited() (
    ulimit -f "$1"
    exec "${@:2}"
)

test_full_disk() {
    ends 'sweep on a full disk' 4 "sweep: no room for temporary files in $TMPDIR" \
        no_room 1 "$sweep" "${grid[@]}" -- kinds.din
    # The lines of 60 configurations have room without counts, and not with those of a long trace.
    local room many=(--vary --flushcount "$(seq -s , 60)" --l1-dsize 1k "${long[@]:3}")
    for room in 7 8 10; do
        run no_room $room "$sweep" --jobs 1 "${many[@]}" -- long.din
        [ "$status" -eq 4 ] && [ "$(wc -l <"$out")" -eq 1 ] &&
            [ "$(<"$err")" = "sweep: no room for temporary files in $TMPDIR" ]
        verdict "sweep whose run fills the disk, with room for $room KiB" $?
    done
    run limited 8 "$sweep" --jobs 1 "${many[@]}" -- long.din
    [ "$status" -eq 4 ] && [ "$(wc -l <"$out")" -eq 1 ] &&
        [ "$(<"$err")" = "sweep: no room for temporary files in $TMPDIR" ]
    verdict 'and where the signal of a limit is not passed over' $?
    ends 'sweep where no file has room' 4 "sweep: no room for temporary files in $TMPDIR" \
        limited 1 "$sweep" "${grid[@]}" -- kinds.din
    run limited 2 "$sweep" --resume limited.log "${grid[@]}" -- kinds.din fifo.din
    [ "$status" -eq 4 ] &&
        [ "$(<"$err")" = 'sweep: limited.log could not be written: File too large' ]
    verdict 'sweep whose log has no room' $?
    rm -f limited.log
    ends 'a task whose run fills the disk' 4 "sweep: no room for temporary files in $TMPDIR" \
        no_room 8 "$sweep" --task 1/1 --into full "${many[@]}" -- long.din
    [ ! -e full/1-1 ] && rm -r full
    verdict 'it leaves no rows' $?
    "$sweep" --task 1 --into full "${grid[@]}" -- kinds.din
    ends 'a task on a full disk' 4 "sweep: no room for temporary files in $TMPDIR" \
        no_room 1 "$sweep" --task 2 --into full "${grid[@]}" -- kinds.din
    [ -s full/1 ] && [ "$(ls full)" = $'1\ngrid' ]
    verdict 'it leaves nothing there' $?
    rm -r full
}

# A folder of the user's stays, though a task leaves nothing in it, and one that it made does not.
test_folders() {
    local folder
    mkdir empty
    ends 'gathering from an empty folder' 4 'sweep: no folder of rows: empty' \
        "$sweep" --gather empty
    for folder in empty new; do
        ends "a task that can't be written into a folder that is $folder" 4 \
            "sweep: no rows can be written to $folder: File too large" \
            no_room 4 "$sweep" --task 1 --into $folder "${grid[@]}" -- kinds.din
    done
    [ ! -e new ] && rmdir empty
    verdict 'an empty folder stays, and a new one does not' $?
    echo >file
    ends 'a task into a file' 4 'sweep: the folder file could not be made: File exists' \
        "$sweep" --task 1 --into file "${grid[@]}" -- kinds.din
    [ "$(wc -c <file)" -eq 1 ] && rm file
    verdict 'it is left as it was' $?
    # shellcheck disable=SC2016  # the inner shell has the word
    run bash -c 'mkdir gone && cd gone && rmdir ../gone && exec "$1" --gather relative' - "$sweep"
    [ "$status" -eq 4 ] &&
        [ "$(tail -n 1 "$err")" = 'sweep: relative has no whole name: is the working folder gone?' ]
    verdict 'gathering from a folder that is gone' $?
}

with_log && cp "$out" whole
test_full_log
test_full_disk
test_folders
