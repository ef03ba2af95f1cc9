# Tests where the output of a program goes that bin/record runs. Read by tools.sh.
# shellcheck shell=bash disable=SC2154  # names that tools.sh and its other files set

# What stands in for valgrind writes a reference, and runs no program.
fake_valgrind ': >|started; echo told; echo warned >&2; exit 7'
recorded=(env PATH="$work/valgrind:$PATH" "$record")

# has_printed FILE: the program's output alone is there. It ended with its own status.
has_printed() {
    [ "$status" -eq 7 ] && [ "$(<"$1")" = told ] && [ "$(<"$err")" = warned ] &&
        [ "$(<"$out")" = '2 00001000' ]
}

# refuses_output NAME STATUS LINE COMMAND..: and runs nothing.
refuses_output() {
    rm -f started
    fails "$1" "$2" "record: --output: $3" "${@:4}"
    [ ! -e started ]
    verdict "and it is refused before the program runs" $?
}

prints_to() {
    run "${recorded[@]}" --output "$1" true
    has_printed "./$1" && rm -- "./$1"
}

test_output() {
    run "${recorded[@]}" --output told.txt true
    check 'record --output' has_printed told.txt
    echo 'of a run before this one, and longer' >told.txt
    run env SHELLOPTS=noclobber "${recorded[@]}" --output=told.txt true
    check 'record --output to a file that is there' has_printed told.txt
    run env POSIXLY_CORRECT=1 "${recorded[@]}" --output told.txt true
    check 'record --output by POSIX' has_printed told.txt
    run "${recorded[@]}" --output >(cat >piped.txt) true
    until_true test -s piped.txt
    check 'record --output to a pipe' has_printed piped.txt
    run "${recorded[@]}" --output /dev/null true
    [ "$status" -eq 7 ] && [ "$(<"$err")" = warned ] && [ "$(<"$out")" = '2 00001000' ]
    verdict 'record --output to nowhere' $?
    run "${recorded[@]}" true
    [ "$status" -eq 7 ] && [ "$(sort "$err")" = $'told\nwarned' ] && [ "$(<"$out")" = '2 00001000' ]
    verdict 'record without --output' $?
    at_all_names 'record --output to hostile names' prints_to "${few[@]}"
}

test_no_output() {
    local posix
    mkdir folder
    for posix in '' POSIXLY_CORRECT=1; do
        # shellcheck disable=SC2086  # no word, or one
        refuses_output "record --output to a folder $posix" 4 \
            'folder could not be written: Is a directory' \
            env $posix "${recorded[@]}" --output folder true
        # shellcheck disable=SC2086  # no word, or one
        refuses_output "record --output into no folder $posix" 4 \
            'nowhere/told.txt could not be written: No such file or directory' \
            env $posix "${recorded[@]}" --output nowhere/told.txt true
    done
    refuses_output 'record --output to where the trace goes' 2 "the trace goes to $out; try --help" \
        "${recorded[@]}" --output "$out" true
    refuses_output 'record --output to where standard error goes' 2 \
        "standard error goes to $err; try --help" "${recorded[@]}" --output "$err" true
    cp /bin/true printer
    refuses_output 'record --output to the program' 2 'printer is the program; try --help' \
        "${recorded[@]}" --output printer ./printer
    cmp -s printer /bin/true
    verdict 'and it is as it was' $?
    rm printer
    fails 'record --output twice' 2 'record: --output is given twice; try --help' \
        "${recorded[@]}" --output a --output=b true
    fails 'record --output without a value' 2 'record: --output has no value; try --help' \
        "${recorded[@]}" --output
    fails 'record --output without valgrind' 69 \
        'record: valgrind is missing: install the package valgrind' \
        env PATH="$(without valgrind)" "$record" --output none.txt true
    rmdir folder
    [ -z "$(ls -d a b none.txt nowhere 2>/dev/null)" ]
    verdict 'and no file is made' $?
}

# refuses_mixture NAME: what the program prints would be in the trace, and so it is not run.
refuses_mixture() {
    local line='record: standard error goes to where the trace goes; try --help'
    [ "$status" -eq 2 ] && [ "$(<"$out")" = "$line"$'\n'"$line" ] && [ ! -e started ]
    verdict "$1" $?
}

test_mixture() {
    local option
    rm -f started told.txt
    for option in --split=64 --output=told.txt; do
        status=0
        "${recorded[@]}" "$option" true >"$out" 2>&1 </dev/null || status=$?
        refuses_mixture "record $option with the trace and standard error in one file"
        "${recorded[@]}" "$option" true 2>&1 </dev/null | cat >"$out"
        status=${PIPESTATUS[0]}
        refuses_mixture "record $option with the trace and standard error in one pipe"
    done
    [ ! -e told.txt ]
    verdict 'and no file is made' $?
    status=0
    "${recorded[@]}" true >/dev/null 2>&1 </dev/null || status=$?
    [ "$status" -eq 7 ] && [ -e started ]
    verdict 'record with the trace and standard error nowhere' $?
}

# A terminal shows both, and keeps neither.
test_terminal() {
    rm -f started
    # shellcheck disable=SC2016  # the inner shell's word
    RECORD=$record PATH=$work/valgrind:$PATH run script -qec '"$RECORD" true' /dev/null
    [ "$status" -eq 7 ] && [ -e started ] && grep -q '^2 00001000' "$out"
    verdict 'record with the trace and standard error on a terminal' $?
}

# What is packed and unpacked again, beside its trace.
test_real_output() {
    run "$record" --split 64 --output packed.gz gzip -c kinds.din
    [ "$status" -eq 0 ] && [ ! -s "$err" ] && gzip -dc packed.gz | cmp -s - kinds.din &&
        ! grep -qvE '^[012] [0-9a-f]+$' "$out"
    verdict 'record --output of gzip' $?
}

# closing COMMAND..: it has nothing open but its input, its output and standard error.
closing() (
    local file
    for file in "/proc/$BASHPID/fd"/*; do
        [ "${file##*/}" -le 2 ] || eval "exec ${file##*/}>&-"
    done
    exec "$@"
)

# A program that writes what would be a store to each number that record could have open, at each
# limit of open files: one that can be raised, and one that can't.
test_odd_descriptors() {
    local limit
    for limit in -Sn -n; do
        # shellcheck disable=SC2016  # the inner program's words
        run closing bash -c 'ulimit "$1" 200 && exec "${@:2}"' odd $limit "$record" perl -e '
            for (3 .. 255) { open($file[$_], ">&=", $_) && syswrite($file[$_], " S deadbeef,4\n") }
            no warnings; exec("true")'
        [ "$status" -eq 0 ] && lines_at_least "$out" 10000 && ! grep -q deadbeef "$out"
        verdict "record of a program that writes to odd descriptors, with ulimit $limit" $?
    done
}

# A disk without room for temporary files.
test_no_room() {
    # shellcheck disable=SC2016  # the inner shell's words
    run unshare -rm sh -c 'mount -t tmpfs -o size=64k none "$TMPDIR" &&
        ! head -c 65537 /dev/zero >"$TMPDIR/full" 2>/dev/null &&
        exec "$1" --split 64 sh -c "exit 7"' - "$record"
    [ "$status" -eq 7 ] && [ ! -s "$err" ] && lines_at_least "$out" 1000
    verdict 'record where there is no room for temporary files' $?
}

cp "$top/examples/1-kinds/kinds.din" kinds.din
if has valgrind && unshare -rm mount -t tmpfs none "$TMPDIR" 2>"$err"; then
    test_no_room
else
    skip 'record where there is no room for temporary files' 'valgrind and the right to mount'
fi
test_output
test_no_output
test_mixture
if has script; then
    test_terminal
else
    skip 'record with the trace and standard error on a terminal' script
fi
if has valgrind; then
    test_odd_descriptors
else
    skip 'record of a program that writes to odd descriptors' valgrind
fi
if has valgrind && has gzip; then
    test_real_output
else
    skip 'record --output of gzip' 'valgrind and gzip'
fi
rm -f started told.txt piped.txt packed.gz
