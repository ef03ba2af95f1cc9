# Tests which functions bin/record finds, and what it tells where it can't go on. Read by tools.sh,
# behind record.sh.
# shellcheck shell=bash disable=SC2154  # names that tools.sh and its other files set

# A shell that may open few files can't go on, and the trace says so.
status=0
(ulimit -n 10 && exec "$record" true) >"$out" 2>"$err" </dev/null || status=$?
[ "$status" -eq 70 ] && [ "$(<"$out")" = 'record: failed: the trace is not whole' ] &&
    [ "$(tail -n 1 "$err")" = "$(<"$out")" ]
verdict 'record that may open no more files' $?

# is_whole_or_failed: a trace that ends early says so.
is_whole_or_failed() {
    [ "$status" -eq 0 ] || [[ $(tail -n 1 "$out") == record:* ]]
}

# Somewhere between these limits, valgrind has room for a part of the program alone.
test_no_memory() {
    local kilobytes
    for kilobytes in 30000 36000 42000 50000 60000; do
        status=0
        (ulimit -v "$kilobytes" && exec "$record" true) >"$out" 2>"$err" </dev/null || status=$?
        check "record where there are $kilobytes KiB of memory" is_whole_or_failed
    done
}

# A function of one name in each of two files, and a nm that prints each line twice.
assemble_twins() {
    printf '        .globl _start\n_start: call twin\n        ret\ntwin:   ret\n' >one.s
    printf '        .globl other\nother:  call twin\n        ret\ntwin:   ret\n' >two.s
    gcc -nostdlib -static -no-pie -o twins one.s two.s && mkdir "$work/two-times" &&
        printf '#!/bin/sh\n%q "$@"\n%q "$@"\n' "$(command -v nm)" "$(command -v nm)" \
            >"$work/two-times/nm" &&
        chmod +x "$work/two-times/nm"
}

test_functions() {
    fails 'record --from a function that stands in several files' 2 \
        "record: --from: nm finds several functions 'twin' in ./twins; try --help" \
        "$record" --from twin ./twins
    PATH=$work/two-times:$PATH known_trace 'record --from a function that nm prints twice' \
        '2 00a,2 00f,2 011' '' "$record" --from leave ./walk
    VALGRIND_OPTS=--log-file=/dev/null known_trace \
        'record --from a function that is put elsewhere, whatever valgrind is told elsewhere' \
        '2 00a,2 00f,2 011' '' "$record" --from leave ./moving
    fails 'record --from a function, without nm' 69 \
        'record: nm is missing: install the package binutils' \
        env PATH="$(without nm)" "$record" --from pass ./walk
}

# Functions by the names that a compiler gives to copies of them, and to what is seldom run.
assemble_copies() {
    printf '%s\n' '        .globl _start' '_start: ret' 'kernel.constprop.0: ret' \
        'kernel.isra.0: ret' 'kernel.cold: ret' 'kernels: ret' >copies.s
    gcc -nostdlib -static -no-pie -o copies copies.s &&
        gcc -nostdlib -static -no-pie -s -o bare copies.s
}

test_names() {
    fails 'record --from a function of which there are copies' 2 \
        "record: --from: nm finds no function 'kernel' in ./copies, but 'kernel.constprop.0', 'kernel.isra.0'; try --help" \
        "$record" --from kernel ./copies
    fails 'record --from a function of a program without names' 2 \
        "record: --from: nm finds no function 'kernel' in ./bare, which is stripped of all names; try --help" \
        "$record" --from kernel ./bare
    : >empty
    chmod +x empty
    fails 'record --from a function of an empty file' 2 \
        "record: --from: nm finds no function 'kernel' in ./empty; try --help" \
        "$record" --from kernel ./empty
    rm empty
}

# test_unreadable COMMAND..: by a user who may run the program.
test_unreadable() {
    cp walk closed
    chmod 111 closed
    fails 'record --from a function of a program that can not be read' 126 \
        "record: $PWD/closed can't be read, so its functions are not known" \
        "$@" "$record" --from pass "$PWD/closed"
    rm -f closed
}

test_programs() {
    fails 'record of a file that can not be run' 126 'valgrind: ./walk.s: Permission denied
record: ./walk.s was not run: valgrind made no reference' "$record" ./walk.s
    run env VALGRIND_OPTS=--trace-children=yes "$record" sh -c 'exec ./walk'
    [ "$status" -eq 0 ] && lines_at_least "$out" 1000 && ! grep -q '^2 00401000$' "$out"
    verdict 'record of one process, whatever valgrind is told elsewhere' $?
    # shellcheck disable=SC2016  # the inner shell's word
    run "$record" --split 64 sh -c 'exec sh -c "kill -TERM \$\$"'
    [ "$status" -eq 143 ] && [ "$(<"$err")" = 'record: sh was ended by signal 15' ] &&
        [[ $(tail -n 1 "$out") != record:* ]]
    verdict 'record of a program that becomes one that a signal ends' $?
}

if has valgrind && [ -x walk ] && assemble_twins && assemble_copies; then
    test_no_memory
    test_functions
    test_names
    test_programs
    chmod a+rx "$work"
    if [ "$(id -u)" -ne 0 ]; then
        test_unreadable
    elif setpriv --reuid 65534 test -x "$record"; then
        test_unreadable setpriv --reuid 65534 --regid 65534 --clear-groups
    else
        skip 'record of a program that can not be read' 'a user who may run it'
    fi
else
    skip 'record of functions' 'valgrind and gcc'
fi
