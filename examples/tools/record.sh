# Tests bin/record. Read by tools.sh.
# shellcheck shell=bash disable=SC2154  # names that tools.sh and its other files set

record=$bin/record

# fails NAME STATUS LINES COMMAND..: the command says these lines, and the last of them is also its
# whole trace, which no simulator takes for an empty one.
fails() {
    run "${@:4}"
    [ "$status" -eq "$2" ] && [ "$(<"$err")" = "$3" ] && [ "$(<"$out")" = "${3##*$'\n'}" ] &&
        [[ $(<"$out") == record:* ]]
    verdict "$1" $?
}
fails 'record without a program' 2 'record: no program is given; try --help' "$record"
fails 'record without a program, whose name was taken for a function' 2 \
    'record: no program is given (main was taken as the value of --from); try --help' \
    "$record" --split 4 --from main
fails 'record without a program, whose name was taken for a file' 2 \
    'record: no program is given (none was taken as the value of --output); try --help' \
    "$record" --output=none
[ ! -e none ]
verdict 'and no such file is made' $?
fails 'record without a number of bytes' 2 \
    "record: --split: not a power of two from 1 to 4096: 'true'; try --help" "$record" --split true
fails 'record with an empty program' 2 'record: the name of the program is empty; try --help' \
    "$record" ''
fails 'record with an unknown option' 2 'record: unknown option: --all; try --help' "$record" --all ls
for value in 0 3 -64 8192 64k 0x40 ' 64' 18446744073709551680; do
    fails "record --split $value" 2 \
        "record: --split: not a power of two from 1 to 4096: '$value'; try --help" \
        "$record" --split "$value" true
done
for option in --split --from --until; do
    fails "record with $option twice" 2 "record: $option is given twice; try --help" \
        "$record" $option 16 $option=16 true
done
fails 'record with an empty function' 2 'record: --from has no value; try --help' \
    "$record" --from= true
fails 'record with an option without a value' 2 'record: --until has no value; try --help' \
    "$record" --until

to_din() {
    cut -c 1 "$1" | sort | uniq -c | awk '{ print $2, $1 }'
}

# lackey_counts PROGRAM: fetches, loads and stores, as lackey counts them, of a program with the
# environment that record gives it. It is linked at once, since lackey's counts, unlike its trace,
# leave out how a linker saves the registers when a function is called for the first time.
lackey_counts() {
    env -i PATH="$PATH" TMPDIR="$TMPDIR" LD_BIND_NOW=1 \
        valgrind --tool=lackey --detailed-counts=yes -- "$1" 2>&1 |
        awk '{ gsub(",", "") }
            /guest instrs:/ && !fetches { fetches = $4 }
            $2 ~ /^[IFV][0-9]+$/ { loads += $3; stores += $4 }
            END { print "0 " loads "\n1 " stores "\n2 " fetches }'
}

# A file with room for 4096 bytes, of which the last stands in the midst of a record, or is its line
# feed.
test_full_disk() {
    local last
    run no_room 4 "$record" true
    last=$(tail -n 1 "$out")
    [ "$status" -eq 4 ] && [ "$(<"$err")" = 'record: the trace could not be written' ] &&
        [ "$(stat -c %s "$out")" -eq 4096 ] && [ "${last: -1}" = ! ] &&
        ! "$bin/dinero_pipe" "${words[@]}" <"$out" >/dev/null 2>"$err" &&
        [[ $(<"$err") == "dinero_pipe: line $(grep -c '' "$out"): "* ]]
    verdict 'record to a disk that fills up' $?
    head -c 4096 /dev/zero | tr '\0' '\n' >full.din
    cp full.din before.din
    status=0
    no_room 4 "$record" true >>full.din 2>"$err" </dev/null || status=$?
    [ "$status" -eq 4 ] && cmp -s full.din before.din
    verdict 'record to a full disk leaves what stood there' $?
}

test_record() {
    env -i PATH="$PATH" TMPDIR="$TMPDIR" LD_BIND_NOW=1 "$record" true >"$work/true.din" 2>"$err"
    status=$?
    [ "$status" -eq 0 ] && [ "$(to_din "$work/true.din")" = "$(lackey_counts true)" ]
    verdict "record against lackey's own counts" $?
    ! grep -qvE '^[012] [0-9a-f]+$' "$work/true.din"
    verdict 'record prints records alone' $?

    run "$record" --split 64 sh -c 'echo told; echo warned >&2; exit 7'
    [ "$status" -eq 7 ] && [ "$(sort "$err" | tr '\n' ' ')" = 'told warned ' ] &&
        ! grep -q told "$out"
    verdict "record hands on the program's status and output" $?
    status=0
    echo word | "$record" --split 64 cat 2>"$err" >"$out" || status=$?
    [ "$status" -eq 0 ] && [ "$(<"$err")" = word ]
    verdict 'record gives the program its input' $?
    # shellcheck disable=SC2016  # the inner shell's word
    run "$record" --split 64 sh -c 'kill -TERM $$'
    [ "$status" -eq 143 ] && [ "$(<"$err")" = 'record: sh was ended by signal 15' ]
    verdict 'record of a program that a signal ends' $?
    fails 'record of a program that is not there' 127 \
        $'valgrind: nowhere: command not found\nrecord: nowhere was not run: valgrind made no reference' \
        "$record" nowhere

    to_full 'record to a full disk' 'record: the trace could not be written' "$record" true
    test_full_disk
    "$record" sh -c 'while :; do :; done' 2>"$err" | head -n 1 >"$out"
    status=${PIPESTATUS[0]}
    [ "$status" -eq 141 ] && [ ! -s "$err" ]
    verdict 'record whose reader goes away' $?
    for signal in HUP INT TERM; do
        start "$record" sh -c 'while :; do :; done'
        until_true lines_at_least "$out" 1000
        if [ $signal = INT ]; then kill -INT -- "-$started"; else kill -$signal "$started"; fi
        wait_for_started
        [ "$status" -eq $((128 + $(kill -l $signal))) ] && [ -z "$(tail -c 1 "$out")" ] &&
            ! grep -q 'ended by' "$err"
        verdict "record that is sent $signal" $?
    done
}

# A program whose references are known, but for where its stack stands. In `pass`, the first
# instruction and its load straddle blocks of 64 bytes, and the `incl` one of 16. One of its
# functions is weak, and one is seen in this file alone.
assemble() {
    cat >walk.s <<'END'
        .globl _start, never
        .weak pass
_start: call pass
        call pass
leave:  mov $60, %eax
        xor %edi, %edi
        syscall
never:  ret
        .org 0x7d
pass:   mov area+60(%rip), %rax
        incl area+14(%rip)
        mov %al, area+63(%rip)
        ret
        .data
area:   .skip 128
END
    gcc -nostdlib -static -no-pie -Wl,-Ttext=0x401000,-Tdata=0x402000 -o walk walk.s &&
        gcc -nostdlib -static-pie -Wl,-Ttext=0x1000,-Tdata=0x2000 -o moving walk.s
}

# known_trace NAME EXPECTED STRADDLING COMMAND..: each reference as its label and the last digits of
# its address, or `s` for the stack.
known_trace() {
    run "${@:4}"
    [ "$status" -eq 0 ] &&
        [ "$(sed -E 's/ 1ff[0-9a-f]{7}$/ s/; s/^(.) .*(...)$/\1 \2/' "$out" | paste -s -d ,)" = "$2" ] &&
        [ "$(<"$err")" = "${3:+record: references that straddle blocks of 64 bytes: $3; --split 64 records one for each block}" ]
    verdict "$1" $?
}

# A program that ends while a copy of it waits for a byte.
assemble_parting() {
    cat >parting.s <<'END'
        .globl _start
_start: mov $57, %eax
        syscall
        test %eax, %eax
        jz copy
leave:  mov $60, %eax
        xor %edi, %edi
        syscall
copy:   xor %edi, %edi
        push %rdi
        mov %rsp, %rsi
        mov $1, %edx
        syscall
        jmp leave
END
    gcc -nostdlib -static -no-pie -Wl,-Ttext=0x401000 -o parting parting.s
}

# Ctrl-C before the program is started. The trace tells of it, as of any other end.
test_early_interrupt() {
    signalled INT "$(standing_still nm)" "$record" --from main true &&
        [ "$(<"$out")" = 'record: interrupted' ]
    verdict 'record and Ctrl-C while a function is looked for' $?
}

# Without a folder for its own files valgrind runs nothing.
test_no_folder() {
    run env TMPDIR=/missing "$record" true
    [ "$status" -eq 70 ] && [ "$(<"$out")" = 'record: true was not run: valgrind made no reference' ]
    verdict 'record where valgrind has no folder' $?
}

test_parting() {
    local input lived
    mkfifo input
    exec {input}<>input
    status=0
    timeout -k 1 120 "$record" ./parting <input >"$out" 2>"$err" || status=$?
    lived=$(our_processes)
    echo >&"$input"
    exec {input}>&-
    [ "$status" -eq 0 ] && [ -n "$lived" ] && [ ! -s "$err" ] && [ "$(<"$out")" = "2 00401000
2 00401005
2 00401007
2 00401009
2 0040100b
2 00401010
2 00401012" ]
    verdict 'record of a program that leaves a process behind' $?
}

test_known() {
    local pass='2 07d,0 03c,2 084,0 00e,1 00e,2 08a,1 03f,2 090,0 s'
    local halves='2 07d,2 080,0 03c,0 040,2 084,0 00e,1 00e,2 08a,1 03f,2 090,0 s'
    local pieces='2 07d,2 080,0 03c,0 040,2 084,0 00e,0 010,1 00e,1 010,2 08a,1 03f,2 090,0 s'
    local first='2 000,1 s' second='2 005,1 s' end='2 00a,2 00f,2 011'
    known_trace 'record tells how many references straddle' \
        "$first,$pass,$second,$pass,$end" 4 "$record" ./walk
    known_trace 'record --split 64' "$first,$halves,$second,$halves,$end" '' \
        "$record" --split 64 ./walk
    known_trace 'record --split 16' "$first,$pieces,$second,$pieces,2 00a,2 00f,2 010,2 011" '' \
        "$record" --split=16 ./walk
    known_trace 'record --split 1' '2 00a,2 00b,2 00c,2 00d,2 00e,2 00f,2 010,2 011,2 012' '' \
        "$record" --split 1 --from leave ./walk
    known_trace 'record --split 4096' "$first,$pass,$second,$pass,$end" '' \
        "$record" --split 4096 ./walk
    known_trace 'record --from and --until' "$pass,$second,$pass" 4 \
        "$record" --from pass --until leave ./walk
    known_trace 'record of one call' "$pass,$second" 2 "$record" --until pass --from pass ./walk
    known_trace 'record --from alone' "$end" '' "$record" --from=leave ./walk
    known_trace 'record --until alone' "$first" '' "$record" --until pass -- ./walk
    known_trace 'record --from and --until of a program that is put elsewhere' \
        "$halves,$second,$halves" '' "$record" --split 64 --from pass --until leave ./moving
    fails 'record --from a function that is not reached' 65 'record: --from: never was not reached' \
        "$record" --from never ./walk
    fails 'record --from a function that is not there' 2 \
        "record: --from: nm finds no function 'area' in ./walk; try --help" "$record" --from area ./walk
    fails 'record --from a function of a script' 2 \
        "record: --from: nm finds no function 'main' in $record; try --help" "$record" --from main "$record"
    fails 'record --until a function of a program that is not there' 127 \
        'record: no program to run: ./nowhere' "$record" --until pass ./nowhere
    run "$record" --from leave --until never ./walk
    [ "$status" -eq 65 ] && [ "$(<"$err")" = 'record: --until: never was not reached' ] &&
        [ "$(tail -n 1 "$out")" = "$(<"$err")" ] && [ "$(wc -l <"$out")" -eq 4 ]
    verdict 'record --until a function that is not reached' $?
    run "$record" --from leave --until leave ./walk
    [ "$status" -eq 65 ] && [ "$(<"$err")" = 'record: --until: leave was not reached again' ] &&
        [ "$(<"$out")" = $'2 0040100a\n2 0040100f\n2 00401011\n'"$(<"$err")" ]
    verdict 'record of one call of a function that is called once' $?
}

# fake_valgrind COMMANDS: what stands in for it writes one reference, and does this.
fake_valgrind() {
    mkdir -p "$work/valgrind"
    cat >"$work/valgrind/valgrind" <<END
#!/usr/bin/env bash
for word; do
    case \$word in --log-fd=*) exec 9>&"\${word#*=}" ;; esac
done
echo 'I  00001000,3' >&9
$1
END
    chmod +x "$work/valgrind/valgrind"
}

# breaks NAME STATUS LINE: the trace's last line says it too.
breaks() {
    PATH=$work/valgrind:$PATH run "$record" true
    [ "$status" -eq "$2" ] && [ "$(<"$err")" = "$3" ] && [ "$(<"$out")" = $'2 00001000\n'"$3" ]
    verdict "$1" $?
}
fake_valgrind 'echo "valgrind: the impossible happened" >&9; exit 1'
breaks 'record with a valgrind that fails' 70 'record: valgrind failed: the trace is not whole'
fake_valgrind 'kill -KILL $$'
breaks 'record with a valgrind that is killed' 137 'record: valgrind was killed: the trace is not whole'

# The last command of a pipe decides its status: no report is made of a trace that failed.
"$record" --split 3 true 2>/dev/null | "$bin/dinero_pipe" "${words[@]}" >"$out" 2>"$err"
status=$?
[ "$status" -eq 1 ] && [ ! -s "$out" ] && [ "$(<"$err")" = 'dinero_pipe: line 1: label' ]
verdict 'no report is made where record failed' $?

if has valgrind; then
    test_record
    test_no_folder
    ! has nm || test_early_interrupt
    if has gcc && assemble && assemble_parting; then
        test_known
        test_parting
    else
        skip 'record of known references' gcc
    fi
    nothing=$(without valgrind)
    fails 'record without valgrind' 69 'record: valgrind is missing: install the package valgrind' \
        env PATH="$nothing" "$record" true
else
    skip 'record of a program' valgrind
    fails 'record without valgrind' 69 'record: valgrind is missing: install the package valgrind' \
        "$record" true
fi
