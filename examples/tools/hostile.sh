# Tests bin/record and bin/install with names that a shell or another tool could take for its own
# words, in each place where a name can stand. Read by tools.sh.
# shellcheck shell=bash disable=SC2154  # names that tools.sh and its other files set
# shellcheck disable=SC2016  # nothing in these names is to be expanded

hostile=(
    $'-x `touch pwned`$(touch pwned);touch pwned\'"|touch pwned&\n\\*?[a]{} %s~#\n'
    --remove
    @words
)
mkdir hostile
cd hostile || exit

# unharmed WHAT STATUS: the test passes, and no word of a name was run.
unharmed() {
    [ "$2" -eq 0 ] && [ -z "$(find . -name pwned)" ]
    verdict "$1" $?
}

# A program with two functions of such names, the second of which is never reached.
assemble_hostile() {
    cat >known.s <<'END'
        .globl _start, "-`touch pwned`$(touch pwned);' |", "--from"
_start: mov $60, %eax
"-`touch pwned`$(touch pwned);' |":
        xor %edi, %edi
        syscall
"--from":
        ret
END
    gcc -nostdlib -static -no-pie -Wl,-Ttext=0x401000 -o known known.s
}

# record_hostile NAME: a program of this name, in a folder of this name, called from elsewhere and
# from there, with a checkout and temporary files in such folders too.
record_hostile() {
    mkdir -p -- "./$1/bin"
    cp "$bin"/common.sh "$bin"/record* "./$1/bin"
    cp known "./$1/$1"
    run env TMPDIR="$PWD/$1" "./$1/bin/record" \
        --from '-`touch pwned`$(touch pwned);'"' |" -- "$1/$1"
    [ "$status" -eq 0 ] && [ "$(<"$out")" = $'2 00401005\n2 00401007' ] && [ ! -s "$err" ]
    unharmed "record of a program called ${1@Q}" $?
    run env PATH="$PWD/$1:$PATH" "$record" --split 64 -- "$1"
    [ "$status" -eq 0 ] && [ "$(<"$out")" = $'2 00401000\n2 00401005\n2 00401007' ]
    unharmed 'and where it is found on the path' $?
    run "$record" --until "$1" -- "$1/$1"
    [ "$status" -eq 2 ] && [ "$(wc -l <"$err")" -eq 1 ] && cmp -s "$out" "$err" &&
        [[ $(<"$out") == 'record: --until: nm finds no function '* ]]
    unharmed 'and --until a function of this name' $?
}

# install_hostile NAME: a prefix of this name, with temporary files in such a folder too.
install_hostile() {
    mkdir -p -- "./$1/tmp"
    run env TMPDIR="$1/tmp" "$install" -- "$1/$1"
    [ "$status" -eq 0 ] && [ ! -s "$err" ] && [ -z "$(ls -A "./$1/tmp")" ]
    unharmed "install in a folder called ${1@Q}" $?
    run env PATH="$PWD/$1/$1/bin:$PATH" dinero_sweep "${grid[@]}" -- ../kinds.din
    [ "$status" -eq 0 ] && sed 's,^\.\./,,' "$out" | cmp -s - ../kinds.tsv
    unharmed 'and the sweep that is installed there' $?
    run env PATH="$PWD/$1/$1/bin:$PATH" dinero_record --split "$1" true
    [ "$status" -eq 2 ] && [[ $(<"$err") == 'record: --split: not a power of two'* ]]
    unharmed 'and the record that is installed there' $?
    run "$install" --remove -- "$1/$1"
    [ "$status" -eq 0 ] && [ -z "$(ls -A "./$1/tmp")" ] && [ ! -e "$PWD/$1/$1" ]
    unharmed 'and --remove' $?
}

# checkout_hostile NAME: a checkout in a folder of this name, as it is, and with a source changed.
checkout_hostile() {
    mkdir -- "./$1" bin
    tar -C "$top" --exclude=out --exclude=.git --exclude=lab -cf - . | tar -C "./$1" -xf -
    run env -C "./$1" CDPATH="$PWD" bin/dinero_pipe "${words[@]}"
    [ "$status" -eq 0 ] && [ "$(<"$err")" = "dinero_pipe: $(kept_words dinero_pipe)" ]
    unharmed "a checkout in a folder called ${1@Q}" $?
    echo >>"./$1/crates/sim_run/src/lib.rt"
    run env TOOLCHAIN="$toolchain" PATH="$work/fake:$PATH" "./$1/bin/dinero_pipe" --help
    [ "$status" -eq 70 ] && grep -q '^rt lib: nothing is proved here' "$err"
    unharmed 'and a stale one' $?
}

# Each argument as it is.
if has valgrind; then
    run "$record" --split 64 -- printf '%s|' "${hostile[@]}"
    [ "$status" -eq 0 ] && [ "$(<"$err")" = "$(printf '%s|' "${hostile[@]}")" ]
    unharmed 'record hands on arguments as they are' $?
    if has gcc && assemble_hostile; then
        for name in "${hostile[@]}"; do record_hostile "$name"; done
        run "$record" --until --from -- ./known
        [ "$status" -eq 65 ] && [ "$(<"$err")" = 'record: --until: --from was not reached' ] &&
            [ "$(tail -n 1 "$out")" = "$(<"$err")" ]
        unharmed 'record --until a function with the name of an option' $?
    else
        skip 'record of programs with hostile names' gcc
    fi
else
    skip 'record with hostile names' valgrind
fi
rm -rf -- ./*
for name in "${hostile[@]}"; do install_hostile "$name"; done
rm -rf -- ./*
checkout_hostile "${hostile[0]}"
cd .. || exit
rm -rf hostile
