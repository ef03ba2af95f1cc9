# Tests that the commands do the same wherever they are called from, and whatever the caller has
# set. Read by tools.sh.
# shellcheck shell=bash disable=SC2154  # names that tools.sh and its other files set

# Beside a link, and where the call comes from, stands a file of the name of one that is read.
mkdir links
echo 'touch pwned' >links/common.sh
# Functions with the names of what a command begins with.
first=()
for name in unset set . source builtin command readlink; do
    first+=("BASH_FUNC_$name%%=() { echo own; return 1; }")
done
for command in dinero_pipe dinero_grid record sweep plot install prove release; do
    ln -s "$bin/$command" links/$command
    run env -C links ./$command --help
    "$bin/$command" --help | cmp -s - "$out" && [ "$status" -eq 0 ] && [ ! -s "$err" ] &&
        [ ! -e links/pwned ]
    verdict "$command by a link" $?
    rm links/$command
    run env -C links PATH="$bin:$PATH" bash $command --help
    "$bin/$command" --help | cmp -s - "$out" && [ "$status" -eq 0 ] && [ ! -e links/pwned ]
    verdict "bash $command, found by PATH" $?
    for words in "$bin/$command" "bash $bin/$command"; do
        # shellcheck disable=SC2086  # words
        run env "${first[@]}" $words --help
        "$bin/$command" --help | cmp -s - "$out" && [ "$status" -eq 0 ] && [ ! -s "$err" ]
        verdict "${words%% *} with the caller's functions" $?
    done
done
rm -r links

# In Turkish, an i is no letter between a and z, and its capital has a dot.
mkdir "$work/locales"
turkish=(env "LOCPATH=$work/locales" LC_ALL=tr_TR.UTF-8)
if has localedef && localedef -i tr_TR -f UTF-8 "$work/locales/tr_TR.UTF-8" 2>"$err"; then
    run "${turkish[@]}" "$sweep" --with l1-isize=l1-dsize "${grid[@]:0:6}" "${rest[@]:2}" \
        -- kinds.din
    [ "$status" -eq 0 ] && [ ! -s "$err" ] && [ "$(rows_of 2-4)" = '8 1 8,8 2 8,16 1 16,16 2 16,' ]
    verdict 'sweep in Turkish' $?
    run "${turkish[@]}" "$bin/install" prefix
    [ "$status" -eq 0 ] && head -q -n 1 prefix/share/man/man1/*.1 | cut -d ' ' -f 1-3 >"$out" &&
        [ "$(<"$out")" = "$(printf '.TH DINERO_%s 1\n' GRID PIPE PLOT RECORD SWEEP)" ]
    verdict 'install in Turkish' $?
    run "${turkish[@]}" "$bin/install" --remove prefix
    [ "$status" -eq 0 ] && [ ! -s "$err" ] && [ ! -e prefix ]
    verdict 'install --remove in Turkish' $?
else
    skip 'the commands in Turkish' 'the sources of locales (locales)'
fi

# What the caller says of stars, words, files and texts, and functions with the names of tools.
# shellcheck disable=SC2016  # the words of functions
own=('BASH_FUNC_cat%%=() { command cat -n "$@"; }' 'BASH_FUNC_cd%%=() { builtin cd "$@" && pwd; }'
    'BASH_FUNC_readlink%%=() { pwd; }' 'BASH_FUNC_read%%=() { return 1; }'
    'BASH_FUNC_declare%%=() { return 1; }' 'BASH_FUNC_unset%%=() { return 1; }'
    'BASH_FUNC_command%%=() { return 1; }' 'BASH_FUNC_.%%=() { return 1; }')
for option in SHELLOPTS=noglob SHELLOPTS=keyword SHELLOPTS=noclobber "${own[@]}"; do
    for again in '' ' again'; do
        ends "a task with $option$again" 0 '' \
            env "$option" "$sweep" --task 1/1 --into stars "${grid[@]}" -- kinds.din fifo.din
    done
    run env "$option" "$sweep" --gather stars
    check "sweep --gather with $option" is_table_of_rows
    rm -r stars
done
ends 'sweep of a word with a backslash, with xpg_echo' 2 \
    'sweep: unknown word: a\nb (traces stand behind --); try --help' \
    env BASHOPTS=xpg_echo "$sweep" 'a\nb'
ends 'plot of a size with a large letter, with nocasematch' 2 \
    "plot: --size: not WxH: '400X300'; try --help" \
    env BASHOPTS=nocasematch "$bin/plot" rates none.tsv none.svg --size 400X300

# How long a shell reads at most. The first run takes longer, and has ended in the second one.
test_long_read() {
    cat >"$work/slow-grid" <<'END'
#!/usr/bin/env bash
[ ! /dev/stdin -ef "$SLOW" ] || sleep 2
[ ! /dev/stdin -ef "$STILL" ] || exec sleep 60
exec "$REAL" "$@"
END
    chmod +x "$work/slow-grid"
    : >read.log
    start env TMOUT=1 REAL="$simulator" CALLS="$work/calls" GRID="$work/slow-grid" \
        SLOW="$PWD/kinds.din" STILL="$PWD/fifo.din" \
        "$noting/sweep" --jobs 1 --resume read.log "${grid[@]}" -- kinds.din fifo.din
    until_true lines_at_least read.log 5
    kill -INT -- "-$started"
    wait_for_started
    [ "$status" -eq 130 ] && [ "$(<"$err")" = "sweep: interrupted: 4 of 8 configurations are in \
read.log; the same call goes on from there" ]
    verdict 'sweep with a log, with TMOUT' $?
    rm read.log
}
test_long_read

# What is installed is for all users.
(umask 077 && exec "$bin/install" a/prefix) >"$out" 2>"$err"
status=$?
[ "$status" -eq 0 ] && [ "$(find a -type d -printf '%m\n' | sort -u)" = 755 ] &&
    [ "$(find a ! -type d -printf '%m\n' | sort -u | tr '\n' ' ')" = '644 755 ' ]
verdict 'install by a user whose files are private' $?
"$bin/install" --remove a/prefix >"$out"

# What can't be opened is told, also by a shell that goes by the letter of POSIX.
posix=(env POSIXLY_CORRECT=1)
ends 'a log where none can be, by POSIX' 4 'sweep: /dev/null/log could not be written: Not a directory' \
    "${posix[@]}" "$sweep" --resume /dev/null/log "${grid[@]}" -- kinds.din
ends 'plot of no table, by POSIX' 4 \
    'plot: no table to read: nowhere: No such file or directory' \
    "${posix[@]}" "$bin/plot" rates nowhere rates.svg
run "${posix[@]}" "$sweep" --resume posix.log --jobs 2 "${grid[@]}" -- kinds.din fifo.din
check 'sweep by POSIX' is_table_of_rows
rm posix.log

# What the caller has set by names that the command has for itself.
# shellcheck disable=SC2016  # the inner shell's words
fake_valgrind 'echo "$size,$from,$trace,$CDPATH" >&2'
run env size=1 from=2 trace=3 CDPATH=/ PATH="$work/valgrind:$PATH" "$record" true
[ "$status" -eq 0 ] && [ "$(<"$out")" = '2 00001000' ] && [ "$(<"$err")" = 1,2,3,/ ]
verdict "record hands on the caller's environment" $?
# More than half of what the system takes by default.
(
    printf -v long_text '%0100000d' 0
    for number in {1..12}; do export "long$number=$long_text"; done
    exec env size=1 PATH="$work/valgrind:$PATH" "$record" true
) >"$out" 2>"$err" </dev/null
status=$?
[ "$status" -eq 0 ] && [ "$(<"$out")" = '2 00001000' ] && [ "$(<"$err")" = 1,,, ]
verdict 'and a large one' $?
# A word that sets nothing. No shell hands one on, but a program can.
test_nameless_word() {
    echo 'touch pwned' >"$work/valgrind/lost"
    chmod +x "$work/valgrind/lost"
    PATH=$work/valgrind:$PATH python3 - "$record" >"$out" 2>"$err" </dev/null <<'END'
import ctypes, os, sys

def array(words):
    return (ctypes.c_char_p * (len(words) + 1))(*words, None)

command = os.fsencode(sys.argv[1])
words = [b'lost', b'=lost', b'size=1', b'PATH=' + os.environb[b'PATH']]
ctypes.CDLL(None).execve(command, array([command, b'true']), array(words))
END
    status=$?
    [ "$status" -eq 0 ] && [ "$(<"$out")" = '2 00001000' ] && [ "$(<"$err")" = 1,,, ] &&
        [ ! -e pwned ]
    verdict 'and one with words that set nothing' $?
}
if has python3; then
    test_nameless_word
else
    skip 'an environment with words that set nothing' 'python3 (python3)'
fi

# What the tools that unpack are told to do by default.
if has xz; then
    xz -c kinds.din >packed.din.xz
    run "$sweep" "${grid[@]}" -- kinds.din
    mv "$out" "$work/unpacked"
    run env GZIP=-t XZ_DEFAULTS=--list XZ_OPT=-t "$sweep" "${grid[@]}" -- packed.din.xz
    [ "$status" -eq 0 ] && [ ! -s "$err" ] &&
        cmp -s "$out" <(sed 's/^kinds.din/packed.din.xz/' "$work/unpacked")
    verdict 'sweep of a packed trace, whatever xz is told to do' $?
    rm packed.din.xz
else
    skip 'sweep of a packed trace, whatever xz is told to do' 'xz (xz-utils)'
fi
