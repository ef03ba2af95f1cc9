# Tests the help of the commands. Read by tools.sh.
# shellcheck shell=bash disable=SC2154  # names that tools.sh and its other files set

# unread NAME COMMAND..: its output is a pipe whose reader has gone.
unread() {
    local gone
    exec {gone}> >(:)
    wait $!
    status=0
    { "${@:2}" 2>"$err" </dev/null || status=$?; } >&"$gone"
    exec {gone}>&-
    [ "$status" -eq 141 ] && [ ! -s "$err" ]
    verdict "$1 where nobody reads it" $?
}

for command in record sweep plot install prove release; do
    run "$bin/$command" --help
    [ "$status" -eq 0 ] && [ ! -s "$err" ] && grep -q '^Usage: bin/'"$command" "$out" &&
        grep -q '^Exit status:' "$out"
    verdict "$command --help" $?
    to_full "$command --help to a full disk" "$command: the help text could not be written" \
        "$bin/$command" --help
    unread "$command --help" "$bin/$command" --help
done

for command in dinero_pipe dinero_grid record sweep plot install; do
    run "$bin/$command" --version
    [ "$status" -eq 0 ] && [ ! -s "$err" ] && [ "$(<"$out")" = "$command $(<"$top/VERSION")" ]
    verdict "$command --version" $?
    to_full "$command --version to a full disk" "$command: the version could not be written" \
        "$bin/$command" --version
done
for command in record sweep plot install; do
    unread "$command --version" "$bin/$command" --version
done

# helps_with_options COMMAND: each option that the command looks for is in its help.
helps_with_options() {
    local option
    "$bin/$1" --help >"$out"
    grep -hoE '^ +(-[a-z-]+ \| )*--[a-z-]+( \| --[a-z-]+)*\)' "$bin/$1" "$bin/$1"_*.sh |
        grep -oE -e '--[a-z-]+' | grep -vx -e --help | sort -u >"$work/options"
    [ -s "$work/options" ] || return
    while read -r option; do
        grep -q -e "$option" "$out" || return
    done <"$work/options"
}

for command in record sweep plot install; do
    check "$command --help has each option" helps_with_options $command
done
