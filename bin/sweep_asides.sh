# What goes on beside the rest of a sweep, on other cores. Read by sweep.
# shellcheck shell=bash

# begin NAME COMMAND WORD..: it is in a group of its own, and can be ended with all that it began.
declare -A asides=()
begin() {
    set -m
    "${@:2}" &
    asides[$1]=$!
    set +m
}

# finish NAME: waits until it has ended, and has its status.
finish() {
    local status=0
    wait "${asides[$1]}" || status=$?
    unset "asides[$1]"
    return "$status"
}

# end_asides: ends all that goes on. parallel, once told to end, winds up on other machines too.
end_asides() {
    local group
    for group in "${asides[@]}"; do
        kill -TERM -- "-$group" 2>/dev/null || true
    done
    for group in "${asides[@]}"; do
        end_group "$group"
    done
    asides=()
}

# end_group GROUP: waits until all of it have ended, and ends in a harder way those that do not.
end_group() {
    local tries
    for ((tries = 0; tries < 200; tries++)); do
        kill -0 -- "-$1" 2>/dev/null || return 0
        sleep 0.05
    done
    kill -KILL -- "-$1" 2>/dev/null || true
}
