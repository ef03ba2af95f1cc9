# What the tests of this folder count. Read by them.
# shellcheck shell=bash

passed=0
failed=0
skipped=0

pass() {
    passed=$((passed + 1))
    echo "passed: $1"
}

fail() {
    failed=$((failed + 1))
    echo "failed: $1"
}

# skip NAME WHAT: the machine lacks what the test needs.
skip() {
    skipped=$((skipped + 1))
    echo "skipped: $1, without $2"
}

# need_program PROGRAM: ends the script if that is none.
need_program() {
    type -P -- "$1" >/dev/null && return
    echo "${0##*/}: $1 is no program, and the argument is the one to try" >&2
    exit 2
}

# tell: the counts in one line, with a status by them: some test has to have passed, and none to
# have failed. With NO_SKIPS=yes none may be skipped.
tell() {
    local line="$passed passed, $failed failed"
    [ "$skipped" -eq 0 ] || line+=", $skipped skipped"
    echo "$line"
    [ "$passed" -gt 0 ] && [ "$failed" -eq 0 ] && [[ $skipped -eq 0 || ${NO_SKIPS-} != yes ]]
}
