# Where the simulator stands that bin/install has installed. There, this file is the program.sh of
# the commands beside it.
# shellcheck shell=bash disable=SC2154  # names that the commands set

# find_built NAME: sets `built`.
find_built() {
    built=$here/$1
}

# is_current NAME: the program stands there.
is_current() {
    local built
    find_built "$1"
    [ -x "$built" ]
}

# build_where_needed NAME: there is nothing here to build it from.
build_where_needed() {
    is_current "$1" || die 69 "$1 is missing: install it again"
}
