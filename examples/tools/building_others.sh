# Tests a checkout under another toolchain, and one of another user. Read by tools.sh, behind
# building.sh.
# shellcheck shell=bash disable=SC2154  # names that tools.sh and its other files set

# as_other COMMAND..: by a toolchain of another name.
as_other() {
    under 'one more' "$@"
}
new_checkout
as_other "$fresh/bin/prove"
[ "$status" -eq 0 ] && grep -q 'does not name the toolchain that built it here' "$out"
verdict 'prove says that the toolchain is another' $?
as_other "$fresh/.ci/kept_programs"
[ "$status" -eq 0 ] && grep -q 'does not name the toolchain that built it here' "$out"
verdict 'and so does the gate, which takes the same bits' $?
as_other "$fresh/bin/release"
[ "$status" -eq 0 ] && [ "$(toolchains "$fresh")" = "$(
    { toolchains "$top"; echo 'one more'; } | LC_ALL=C sort)" ]
verdict 'release adds a toolchain that builds the same program' $?
echo >>"$fresh/crates/sim_run/src/lib.rt"
as_other "$fresh/bin/release"
[ "$status" -eq 0 ] && [ "$(toolchains "$fresh")" = 'one more' ]
verdict 'and names it alone for other sources' $?
take_toolchain fake

way_out='its owner can call this once, or bin/install PREFIX, which makes programs that need no checkout'

# can_not_write CRATE: it says so, and does not begin to prove.
can_not_write() {
    [ "$status" -eq 70 ] && [ "$(wc -l <"$err")" -eq 2 ] &&
        grep -q '^dinero_pipe: the kept dinero_pipe is not taken: ' "$err" &&
        [ "$(tail -n 1 "$err")" = "dinero_pipe: dinero_pipe is missing or older than its sources, and $fresh/crates/$1/out can't be written; $way_out" ]
}

# can_not_put: it says in one line that the kept program has no place.
can_not_put() {
    [ "$status" -eq 70 ] && [ "$(<"$err")" = \
        "dinero_pipe: the kept dinero_pipe can't be put into $fresh/crates/dinero_pipe/out; $way_out" ]
}

for crate in dinero_pipe sim_run; do
    rm -rf "$fresh/crates/$crate/out"
    : >"$fresh/crates/$crate/out"
    launch
    check "a stale checkout where crates/$crate can not be written" can_not_write $crate
    rm "$fresh/crates/$crate/out"
done

# A checkout of somebody else's, who has the program or not, which then is stale.
chmod a+rx "$work"
as_guest() {
    run setpriv --reuid 65534 --regid 65534 --clear-groups \
        "$fresh/bin/dinero_pipe" "${words[@]}"
}
if [ "$(id -u)" -eq 0 ] && setpriv --reuid 65534 test -r "$fresh/crates.txt"; then
    new_checkout
    as_guest
    check 'a checkout of another user, without the program' can_not_put
    launch
    as_guest
    [ "$status" -eq 0 ] && grep -q '^l1-dcache' "$out" && [ ! -s "$err" ]
    verdict 'a checkout of another user, with the program' $?
    echo >>"$fresh/crates/sim_run/src/lib.rt"
    as_guest
    check 'a stale checkout of another user' can_not_write pipe_rings
    mkdir -p "$fresh/crates/dinero_pipe/out"
    chmod a+rwx "$fresh/crates/dinero_pipe/out"
    as_guest
    check 'a stale checkout of another user, but for one folder' can_not_write pipe_rings
else
    skip 'a checkout of another user' 'the rights of root'
fi
rm -rf "$fresh"
