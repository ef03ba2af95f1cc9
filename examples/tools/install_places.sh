# Tests that bin/install leaves alone what it has not installed, and takes a folder for PREFIX. Read
# by tools.sh.
# shellcheck shell=bash disable=SC2154  # names that tools.sh and its other files set

# What is not in the list, or has none, is of others.
test_foreign() {
    local name
    for name in "$program" "$page" usr/bin/dinero_sweep usr/lib/dinero_pipe/plot; do
        mkdir -p "${name%/*}"
        echo mine >"$name"
        find usr | LC_ALL=C sort >"$work/before"
        ends "install where a foreign $name stands" 4 \
            "install: $PWD/$name was not installed by this command, and is not replaced" \
            "$install" usr
        ends "install --remove of it" 1 "install: nothing to remove in $PWD/usr" \
            "$install" --remove usr
        [ "$(<"$name")" = mine ] && find usr | LC_ALL=C sort | cmp -s - "$work/before"
        verdict 'and all is as it was' $?
        rm -r usr
    done
    "$install" usr >"$out"
    sed -i '/^file bin\/dinero_plot$/d' usr/lib/dinero_pipe/installed
    ends 'install where a file is not in the list' 4 \
        "install: $PWD/usr/bin/dinero_plot was not installed by this command, and is not replaced" \
        "$install" usr
    run "$install" --remove usr
    [ "$status" -eq 0 ] && [ "$(find usr)" = $'usr\nusr/bin\nusr/bin/dinero_plot' ]
    verdict 'and install --remove leaves it there' $?
    rm -r usr
}
test_foreign

# Where nothing in the folder of temporary files may be run.
test_no_programs() {
    # shellcheck disable=SC2016  # the inner shell's words
    run unshare -rm sh -c 'mount -t tmpfs -o noexec none "$TMPDIR" && exec "$1" usr' - "$install"
    [ "$status" -eq 0 ] && [ ! -s "$err" ] && files_of usr | cmp -s - "$work/files"
    verdict 'install where no temporary file may be run' $?
    rm -rf usr
}
if unshare -rm mount -t tmpfs -o noexec none "$TMPDIR" 2>"$err"; then
    test_no_programs
else
    skip 'install where no temporary file may be run' 'the right to mount'
fi

# A checkout without a page of the manual.
new_checkout
for name in pipe grid; do "$fresh/bin/dinero_$name" --help; done >"$out" 2>&1
rm "$fresh/docs/dinero_grid.1"
ends 'install where a file is missing' 4 "install: the files could not be made: \
$fresh/docs/dinero_grid.1: No such file or directory" "$fresh/bin/install" usr
[ ! -e usr ]
verdict 'and nothing is placed' $?
rm -rf "$fresh"

# A prefix beside the folder that packages are made in, and one in it.
for word in "$PWD/away" away/.; do
    ends "install beside DESTDIR=$word" 2 \
        "install: DESTDIR is set, and $PWD/usr is not in it: give both as one folder; try --help" \
        env DESTDIR="$word" "$install" usr
done
[ ! -e usr ] && [ ! -e away ]
verdict 'and no such folder is made' $?
for word in '' / "$PWD" away; do
    run env DESTDIR="$word" "$install" away/usr
    [ "$status" -eq 0 ] && files_of away/usr | cmp -s - "$work/files"
    verdict "install in DESTDIR=$word" $?
    run env DESTDIR="$word" "$install" --remove away/usr
    [ "$status" -eq 0 ] && [ ! -e away ]
    verdict 'and --remove' $?
done

for word in "PREFIX=$PWD/usr" DESTDIR=; do
    ends "install with $word" 2 "install: give the folder alone: '${word#*=}'; try --help" \
        "$install" "$word"
done
[ ! -e PREFIX= ] && [ ! -e DESTDIR= ] && [ ! -e usr ]
verdict 'and no such folder is made' $?
run "$install" -- DESTDIR=usr
[ "$status" -eq 0 ] && [ -x DESTDIR=usr/bin/dinero_pipe ]
verdict 'install into a folder whose name has an equals sign' $?
rm -r DESTDIR=usr
