# Tests bin/install and the man pages. Read by tools.sh.
# shellcheck shell=bash disable=SC2154  # names that tools.sh and its other files set

install=$bin/install
program=usr/bin/dinero_pipe
pages=usr/share/man/man1
page=$pages/dinero_pipe.1
version=$(<"$top/VERSION")

# files_of FOLDER: each with its mode.
files_of() {
    find "$1" ! -type d -printf '%m %P\n' | LC_ALL=C sort -k 2
}

# What is to be installed, besides the files that the commands read.
wanted() {
    local name
    for name in grid pipe plot record sweep; do echo "755 bin/dinero_$name"; done
    for name in dinero_grid dinero_pipe plot record sweep; do echo "755 lib/dinero_pipe/$name"; done
    for name in grid pipe plot record sweep; do echo "644 share/man/man1/dinero_$name.1"; done
}

run "$install" usr
files_of usr >"$work/files"
[ "$status" -eq 0 ] && [ ! -s "$err" ] &&
    [ "$(grep -v '^644 lib/dinero_pipe/' "$work/files")" = "$(wanted)" ] &&
    [ "$(LC_ALL=C sort "$out")" = "$(sed "s,^[0-9]* ,$PWD/usr/," "$work/files")" ]
verdict 'install' $?

# shows_version PAGE: its first line names the product with its version.
shows_version() {
    [[ $(head -n 1 "$1") == '.TH DINERO_'*" 1 \"\" \"dinero_pipe $version\" \"User Commands\"" ]]
}

# The version is in one file, and the newest heading of the changes names it.
[[ $version =~ ^[0-9]+\.[0-9]+\.[0-9]+$ ]] && [ "$(wc -l <"$top/VERSION")" -eq 1 ] &&
    [[ $(grep -m 1 '^## ' "$top/CHANGELOG.md") =~ ^"## $version"(,|$) ]]
verdict 'the version' $?
for name in grid pipe plot record sweep; do
    check "the man page of $name shows the version" shows_version "$pages/dinero_$name.1"
done
# The name is followed by a whole sentence, of which nothing is left for the description.
names_itself() {
    grep -A 1 '^\.SH NAME$' "$pages/dinero_$1.1" | grep -qE "^dinero_$1 \\\\- [a-z].*[a-z]\$" &&
        grep -A 2 '^\.SH DESCRIPTION$' "$pages/dinero_$1.1" | tail -n 1 | grep -qx ''
}
for name in plot record sweep; do
    check "the man page of $name says in a line what it does" names_itself "$name"
done
[ "$(sed '1,/^\.SH "SEE ALSO"$/d' "$pages/dinero_plot.1" | tr '\n' ' ')" = '.BR dinero_pipe (1), '\
'.BR dinero_grid (1), .BR dinero_record (1), .BR dinero_sweep (1), .BR gnuplot (1) ' ]
verdict 'the man page of plot leads to the others' $?
for name in grid pipe; do
    sed "1s/ $version//" "$pages/dinero_$name.1" | cmp -s - "$top/docs/dinero_$name.1"
    verdict "the man page of $name is as it was written but for that" $?
done
! grep -rIqF -e "$top" -e bin/record -e bin/sweep -e bin/plot usr/lib usr/share
verdict 'what is installed does not name the checkout' $?
run "$install" usr
[ "$status" -eq 0 ] && files_of usr | cmp -s - "$work/files"
verdict 'install once more' $?

# An installation that was moved, and is called from elsewhere.
from_away() (
    cd / || return
    PATH="$work/here/a b/bin:$PATH" "$@"
)
mv usr 'a b'
mapfile -t words <"$top/examples/1-kinds/kinds.words"
from_away dinero_pipe "${words[@]}" <kinds.din 2>"$err" |
    cmp -s - "$top/examples/1-kinds/kinds.report"
verdict 'the installed simulator' $?
mapfile -t many <"$top/crates/dinero_grid/args"
from_away dinero_grid "${many[@]}" <"$top/crates/dinero_grid/stdin" 2>"$err" |
    cmp -s - "$top/crates/dinero_grid/stdout"
verdict 'the installed simulator of many configurations' $?
run from_away dinero_sweep "${grid[@]}" -- "$PWD/kinds.din"
[ "$status" -eq 0 ] && [ ! -s "$err" ] && sed "s,^$PWD/,," "$out" | cmp -s - kinds.tsv
verdict 'the installed sweep' $?
run from_away dinero_record --split 3 true
[ "$status" -eq 2 ] && [[ $(<"$err") == 'record: --split: not a power of two'* ]]
verdict 'the installed record' $?
ln -s 'a b/bin/dinero_plot' plot
run ./plot --help
[ "$status" -eq 0 ] && grep -q '^Usage: dinero_plot KIND' "$out"
verdict 'the installed plot, by a link' $?
run env PATH="$PWD/a b/bin:$PATH" bash dinero_plot --help
[ "$status" -eq 0 ] && grep -q '^Usage: dinero_plot KIND' "$out"
verdict 'the installed plot, found by PATH' $?
run env -C 'a b/bin' sh dinero_plot --help
[ "$status" -eq 0 ] && grep -q '^Usage: dinero_plot KIND' "$out"
verdict 'the installed plot, by its name from its own folder' $?
if has valgrind && [ -x walk ]; then
    run from_away dinero_record --from leave "$PWD/walk"
    [ "$status" -eq 0 ] && [ "$(<"$out")" = $'2 0040100a\n2 0040100f\n2 00401011' ]
    verdict 'the installed record of a program' $?
else
    skip 'the installed record of a program' 'valgrind and gcc'
fi
if has gnuplot; then
    run from_away dinero_plot kinds "$PWD/kinds.tsv" "$PWD/away.svg"
    run "$bin/plot" kinds kinds.tsv near.svg
    cmp -s near.svg away.svg
    verdict 'the installed plot of a table' $?
else
    skip 'the installed plot of a table' gnuplot-nox
fi
if has groff; then
    for name in plot record sweep; do
        groff -ww -man -Tascii -rLL=120n -P -cbu "a b/share/man/man1/dinero_$name.1" 2>"$err" |
            sed 's/^ *//' | LC_ALL=C sort >"$work/shown"
        from_away "dinero_$name" --help | sed '1d; s/^ *//; /^$/d' | LC_ALL=C sort >"$work/help"
        [ ! -s "$err" ] && [ -z "$(LC_ALL=C comm -13 "$work/shown" "$work/help")" ]
        verdict "the man page of $name has its help" $?
    done
    for name in grid pipe plot record sweep; do
        groff -ww -man -Tascii -P -cbu "a b/share/man/man1/dinero_$name.1" >"$work/shown" 2>"$err"
        [ ! -s "$err" ] && grep -q "^dinero_pipe $version  .*(1)\$" "$work/shown"
        verdict "the man page of $name at a terminal" $?
        [ "$(wc -l <"$work/shown")" -gt 40 ] && ! grep '.\{81\}' "$work/shown" >"$err"
        verdict "and its lines have room in 80 columns" $?
    done
else
    skip 'the man pages of the commands' groff
fi
for name in grid pipe plot record sweep; do
    run from_away dinero_$name --version
    [ "$status" -eq 0 ] && [ "$(<"$out")" = "dinero_$name $version" ]
    verdict "the version of dinero_$name" $?
done
mv 'a b' usr
to_full 'the version to a full disk' 'dinero_grid: the version could not be written' \
    usr/bin/dinero_grid --version
mv usr/lib/dinero_pipe/dinero_grid .
ends 'the installed dinero_grid without the program' 69 \
    'dinero_grid: lib/dinero_pipe/dinero_grid is missing: install it again' usr/bin/dinero_grid
ends 'the installed sweep without its simulator' 69 \
    'sweep: dinero_grid is missing: install it again' usr/bin/dinero_sweep "${grid[@]}" -- kinds.din
mv dinero_grid usr/lib/dinero_pipe
run "$install" --remove usr
[ "$status" -eq 0 ] && [ ! -s "$err" ] && [ ! -e usr ]
verdict 'install --remove' $?

# The names are of what is done already, also where nobody reads them.
to_full 'install to a full disk' \
    'install: all is installed, but the names of the files could not be written' "$install" usr
"$install" usr >"$out" && files_of usr | cmp -s - "$work/files"
verdict 'and all is installed' $?
cp -r usr aside
to_full 'install --remove to a full disk' \
    'install: all is removed, but the names of the files could not be written' \
    "$install" --remove usr
mv aside usr
"$install" --remove usr 2>"$err" | true
status=${PIPESTATUS[0]}
[ ! -e usr/bin ] && [ ! -e usr/lib ]
verdict 'install --remove whose reader goes away' $?
rm -rf usr

# A removal that was cut off is made again, since the list of the files is the last of them.
"$install" usr >"$out"
mkdir stuck && mv usr/lib/dinero_pipe/sweep stuck && mkdir usr/lib/dinero_pipe/sweep
run "$install" --remove usr
[ "$status" -eq 4 ] && [ ! -s "$out" ] &&
    [ "$(<"$err")" = "install: $PWD/usr/lib/dinero_pipe/sweep could not be removed" ] &&
    [ -e usr/lib/dinero_pipe/installed ]
verdict 'install --remove that is cut off' $?
rmdir usr/lib/dinero_pipe/sweep && mv stuck/sweep usr/lib/dinero_pipe && rmdir stuck
run "$install" --remove usr
[ "$status" -eq 0 ] && [ ! -s "$err" ] && [ ! -e usr ]
verdict 'and is made again' $?

# Above an installation that was moved stands what it did not make.
"$install" new/prefix >"$out" && mkdir moved && mv new/prefix moved && rmdir new
run "$install" --remove moved/prefix
[ "$status" -eq 0 ] && [ ! -s "$err" ] && [ "$(find moved)" = $'moved\nmoved/prefix' ]
verdict 'install --remove of an installation that was moved' $?
"$install" new/prefix >"$out" && mv new/prefix moved && rmdir new && "$install" moved/prefix >"$out"
"$install" --remove moved/prefix >"$out" && [ "$(find moved)" = $'moved\nmoved/prefix' ]
verdict 'and of one that was then installed anew' $?
rm -r moved

# What stood there before stays, and so does what others put there.
mkdir -p usr/share/man
"$install" usr/share/new/prefix >"$out" && "$install" usr >"$out" && touch usr/lib/dinero_pipe/mine
run "$install" --remove usr
[ "$status" -eq 0 ] && [ "$(find usr ! -path 'usr/share/new*' | LC_ALL=C sort | tr '\n' ' ')" = \
    'usr usr/lib usr/lib/dinero_pipe usr/lib/dinero_pipe/mine usr/share usr/share/man ' ]
verdict 'install --remove leaves what it did not make' $?
run "$install" --remove usr/share/new/prefix
[ "$status" -eq 0 ] && [ "$(ls usr/share)" = man ]
verdict 'install --remove of a prefix that was made, and of what was made above it' $?
rm -r usr
mkdir -p usr/bin/x usr/lib/dinero_pipe
touch "$program"
for line in 'file ../kinds.din' 'file bin/x/../../../kinds.din' 'file bin/x /' 'folder bin/x'; do
    printf '%s\n' 'file bin/dinero_pipe' "$line" >usr/lib/dinero_pipe/installed
    ends "install --remove with a damaged list: $line" 4 \
        "install: $PWD/usr/lib/dinero_pipe/installed is damaged" "$install" --remove usr
    [ -e "$program" ] && [ -e kinds.din ] && [ -e usr/bin/x ]
    verdict 'and nothing is removed' $?
done
rm -r usr
ends 'install --remove of nothing' 1 "install: nothing to remove in $PWD/usr" "$install" --remove "$PWD/usr"
# Were these not refused, they would install into the system.
guest=()
if [ "$(id -u)" -eq 0 ] && setpriv --reuid 65534 test -x "$install"; then
    guest=(env -C / setpriv --reuid 65534 --regid 65534 --clear-groups)
fi
ends 'install with an unknown option' 2 "install: unknown option: '--all'; try --help" \
    "${guest[@]}" "$install" --all
ends 'install with two folders' 2 'install: more than one folder is given; try --help' "$install" a b
ends 'install with an empty name' 2 'install: the name of the folder is empty; try --help' \
    "${guest[@]}" "$install" ''
# shellcheck disable=SC2016  # the inner shell has the word
run bash -c 'mkdir gone && cd gone && rmdir ../gone && exec "$1" relative' - "$install"
[ "$status" -eq 4 ] &&
    [ "$(tail -n 1 "$err")" = 'install: relative has no whole name: is the working folder gone?' ]
verdict 'install from a folder that is gone' $?
mkdir damaged && cp -r "$bin" damaged/bin
ends 'install without a version' 4 "install: $PWD/damaged/VERSION is missing or damaged" \
    damaged/bin/install usr
echo 1.0 >damaged/VERSION
ends 'install with a damaged version' 4 "install: $PWD/damaged/VERSION is missing or damaged" \
    damaged/bin/install usr
rm -r damaged
ends 'install where no folder can be' 4 'install: the folder /dev/null/lib/dinero_pipe could not be made' \
    "$install" /dev/null
# What another call is changing.
mkdir -p usr/lib/dinero_pipe
exec {held}<usr/lib/dinero_pipe
flock "$held"
ends 'install where another call does' 4 "install: $PWD/usr is being changed by another call" \
    "$install" "$PWD/usr"
ends 'install --remove where another call installs' 4 \
    "install: $PWD/usr is being changed by another call" "$install" --remove "$PWD/usr"
exec {held}<&-
[ "$(find usr)" = $'usr\nusr/lib\nusr/lib/dinero_pipe' ]
verdict 'and nothing is placed' $?
rm -r usr
stopped 'install' cp "$install" "$PWD/usr"
[ ! -e usr ]
verdict 'and nothing is left' $?
ends 'install where there is no room' 4 \
    "install: $PWD/usr/lib/dinero_pipe/dinero_pipe could not be written: File too large" \
    no_room 100 "$install" "$PWD/usr"
[ ! -e usr ]
verdict 'and no part of it is left' $?
# What is installed already stays, also as a link that leads nowhere, until it is removed.
"$install" usr >"$out"
ln -sf nowhere usr/bin/dinero_plot
run no_room 100 "$install" usr
[ "$status" -eq 4 ] && [ -L usr/bin/dinero_plot ] &&
    files_of usr | grep -v /dinero_plot$ | cmp -s - <(grep -v /dinero_plot$ "$work/files")
verdict 'install once more where there is no room' $?
run "$install" --remove usr
[ "$status" -eq 0 ] && [ ! -s "$err" ] && [ ! -e usr ]
verdict 'and --remove' $?
ends 'install where there is no room for a list' 4 "install: no room for temporary files in $TMPDIR" \
    no_room 4 "$install" "$PWD/usr"

# A man page has the help's options, each with its value and its words, in the help's order.
help_options() {
    sed -nE 's/^  (-h, |    )--([a-z0-9-]+)( <([^>]*)>)? +([^ ].*)$/\2|\4|\5/p' "$1"
}

page_options() {
    sed -e 's/\\-/-/g' "$1" | awk '/^\.TP/ {
        getline tag
        getline text
        split(tag, part, "\"")
        value = tag ~ /^\.BI/ ? substr(part[2], 2) : ""
        sub(/.*--/, "", tag)
        sub(/ .*/, "", tag)
        print tag "|" value "|" text
    }'
}

# words_of FILE: its words in lower case, a line each.
words_of() {
    sed -e 's/\\-/-/g' "$1" | tr '[:upper:]' '[:lower:]' | tr -cs '[:alnum:]' '\n' | sort -u
}

# compare_page NAME COUNT: of options.
compare_page() {
    local page=$top/docs/dinero_$1.1
    "$bin/dinero_$1" --help >"$work/help"
    help_options "$work/help" >"$work/in-help"
    sed -n '/^\.SH OPTIONS/,/^\.SH VALUES/p' "$page" >"$work/options.1"
    page_options "$work/options.1" >"$work/in-page"
    [ "$(wc -l <"$work/in-help")" -eq "$2" ] && diff "$work/in-help" "$work/in-page" >"$err"
    verdict "the options of the man page of $1 against the help" $?
    comm -23 <(words_of "$work/help") <(words_of "$page") >"$err"
    [ "$(<"$err")" = usage ]
    verdict "the words of the man page of $1 against the help" $?
}

compare_page pipe 21
compare_page grid 22
