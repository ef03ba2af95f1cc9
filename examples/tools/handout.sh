# Tests examples/handout.sh. Read by tools.sh.
# shellcheck shell=bash disable=SC2154  # names that tools.sh and its other files set

handout=$top/examples/handout.sh
ends 'a hand-out without words' 2 'handout: a trace and a folder are needed; try --help' "$handout"
ends 'a hand-out of no trace' 4 \
    'sweep: no trace to read: nowhere.din: No such file or directory' "$handout" nowhere.din made
run env -C "$top" CDPATH="$top" examples/handout.sh --help
[ "$status" -eq 0 ] && [ ! -s "$err" ] && grep -q '^Usage: examples/handout.sh' "$out"
verdict 'the help of a hand-out, with a CDPATH' $?
ln -s "$handout" made-by
run ./made-by --help
[ "$status" -eq 0 ] && [ ! -s "$err" ] && grep -q '^Usage: examples/handout.sh' "$out"
verdict 'a hand-out by a link' $?
run env 'BASH_FUNC_set%%=() { echo own; return 1; }' \
    'BASH_FUNC_readlink%%=() { echo own; return 1; }' "$handout" --help
[ "$status" -eq 0 ] && [ ! -s "$err" ] && [ "$("$handout" --help)" = "$(<"$out")" ]
verdict "a hand-out with the caller's functions" $?
ends 'a hand-out into an empty name' 2 'handout: a trace and a folder are needed; try --help' \
    "$handout" hand.din ''
printf '0 0\n0 400\n0 0\n1 400\n2 0\n' >hand.din

# Two blocks that meet in a direct-mapped cache of 1 KiB, and nowhere else: of its four misses, two
# are compulsory and two are conflict misses.
test_handout() {
    run "$handout" hand.din made
    [ "$status" -eq 0 ] && [ ! -s "$err" ] && [ "$(ls made)" = $'blocks.svg\nkinds.svg\nsizes.svg\ntable.md' ] &&
        [ "$(wc -l <made/table.md)" -eq 30 ] &&
        grep -qxF '| 1k | 1 | 4 | 4 | 1.000000 | 2 | 0 | 2 |' made/table.md &&
        grep -qxF '| 1k | 2 | 4 | 2 | 0.500000 | 2 | 0 | 0 |' made/table.md &&
        grep -qxF '| 64k | 8 | 4 | 2 | 0.500000 | 2 | 0 | 0 |' made/table.md
    verdict 'a hand-out' $?
    chmod 600 made/table.md && run "$handout" hand.din made
    [ "$status" -eq 0 ] && [ "$(stat -c %a made/table.md)" = 600 ]
    verdict 'a hand-out keeps the modes of its files' $?
    gzip -k hand.din && run "$handout" hand.din.gz packed && cmp -s made/table.md packed/table.md
    verdict 'a hand-out of a packed trace' $?
    mkdir sealed && touch sealed/in && run "$handout" hand.din sealed/in
    [ "$status" -eq 4 ] && [ "$(<"$err")" = 'handout: ./sealed/in could not be made' ]
    verdict 'a hand-out into a file' $?
}
if has gnuplot; then test_handout; else skip 'a hand-out' gnuplot-nox; fi

printf '2 0\n2 4\n' >fetches.din
ends 'a hand-out of a trace without data' 1 'handout: fetches.din has no data references' \
    "$handout" fetches.din faulty
[ ! -e faulty ]
verdict 'and nothing is made of it' $?
printf '0 0\nx\n' >bad.din
run "$handout" bad.din faulty
[ "$status" -eq 1 ] && [ ! -e faulty ]
verdict 'a hand-out of a faulty trace' $?
