# Tests the guide's lines for traces of other tools. Read by tools.sh.
# shellcheck shell=bash disable=SC2154  # names that tools.sh and its other files set

# The guide's line of awk for each format, over a sample of it.
for format in lackey pinatrace plain dinero; do
    line=$(grep -oE "^ +awk '.*' (< )?examples/formats/$format\.txt" "$top/docs/GUIDE.md")
    [ -n "$line" ] && run env -C "$top" sh -c "$line" && [ "$status" -eq 0 ] &&
        cmp -s "$out" "$top/examples/formats/$format.din"
    verdict "the guide's awk for $format" $?
done
# The guide's function that prints columns, which says which it lacks.
eval "$(sed -n '/^    pick() {$/,/^    }$/p' "$top/docs/GUIDE.md")"
printf 'trace\tl1-dsize\nkinds.din\t8k\n' >sizes.tsv
[ "$(pick l1-dsize trace <sizes.tsv)" = $'l1-dsize\ttrace\n8k\tkinds.din' ]
verdict "the guide's pick" $?
status=0
pick trace l1-dsiz l1 <sizes.tsv >"$out" 2>"$err" || status=$?
[ "$status" -eq 1 ] && [ ! -s "$out" ] && [ "$(<"$err")" = 'no column l1-dsiz l1' ]
verdict "the guide's pick of columns that are not there" $?
run awk -v block_bytes=0 -f "$bin/record_filter.awk" "$top/examples/formats/lackey.txt"
[ "$status" -eq 0 ] && cmp -s "$out" "$top/examples/formats/lackey.din"
verdict "record's awk" $?
