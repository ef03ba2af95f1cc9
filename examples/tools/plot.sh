# Tests bin/plot. Read by tools.sh.
# shellcheck shell=bash disable=SC2154  # names that tools.sh and its other files set

plot=$bin/plot
"$sweep" "${grid[@]}" -- kinds.din >kinds.tsv 2>"$err"
"$sweep" "${grid[@]}" -- kinds.din fifo.din >both.tsv 2>"$err"

ends 'plot without words' 2 'plot: a kind, a table and a picture are needed; try --help' "$plot"
ends 'plot of an unknown kind' 2 'plot: unknown kind: pie; try --help' "$plot" pie kinds.tsv pie.svg
ends 'plot to an unknown format' 2 'plot: none of .svg, .png and .pdf: kinds.gif; try --help' \
    "$plot" kinds kinds.tsv kinds.gif
ends 'plot with a word too many' 2 'plot: a word behind the picture: more; try --help' \
    "$plot" kinds kinds.tsv kinds.svg more
ends 'plot of a table that is not there' 4 \
    'plot: no table to read: nowhere.tsv: No such file or directory' \
    "$plot" kinds nowhere.tsv kinds.svg

# shows FILE WORDS..: each of them is a text of the picture.
shows() {
    local word
    python3 "$top/examples/tools/svg_texts.py" "$1" >"$work/texts" 2>"$err" || return
    for word in "${@:2}"; do
        grep -qxF -- "$word" "$work/texts" || { echo "no text: $word" >"$err" && return 1; }
    done
}

# bars FILE COLOUR: how many boxes of a picture are filled with it. The key has one too.
bars() {
    grep -c "fill *= *['\"]rgb($2)" "$1"
}

# Several values of one option, and of one that the picture does not tell apart.
test_choice() {
    run "$plot" rates kinds.tsv two.svg --only l1-dassoc=1 --only l1-dassoc 2
    run "$plot" rates kinds.tsv one.svg --only l1-dassoc 2
    shows two.svg '1 way' '2 ways' && shows one.svg '2 ways' && ! shows one.svg '1 way'
    verdict 'a picture of two values of an option, and of one' $?
    ends 'plot of two values, one of which no line has' 1 \
        'plot: kinds.tsv: no line without a fault has l1-dassoc=8' \
        "$plot" rates kinds.tsv none.svg --only l1-dassoc=1 --only l1-dassoc=8
    ends 'plot of two traces at once' 1 \
        'plot: both.tsv: lines 2 and 6 differ in trace: choose by --only, or take --by trace' \
        "$plot" rates both.tsv none.svg --only trace=kinds.din --only trace=fifo.din
    ends 'plot of two caches' 2 'plot: --cache is given twice; try --help' \
        "$plot" rates kinds.tsv none.svg --cache l1-dcache --cache l1-dcache
}

# A table that is no file, and names that begin with a hyphen.
test_streams() {
    local table
    for table in - /dev/stdin; do
        rm -f piped.svg
        "$plot" rates "$table" piped.svg <kinds.tsv >"$out" 2>"$err" && cmp -s piped.svg rates.svg
        verdict "plot of the table $table" $?
        "$plot" rates "$table" piped.svg < <(cat kinds.tsv) >"$out" 2>"$err" &&
            cmp -s piped.svg rates.svg
        verdict "plot of the table $table from a pipe" $?
    done
    run "$plot" rates <(cat kinds.tsv) --only l1-dassoc=2 -- -x.svg
    [ "$status" -eq 0 ] && shows ./-x.svg 'kinds.din, l1-dcache'
    verdict 'plot to a name that begins with a hyphen' $?
    ends 'plot with an unknown option' 2 'plot: unknown option: -x.svg; try --help' \
        "$plot" rates kinds.tsv -x.svg
    ends 'plot of a folder' 4 'plot: no table to read: .: Is a directory' "$plot" rates . none.svg
}

test_plot() {
    run "$plot" kinds kinds.tsv kinds.svg
    [ "$status" -eq 0 ] && [ ! -s "$out$err" ] &&
        shows kinds.svg 'kinds.din, l1-dcache' 'size of l1-dcache (bytes)' \
            'misses (% of accesses)' 'each miss' 'by its own kind' \
            compulsory capacity conflict '1 way' '2 ways' 8 16
    verdict 'a picture of the kinds of miss' $?
    [ "$(grep -c '<title>each miss by its own kind</title>$' kinds.svg)" -eq 3 ] &&
        ! grep -F '\n' kinds.svg >"$err"
    verdict 'the names of its bars stand in one line' $?
    # Four configurations have compulsory misses, so four bars are begun, and one stands in the key.
    [ "$(bars kinds.svg ' *8, *48, *107')" -eq 5 ]
    verdict 'it has a bar for each configuration' $?
    run "$plot" rates kinds.tsv rates.svg
    [ "$status" -eq 0 ] && [ ! -s "$out$err" ] &&
        shows rates.svg 'kinds.din, l1-dcache' 'size of l1-dcache (bytes)' \
            'miss rate (% of accesses)' \
            '1 way' '2 ways' 8 16
    verdict 'a picture of the miss rates' $?
    grep 'class="gridline"' rates.svg >"$work/grid" && ! grep -q dasharray "$work/grid"
    verdict 'and the lines of its grid are whole' $?
    for kind in kinds rates; do
        run "$plot" $kind kinds.tsv $kind.png
        [ "$status" -eq 0 ] && [ "$(head -c 8 $kind.png | od -An -tx1 | tr -d ' ')" = 89504e470d0a1a0a ] &&
            [ "$(tail -c 8 $kind.png | head -c 4)" = IEND ]
        verdict "a picture of the $kind as PNG" $?
        run "$plot" $kind kinds.tsv $kind.pdf
        [ "$status" -eq 0 ] && [ ! -s "$out$err" ] && [ "$(head -c 5 $kind.pdf)" = %PDF- ] &&
            [ "$(tail -n 1 $kind.pdf)" = %%EOF ]
        verdict "a picture of the $kind as PDF" $?
    done
    test_lacking_tables
    test_faulty_tables
    test_places
    test_ended
    test_choice
    test_streams
}

test_lacking_tables() {
    run "$plot" kinds both.tsv only.svg --only trace=fifo.din
    [ "$status" -eq 0 ] && shows only.svg 'fifo.din, l1-dcache'
    verdict 'a picture of one trace of several' $?
    ends 'plot of several traces' 1 \
        'plot: both.tsv: lines 2 and 6 differ in trace: choose by --only, or take --by trace' \
        "$plot" kinds both.tsv none.svg
    ends 'plot of another file' 1 'plot: kinds.din: no table of bin/sweep' \
        "$plot" rates kinds.din none.svg
    ends 'plot of a cache whose size is not varied' 1 \
        'plot: kinds.tsv: the table has no column l2-usize: choose the axis by --over' \
        "$plot" rates kinds.tsv none.svg --cache l2-ucache
    ends 'plot of a value that no line has' 1 'plot: kinds.tsv: no line without a fault has trace=none' \
        "$plot" rates kinds.tsv none.svg --only trace=none
    sed '1s/l1-dcache-fully-associative-misses/others/' kinds.tsv >lacking.tsv
    ends 'plot of whole counts that are not there' 1 \
        'plot: lacking.tsv: the table has no column l1-dcache-fully-associative-misses' \
        "$plot" kinds lacking.tsv none.svg --whole-counts
}

test_faulty_tables() {
    head -n 1 kinds.tsv >empty.tsv
    awk -F '\t' -v OFS='\t' 'NR > 1 { $NF = "l1-dsize" } { print }' kinds.tsv >faults.tsv
    ends 'plot of lines that all have a fault' 1 \
        'plot: faults.tsv: each line has a fault, the first: line 2: l1-dsize' \
        "$plot" kinds faults.tsv none.svg
    awk -F '\t' -v OFS='\t' 'NR == 2 { $NF = "l1-dsize" } { print }' kinds.tsv >fault.tsv
    run "$plot" kinds fault.tsv fault.svg
    [ "$status" -eq 0 ] && [ -s fault.svg ] &&
        [ "$(<"$err")" = 'plot: fault.tsv: lines left out for their faults: 1' ]
    verdict 'plot of a table with a fault' $?
    ends 'plot of no line' 1 'plot: empty.tsv: no line of the table is left' \
        "$plot" rates empty.tsv none.svg
    : >empty.tsv
    ends 'plot of an empty table' 1 'plot: empty.tsv: no table of bin/sweep' \
        "$plot" rates empty.tsv none.svg
    head -n 1 kinds.tsv | cat - <(echo $'kinds.din\t8\t1') >short.tsv
    ends 'plot of a line that is cut off' 1 \
        'plot: short.tsv: line 2: 3 fields, where the names are 37' "$plot" rates short.tsv none.svg
}

test_places() {
    ends 'plot into no folder' 4 \
        'plot: nowhere/none.svg could not be written: No such file or directory' \
        "$plot" kinds kinds.tsv nowhere/none.svg
    ends 'plot where there is no room' 4 "plot: no room for temporary files in $TMPDIR" \
        no_room 4 "$plot" kinds kinds.tsv none.svg
    "$plot" rates - none.svg <&- >"$out" 2>"$err"
    status=$?
    [ "$status" -eq 4 ] && [ "$(<"$err")" = 'plot: no table to read: standard input is closed' ]
    verdict 'plot of a closed input' $?
    mkfifo pipe.svg
    ends 'plot into a pipe' 4 'plot: pipe.svg could not be written: Not a regular file' \
        "$plot" kinds kinds.tsv pipe.svg
    run env GNUTERM=qt "$plot" kinds kinds.tsv other.svg
    [ "$status" -eq 0 ] && [ ! -s "$err" ] && cmp -s kinds.svg other.svg
    verdict "plot with gnuplot's own variable for its terminal" $?
    cp kinds.tsv table.svg
    for table in table.svg ./table.svg -; do
        "$plot" rates "$table" table.svg <table.svg >"$out" 2>"$err"
        status=$?
        [ "$status" -eq 2 ] && cmp -s table.svg kinds.tsv &&
            [ "$(<"$err")" = 'plot: the picture would replace its table: table.svg; try --help' ]
        verdict "plot of $table in the place of its table" $?
    done
}

test_ended() {
    mkdir "$work/ended" && printf '#!/bin/sh\nkill -KILL $$\n' >"$work/ended/gnuplot"
    chmod +x "$work/ended/gnuplot"
    ends 'plot with a gnuplot that is ended' 4 'plot: gnuplot failed: it ended with status 137' \
        env PATH="$work/ended:$PATH" "$plot" kinds kinds.tsv none.svg
    printf '#!/bin/sh\necho "\n\"script\" line 1: warning: iconv failed" >&2\nkill -KILL $$\n' \
        >"$work/ended/gnuplot"
    ends 'plot with a gnuplot that warns and is ended' 4 \
        'plot: gnuplot failed: it ended with status 137' \
        env PATH="$work/ended:$PATH" "$plot" kinds kinds.tsv none.svg
    echo before >before.svg
    run "$plot" kinds short.tsv before.svg
    [ "$status" -eq 1 ] && [ "$(<before.svg)" = before ]
    verdict 'plot of a faulty table leaves the picture of before' $?
    [ -z "$(ls -d none.* nowhere 2>/dev/null)" ]
    verdict 'and no part of a picture is left' $?
}

if has gnuplot && has python3; then
    test_plot
    ends 'plot without gnuplot' 69 'plot: gnuplot is missing: install the package gnuplot-nox' \
        env PATH="$(without gnuplot)" "$plot" kinds kinds.tsv kinds.svg
else
    skip 'pictures' 'gnuplot and python3 (gnuplot-nox, python3)'
fi

! has gnuplot || stopped 'plot' gnuplot "$plot" kinds kinds.tsv stopped.svg
stopped_in 'plot and Ctrl-C while its folder is made' INT "$(slow_folders)" \
    "$plot" kinds kinds.tsv stopped.svg
# What is left of a number then is none.
folder=$(standing_still tr)
sed -i "2i [ \"\$1\" = -dc ] || exec $(command -v tr) \"\$@\"" "$folder/tr"
signalled INT "$folder" "$plot" kinds kinds.tsv stopped.svg &&
    [ "$(<"$err")" = 'plot: interrupted' ]
verdict 'plot and Ctrl-C while it compares labels' $?
