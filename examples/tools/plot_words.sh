# Tests the words and tables that bin/plot refuses. Read by tools.sh.
# shellcheck shell=bash disable=SC2154  # names that tools.sh and its other files set

# refuses LINE WORD..: after a kind, a table and a picture, plot refuses these words.
refuses() {
    ends "plot ${*:2}" 2 "plot: $1; try --help" "$plot" rates points.tsv none.svg "${@:2}"
}

# lacks LINE SCRIPT WORD..: plot refuses the table that sed makes.
lacks() {
    sed -e "$2" points.tsv >edited.tsv
    ends "plot of a table: $1" 1 "plot: edited.tsv: $1" "$plot" "${@:3}" edited.tsv none.svg
}

for option in over by cache title size font only; do
    refuses "--$option has no value" "--$option"
done
for option in over by cache title size font; do
    refuses "--$option is given twice" "--$option" a "--$option=b"
done
refuses '--only trace has no value' --only trace
refuses '--linear is given twice' --linear --linear
refuses '--linear takes no value' --linear=2
refuses '--whole-counts is of kinds' --whole-counts
refuses '--over has no value' --over=
refuses 'unknown cache: l3-cache' --cache l3-cache
for title in $'two\nlines' $'a\ttab' $'\e[1m' $'\x7f'; do
    refuses '--title: it has a line feed, a tab or another control character' --title "$title"
done
refuses 'unknown cache: ' --cache=
refuses "--size: not WxH: '336'" --size 336
refuses "--size: not from 200x150 to 10000x10000: '199x150'" --size 199x150
refuses "--size: not from 200x150 to 10000x10000: '10x10'" --size 10x10
refuses "--size: not from 200x150 to 10000x10000: '200x10001'" --size 200x10001
refuses "--font: a size is from 4 to 200: 'sans,3'" --font sans,3
refuses "--font: not NAME or NAME,SIZE: 'sans,8.5'" --font sans,8.5
ends 'plot --linear of kinds' 2 'plot: --linear is of rates; try --help' \
    "$plot" kinds points.tsv none.svg --linear

lacks 'the column l1-dcache-misses is no option' '' rates --over l1-dcache-misses
lacks 'the column l1-dcache-misses is no option' '' rates --only l1-dcache-misses 10
lacks 'the table has no column l1-isize: choose the axis by --over' '' rates --cache l1-icache
lacks 'the table has no column l1-isize' '' rates --over l1-isize
lacks "l1-dsize can't be both the axis and the groups" '' rates --by l1-dsize
lacks 'line 2: trace is no number: a/x.din' '' rates --over trace
lacks 'the table has two columns trace' '1s/l1-drepl/trace/' rates
lacks 'no size is varied: choose the axis by --over' '1s/l1-dsize/ring/' rates
lacks 'no size is varied: choose by --cache' '1s/l1-dsize/ring/' rates --over ring
lacks 'the table varies several sizes: choose by --cache one of l1-dcache l2-ucache' \
    '1s/l1-drepl/l2-usize/; 2s/l$/8k/; 4s/l$/16k/' kinds
lacks 'line 3: l1-dcache-fetches is no number: 2e2' '3s/200/2e2/' rates
lacks 'line 4: l1-dcache-compulsory is no number: -1' '4s/\t20\t30/\t-1\t30/' kinds
lacks 'line 4: more misses than accesses of l1-dcache' '4s/\t100\t/\t201\t/' rates
lacks 'line 3: more misses than accesses of l1-dcache' '3s/\t10\t10\t32/\t10\t171\t32/' kinds
lacks 'line 3: fewer fully associative misses than compulsory ones of l1-dcache' \
    '3s/\t30\t/\t19\t/' kinds --whole-counts
lacks 'the table has no column l1-dcache-misses' '1s/l1-dcache-misses/misses/' rates

lacks 'line 3: l1-dcache-fetches is no number: ?' '3s/200/\x00/' rates

# make_groups NUMBER: a table with so many.
make_groups() {
    awk -v OFS='\t' -v "groups=$1" 'BEGIN {
        print "trace", "l1-dsize", "l1-dassoc", "l1-dcache-fetches", "l1-dcache-misses", \
            "l1-dcache-compulsory", "l1-dcache-capacity", "l1-dcache-conflict"
        for (i = groups; i > 0; i--) print "a/" i, "1k", i, 9, 3, 1, 1, 1
    }' >groups.tsv
}
make_groups 901
ends 'plot of more groups than a picture can have' 1 \
    'plot: groups.tsv: more than 900 groups: choose by --only' "$plot" kinds groups.tsv none.svg
make_groups 50001
ends 'plot of more lines than a picture can have' 1 \
    'plot: groups.tsv: more than 50000 groups: choose by --only' "$plot" rates groups.tsv none.svg
make_groups 20000
for option in trace l1-dassoc; do
    ends "plot of many lines, --by $option" 2 "plot: no room for the text in 720x340120, with \
letters of 9: take a larger --size, a smaller --font, or fewer lines by --only" \
        timeout 20 "$plot" rates groups.tsv none.svg --by "$option"
done

# The letters are larger than the picture can hold, and there are more lines than it can name.
ends 'plot with large letters' 2 "plot: no room for the text in 336x250, with letters of 60: \
take a larger --size, a smaller --font, or fewer lines by --only" \
    "$plot" rates points.tsv none.svg --size 336x250 --font sans,60
sed 's/l1-dsize/l1-dbsize/; s/\tfault/\tl1-dsize\tfault/; s/\t-$/\t8k\t-/' sizes.tsv |
    awk -F '\t' -v OFS='\t' 'NR > 1 { $5 = $2; $2 = 32 } { print }' >many.tsv
ends 'plot of many lines' 2 "plot: no room for the text in 240x180, with letters of 8: \
take a larger --size, a smaller --font, or fewer lines by --only" \
    "$plot" rates many.tsv none.svg --over l1-dbsize --size 240x180

# apart NAME WORD..: in the picture, no two texts meet, and none is cut off.
apart() {
    run "$plot" "${@:2}"
    [ "$status" -eq 0 ] && python3 "$top/examples/tools/svg_texts.py" --apart apart.svg 2>"$err"
    verdict "labels apart: $1" $?
}

test_apart() {
    local size name=a_program_with_a_long_name
    { sed "s/a\/x.din/a\/$name.din/" points.tsv && tail -n +2 points.tsv |
        sed "s/a\/x.din/b\/another_$name.din/"; } >long.tsv
    for size in 336x250 720x460 1024x768; do
        apart "rates, $size" rates sizes.tsv apart.svg --size $size
        apart "a linear axis, $size" rates sizes.tsv apart.svg --size $size --linear
        apart "kinds, $size" kinds points.tsv apart.svg --size $size --whole-counts
        apart "kinds of long names, $size" kinds long.tsv apart.svg --size $size \
            --by trace --only l1-dassoc 1
        apart "rates of long names, $size" rates long.tsv apart.svg --size $size \
            --by trace --only l1-dassoc 1
        apart "a long title, $size" rates points.tsv apart.svg --size $size \
            --title 'A title that has a few more words than most, and then a few that nobody needs'
    done
    apart 'many lines' rates many.tsv apart.svg --over l1-dbsize
    test_capitals
}

# In 720x460, the labels of groups have room for 21 columns. 24 letters, of which 13 are capitals, 2
# of them M, and 4 are digits, take 24 and 260, 80 and 20 hundredths.
test_capitals() {
    awk -v OFS='\t' 'BEGIN {
        print "trace", "l1-dsize", "l1-dcache-fetches", "l1-dcache-compulsory", \
            "l1-dcache-capacity", "l1-dcache-conflict"
        for (i = 1; i <= 3; i++) for (size = 1; size <= 32; size *= 2)
            print "GEMM_N1024_BLOCKED_" substr("ABC", i, 1) ".din", size "k", 10, 1, 2, 3
    }' >capitals.tsv
    apart 'capitals, 336x250' kinds capitals.tsv apart.svg --by trace --size 336x250
    apart capitals kinds capitals.tsv apart.svg --by trace
    shows apart.svg GEMM_N1024_ BLOCKED_A.din BLOCKED_B.din BLOCKED_C.din
    verdict 'and they are broken behind a mark' $?
}

# stand_for NAME LINES WORD..: the bars or points of the picture stand for this.
stand_for() {
    run "$plot" "${@:3}"
    [ "$status" -eq 0 ] && python3 "$top/examples/tools/svg_marks.py" marks.svg >"$out" 2>"$err" &&
        [ "$(<"$out")" = "$2" ]
    verdict "$1" $?
}

# Bars stand on one another, but for what is below zero. In per cent of 200 accesses.
test_marks() {
    stand_for 'the bars of the kinds' 'compulsory, 8, 1 way, 0, 10
compulsory, 16, 1 way, 0, 10
compulsory, 8, 2 ways, 0, 10
capacity, 8, 1 way, 10, 25
capacity, 16, 1 way, 10, 15
capacity, 8, 2 ways, 10, 20
conflict, 8, 1 way, 25, 50
conflict, 16, 1 way, 15, 20
conflict, 8, 2 ways, 20, 25' kinds points.tsv marks.svg
    stand_for 'the bars of whole counts' 'compulsory, 8, 1 way, 0, 10
compulsory, 16, 1 way, 0, 10
compulsory, 8, 2 ways, 0, 10
capacity, 8, 1 way, 10, 30
capacity, 16, 1 way, 10, 15
capacity, 8, 2 ways, 10, 30
conflict, 8, 1 way, 30, 50
conflict, 16, 1 way, 15, 20
conflict, 8, 2 ways, -5, 0' kinds points.tsv marks.svg --whole-counts
    stand_for 'the points of the rates' '1 way, 8, 50, 50
1 way, 16, 20, 20
2 ways, 8, 25, 25' rates points.tsv marks.svg
}

# bars_of TRACE COUNT..: a table with so many sizes of each trace.
bars_of() {
    local size
    printf '%s\n' trace l1-dsize l1-dcache-{fetches,compulsory,capacity,conflict} | paste -s -d '\t'
    while [ $# -gt 0 ]; do
        for ((size = 1; size < 1 << $2; size *= 2)); do
            printf '%s\t' "$1" ${size}k 10 1 2
            echo 3
        done
        shift 2
    done
}

# groups NAME TEXT..: the picture of the table has these texts below its groups, in this order, and
# no two texts meet.
groups() {
    apart "$1" kinds bars.tsv apart.svg --by trace --size 336x250 --title ''
    python3 "$top/examples/tools/svg_texts.py" apart.svg >"$work/texts" 2>"$err" &&
        [ "$(sed -n '/^size of/,/^misses$/{//!p}' "$work/texts" | paste -s -d ' ')" = "${*:2}" ]
    verdict "$1, in these lines" $?
}

# There is room for 34 letters. From the middle of one bar to that of seven beside it, it is 17, and
# names of 9 and 11 letters take eleven, with a blank between them. It is 11 between groups of two
# bars: names of 11 and 5 letters take nine, and those of 12 and 11 twelve and a half. It is 6
# between five groups of three bars, and names of 9 and 5 letters take eight.
test_groups() {
    bars_of blocked.din 1 naive.din 7 >bars.tsv
    groups 'a label wider than its bar' blocked.din naive.din
    bars_of naive.din 7 blocked.din 1 >bars.tsv
    groups 'and one that would reach beyond the picture' naive.din blocked. din
    bars_of a.din 2 blocked.din 2 b.din 2 >bars.tsv
    groups 'a label beside shorter ones' a.din blocked.din b.din
    bars_of blocked.din 2 unrolled.din 2 b.din 2 >bars.tsv
    groups 'a label beside one that has no room' blocked.din unrolled. din b.din
    bars_of a.din 3 naive.din 3 tiled.din 3 b.din 3 c.din 3 >bars.tsv
    groups 'labels without room' a.din naive .din tiled .din b.din c.din
}

if has gnuplot && has python3; then
    test_apart
    test_marks
    test_groups
else
    skip 'labels apart, and what marks stand for' 'gnuplot and python3 (gnuplot-nox, python3)'
fi
