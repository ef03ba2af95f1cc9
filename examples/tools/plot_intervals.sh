# Tests how bin/plot draws a flushcount or a maxcount of 0: behind all others. Read by tools.sh.
# shellcheck shell=bash disable=SC2154  # names that tools.sh and its other files set

# intervals OPTION VALUE..: a table with these values of the option, for 1 and 2 ways. The misses of
# 1 way are 10 % of the accesses, then 20 %, and so on, and those of 2 ways half of that.
intervals() {
    local ways value misses
    printf '%s\n' trace l1-dassoc "$1" l1-dcache-{fetches,misses,compulsory,capacity,conflict} |
        paste -s -d '\t'
    for ways in 1 2; do
        misses=0
        for value in "${@:2}"; do
            misses=$((misses + 20))
            printf '%s\t' x.din $ways "$value" $((ways * 200)) $misses 1 2
            echo $((misses - 3))
        done
    done
}

over_flushcount=(--over flushcount --cache l1-dcache --by l1-dassoc)

# The axis has room for 71 letters. Eight marks of six letters, with two blanks each, take 64. In a
# small picture 34 have room: with a name at each third mark, ten marks take 80, and have 102.
test_far_on_a_logarithmic_axis() {
    keeps rates intervals.tsv points.svg "${over_flushcount[@]}" --only l1-dassoc 1
    gives 'points of flushcounts' points $'1\t1000\t30.000000\n1\t10000\t10.000000
1\t100000\t40.000000\n1\t9000000000000000000\t20.000000'
    gives 'and the place of never' lines $'1\t1000\t30.000000\n1\t10000\t10.000000
1\t100000\t40.000000\n1\t200000\t20.000000'
    tells 'and its mark' 'set logscale x 10' 'set xrange [1000/1.15:200000*1.15]' \
        "set xtics scale 1,0.6 ('1000' 1000,'2000' 2000,'5000' 5000,'10000' 10000,'20000' 20000,\
'50000' 50000,'100000' 100000,'never' 200000)"
    keeps rates intervals.tsv points.svg "${over_flushcount[@]}" --size 336x250
    tells 'never in a small picture' 'set xrange [1000/1.15:1000000*1.15]' \
        "set xtics scale 1,0.6 ('1000' 1000,'' 2000 1,'' 5000 1,'10000' 10000,'' 20000 1,\
'' 50000 1,'100000' 100000,'never' 1000000)"
}

# A step of 10000 has no room: twelve marks of eight letters. With 20000, seven have.
test_far_on_a_linear_axis() {
    keeps rates intervals.tsv points.svg "${over_flushcount[@]}" --only l1-dassoc 1 --linear
    gives 'the place of never on a linear axis' lines $'1\t1000\t30.000000\n1\t10000\t10.000000
1\t100000\t40.000000\n1\t120000\t20.000000'
    tells 'and its mark' 'set xrange [0-0.03*120000:120000+0.03*120000]' \
        "set xtics scale 1,0.6 ('0' 0,'20000' 20000,'40000' 40000,'60000' 60000,'80000' 80000,\
'100000' 100000,'never' 120000)"
    ! grep -q logscale "$work/kept/script"
    verdict 'and it is not logarithmic' $?
}

# A skipcount of 0 is a number as any other.
test_other_intervals() {
    local kind
    intervals maxcount 00 500 1000 >all.tsv
    keeps rates all.tsv points.svg --over maxcount --cache l1-dcache --by l1-dassoc
    tells 'all references' "set xtics scale 1,0.6 ('500' 500,'1000' 1000,'all' 2000)"
    intervals skipcount 0 500 1000 >skips.tsv
    keeps rates skips.tsv points.svg --over skipcount --cache l1-dcache --only l1-dassoc 1
    gives 'points of skipcounts' points $'1\t0\t10.000000\n1\t500\t20.000000\n1\t1000\t30.000000'
    for kind in rates kinds; do
        intervals flushcount 0 >never.tsv
        keeps $kind never.tsv points.svg "${over_flushcount[@]}"
        verdict "$kind of never alone" $?
        grep -q "^set xtics.*('never' [01][,)]" "$work/kept/script"
        verdict 'and its mark' $?
    done
}

# Ten places have room for 67 letters, so a name of six letters and a blank has that of two. Beside
# each other, `100000` and `never` take 13 halves of a letter, and have 13.4. In a small picture
# there is room for 34 letters, and a mark at each third place: `never` and `1000` of the next group
# take 11 halves, and have two places, so 13.6.
test_far_bars() {
    keeps kinds intervals.tsv points.svg "${over_flushcount[@]}"
    cut -f 1-3 "$work/kept/bars" >"$work/kept/places"
    gives 'bars of flushcounts' places $'0\t1\t1000\n1\t1\t10000\n2\t1\t100000
3\t1\t9000000000000000000\n5\t2\t1000\n6\t2\t10000\n7\t2\t100000\n8\t2\t9000000000000000000'
    tells 'and their marks' "set xtics scale 1,0.6 ('1000' 0,'100000' 2,'never' 3,'1000' 5,\
'100000' 7,'never' 8)"
    keeps kinds intervals.tsv points.svg "${over_flushcount[@]}" --size 336x250
    tells 'and their marks in a small picture' \
        "set xtics scale 1,0.6 ('1000' 0,'never' 3,'1000' 5,'never' 8)"
    keeps kinds intervals.tsv points.svg --over l1-dassoc --by flushcount
    gives 'groups of flushcounts' words ' x.din, l1-dcacheways of l1-dcache'\
'flushcount1000flushcount10000flushcount100000flushcountnever'
    gives 'and their bars' points "$(printf '%s\n' $'1\t1\t0.500000\t1.000000\t28.500000' \
        $'1\t2\t0.250000\t0.500000\t14.250000' $'2\t1\t0.500000\t1.000000\t8.500000' \
        $'2\t2\t0.250000\t0.500000\t4.250000' $'3\t1\t0.500000\t1.000000\t38.500000' \
        $'3\t2\t0.250000\t0.500000\t19.250000' $'4\t1\t0.500000\t1.000000\t18.500000' \
        $'4\t2\t0.250000\t0.500000\t9.250000')"
}

# The names of bars, whatever their number and the size of the picture.
test_far_bars_apart() {
    local size
    intervals flushcount 0 1000 10000 100000 1000000 10000000 >longer.tsv
    for size in 336x250 500x350 720x460 1024x768; do
        apart "flushcounts, $size" kinds longer.tsv apart.svg "${over_flushcount[@]}" --size $size
        apart "rates of flushcounts, $size" rates longer.tsv apart.svg "${over_flushcount[@]}" \
            --size $size
        apart "flushcounts on a linear axis, $size" rates longer.tsv apart.svg \
            "${over_flushcount[@]}" --size $size --linear
    done
    shows apart.svg 0 never
    verdict 'and never beside 0 on a linear axis' $?
}

intervals flushcount 10000 0 1000 100000 >intervals.tsv
test_far_on_a_logarithmic_axis
test_far_on_a_linear_axis
test_other_intervals
test_far_bars
if has gnuplot && has python3; then
    test_far_bars_apart
else
    skip 'labels of flushcounts apart' 'gnuplot and python3 (gnuplot-nox, python3)'
fi
