# Tests what bin/plot gives to gnuplot: the points, the script and the words. Read by tools.sh. A
# gnuplot of ours keeps it, so these need none.
# shellcheck shell=bash disable=SC2154  # names that tools.sh and its other files set

mkdir "$work/kept" "$work/keeping"
cat >"$work/keeping/gnuplot" <<'END'
#!/usr/bin/env bash
rm -f "$KEPT"/*
cp -- * "$KEPT"
printf '%s\n' "${@: -1}" >"$KEPT/words"
case $(<script) in
*pdfcairo*) echo %%EOF ;;
*pngcairo*) printf 'IEND1234' ;;
*) echo '</svg>' ;;
esac >picture
END
chmod +x "$work/keeping/gnuplot"

# keeps WORD..: plot draws with these words, and what it gives to gnuplot is kept. The table may
# have a line with a fault.
keeps() {
    local fault='plot: .*: lines left out for their faults: 1'
    rm -f "$work/kept"/*
    run env KEPT="$work/kept" PATH="$work/keeping:$PATH" "$plot" "$@"
    [ "$status" -eq 0 ] && ! grep -qvxE "$fault" "$err"
}

# gives NAME FILE TEXT: the file that was kept has this text.
gives() {
    [ "$(<"$work/kept/$2")" = "$3" ]
    verdict "$1" $?
}

# tells NAME LINE..: each is a line of the script.
tells() {
    local line lacking=
    for line in "${@:2}"; do
        grep -qxF -e "$line" "$work/kept/script" || lacking=$line
    done
    [ -z "$lacking" ]
    verdict "$1${lacking:+, without $lacking}" $?
}

# Two ways and two sizes, with a fault. The columns are in no order of bin/sweep's.
{
    echo fault l1-dcache-misses l1-dassoc trace l1-dcache-fully-associative-misses l1-dsize \
        l1-dcache-fetches l1-dcache-compulsory l1-dcache-capacity l1-dcache-conflict l1-dbsize \
        l1-drepl
    echo - 50 2 a/x.din 60 8k 200 20 20 10 32 l
    echo - 40 1 a/x.din 30 16k 200 20 10 10 32 l
    echo - 100 1 a/x.din 60 8k 200 20 30 50 32 l
    echo no - 2 a/x.din - 16k - - - - 32 l
} | tr ' ' '\t' >points.tsv

# In percent of 200 accesses: by their own kinds, with whole counts, and all together. With two ways
# 50 misses less 60 fully associative ones are -10, a twentieth of the accesses below zero.
test_points() {
    keeps kinds points.tsv points.svg
    gives 'points of the kinds' points $'1\t8192\t10.000000\t15.000000\t25.000000
1\t16384\t10.000000\t5.000000\t5.000000
2\t8192\t10.000000\t10.000000\t5.000000'
    [ "$(grep -o 'at first [^,]*' "$work/kept/script" | tr '\n' ,)" = 'at first 0.5,at first 3,' ]
    verdict 'names of groups are below their middle' $?
    tells 'the key of the kinds' 'set key title "each miss\nby its own kind"' \
        "set xtics scale 1,0.6 ('8' 0,'16' 1,'8' 3)" 'set xrange [-1:4]'
    keeps kinds points.tsv points.svg --whole-counts
    gives 'points of whole counts' points $'1\t8192\t10.000000\t20.000000\t20.000000
1\t16384\t10.000000\t5.000000\t5.000000
2\t8192\t10.000000\t20.000000\t-5.000000'
    tells 'the key of whole counts' 'set key title "by subtraction\nof whole counts"' \
        'set yrange [*:*]'
    keeps rates points.tsv points.svg
    gives 'points of the rates' points $'1\t8192\t50.000000\n1\t16384\t20.000000\n2\t8192\t25.000000'
    tells 'a logarithmic axis' 'set logscale x 2' 'set xrange [8192/1.15:16384*1.15]' \
        "set xtics scale 1,0.6 ('8' 8192,'16' 16384)" 'set ylabel "miss rate (% of accesses)"'
    keeps rates points.tsv points.svg --over l1-dassoc
    gives 'points over the ways' points $'1\t1\t50.000000\n1\t2\t25.000000\n2\t1\t20.000000'
    gives 'and its words' words ' x.din, l1-dcache, 32-byte blocks, LRUways of l1-dcache8 KiB16 KiB'
    keeps rates points.tsv points.svg --by trace --only l1-dassoc 1 --only l1-dsize=8k \
        --only l1-dsize 16k
    gives 'points of a choice of values' points $'1\t8192\t50.000000\n1\t16384\t20.000000'
    gives 'and its words' words \
        ' l1-dcache, 1 way, 32-byte blocks, LRUsize of l1-dcache (KiB)x.din'
}

# The mode of a picture, and a picture that is a link.
test_places() {
    local mask
    mask=$(umask)
    umask 027
    keeps rates points.tsv masked.svg && [ "$(stat -c %a masked.svg)" = 640 ]
    verdict 'a picture has the mode that the umask leaves' $?
    umask "$mask"
    chmod 600 masked.svg
    keeps rates points.tsv masked.svg && [ "$(stat -c %a masked.svg)" = 600 ]
    verdict 'and keeps the mode that it has' $?
    mkdir linked && ln -s linked/real.svg link.svg
    keeps rates points.tsv link.svg && [ -L link.svg ] && [ "$(<linked/real.svg)" = '</svg>' ]
    verdict 'a picture that is a link' $?
    chmod 600 linked/real.svg
    keeps rates points.tsv link.svg && [ "$(stat -c %a linked/real.svg)" = 600 ]
    verdict 'and the mode of what it leads to' $?
    ln -s nowhere/none.svg lost.svg
    PATH=$work/keeping:$PATH KEPT=$work/kept ends 'a picture that is a link to no folder' 4 \
        'plot: lost.svg could not be written' "$plot" rates points.tsv lost.svg
}

# Options as bin/sweep writes them, and a value that the table has in bytes.
test_options() {
    local only
    sed 's/\t8k\t/\t8192\t/; s/\t16k\t/\t16384\t/' points.tsv >full.tsv
    for only in '--only l1-dsize 8k' '--only --l1-dsize 8192' --only=--l1-dsize=8k; do
        # shellcheck disable=SC2086  # words
        keeps rates full.tsv points.svg --over --l1-dassoc --by=--l1-dsize $only
        gives "points of $only" points $'1\t1\t50.000000\n1\t2\t25.000000'
    done
    gives 'and its words' words ' x.din, l1-dcache, 32-byte blocks, LRUways of l1-dcache8 KiB'
    ends 'plot of a size that no line has' 1 \
        'plot: full.tsv: no line without a fault has --l1-dsize=9k' \
        "$plot" rates full.tsv none.svg --only --l1-dsize 9k
}

# Lines that end in CR and LF, with the fault last, and a trace whose name has a zero byte.
test_bytes() {
    sed 's/^\([^\t]*\)\t\(.*\)/\2\t\1\r/; s/a\/x/a\/\x00/' points.tsv >bytes.tsv
    keeps kinds bytes.tsv points.svg && [ -s "$err" ]
    verdict 'a table with lines of another form, and a fault' $?
    gives 'its points' points $'1\t8192\t10.000000\t15.000000\t25.000000
1\t16384\t10.000000\t5.000000\t5.000000
2\t8192\t10.000000\t10.000000\t5.000000'
    keeps rates bytes.tsv points.svg --only fault=-
    gives 'its title' words ' ?.din, l1-dcache, 32-byte blocks, LRUsize of l1-dcache (KiB)1 way2 ways'
}

# The programs of awk are read by others than mawk.
test_another_awk() {
    mkdir "$work/another"
    ln -s "$(command -v original-awk)" "$work/another/awk"
    PATH=$work/another:$PATH keeps rates points.tsv points.svg --over l1-dassoc
    gives 'points of another awk' points $'1\t1\t50.000000\n1\t2\t25.000000\n2\t1\t20.000000'
    tells 'the axis of another awk' 'set ytics 5' 'set yrange [0:*]'
}

# Where numbers have a comma, as in Turkish, gnuplot is given points all the same.
test_commas() {
    keeps kinds points.tsv points.svg --whole-counts
    rm -rf "$work/plain" && cp -r "$work/kept" "$work/plain"
    # shellcheck disable=SC2154  # settings.sh sets it
    run "${turkish[@]}" KEPT="$work/kept" PATH="$work/keeping:$PATH" \
        "$plot" kinds points.tsv points.svg --whole-counts
    [ "$status" -eq 0 ] && ! grep -qv ': lines left out for their faults: 1$' "$err" &&
        diff -r "$work/kept" "$work/plain" >/dev/null
    verdict 'plot in Turkish' $?
}

# A trace named 1 and one named 01 have a line each.
test_equal_numbers() {
    sized_traces 01 1 >numbers.tsv
    keeps rates numbers.tsv points.svg --by trace
    gives 'traces of equal numbers' points $'1\t1024\t50.000000\n1\t2048\t50.000000
2\t1024\t50.000000\n2\t2048\t50.000000'
}

# In 336 pixels an axis has room for 34 letters, so for five names of four letters and two blanks.
# 19 powers of two then have a name each fourth time.
test_axes() {
    awk -v OFS='\t' 'BEGIN {
        print "trace", "l1-dsize", "l1-dcache-fetches", "l1-dcache-misses", "fault"
        for (size = 64; size <= 16777216; size *= 2) print "x.din", size, 100, 10, "-"
    }' >sizes.tsv
    keeps rates sizes.tsv sizes.svg --size 336x250
    [ "$(grep '^set xtics.*(' "$work/kept/script" | grep -o "'[0-9kM]\+' [0-9]*" | tr '\n' ,)" = \
        "'64' 64,'1k' 1024,'16k' 16384,'256k' 262144,'4M' 4194304," ]
    verdict 'names of every fourth power of two' $?
    [ "$(grep '^set xtics.*(' "$work/kept/script" | grep -o "'' [0-9]* 1" | wc -l)" -eq 14 ]
    verdict 'and a mark at each of the others' $?
    keeps rates points.tsv points.svg --size 336x250 --linear
    tells 'a linear axis' 'set xrange [0-0.03*16384:16384+0.03*16384]' "set xtics scale 1,0.6 \
('0' 0,'2' 2048,'4' 4096,'6' 6144,'8' 8192,'10' 10240,'12' 12288,'14' 14336,'16' 16384)"
    ! grep -q logscale "$work/kept/script"
    verdict 'and it is not logarithmic' $?
    head -n 16 sizes.tsv >to_1m.tsv
    keeps rates to_1m.tsv points.svg --size 336x250 --linear
    tells 'a linear axis with longer names between its ends' \
        "set xtics scale 1,0.6 ('0' 0,'256k' 262144,'512k' 524288,'768k' 786432,'1M' 1048576)"
    head -n 17 sizes.tsv >to_2m.tsv
    keeps rates to_2m.tsv points.svg --size 336x250 --linear
    tells 'and one that has more than a MiB between them' "set xtics scale 1,0.6 \
('0' 0,'512k' 524288,'1M' 1048576,'1536k' 1572864,'2M' 2097152)"
    sed '1s/l1-dbsize/skipcount/; 2s/\t32\t/\t300\t/; 3s/\t32\t/\t400\t/' points.tsv >counts.tsv
    keeps rates counts.tsv points.svg --over skipcount --cache l1-dcache --by l1-dassoc \
        --only skipcount 300 --only skipcount 400
    tells 'a linear axis that does not begin at 0' 'set xrange [300-0.03*100:400+0.03*100]'
    keeps rates points.tsv points.svg --only l1-dsize 16k
    tells 'marks at a height of 2' 'set ytics 2' 'set yrange [0:*]'
    sed 's/\t32\tl$/\t0\tl/' points.tsv >zero.tsv
    ends 'plot of nothing on a logarithmic axis' 1 \
        'plot: zero.tsv: 0 has no place on a logarithmic axis: take --linear' \
        "$plot" rates zero.tsv none.svg --over l1-dbsize --only l1-dassoc 2
    keeps rates zero.tsv points.svg --over l1-dbsize --only l1-dassoc 2 --linear
    verdict 'but on a linear one' $?
}

test_looks() {
    local words=(rates points.tsv --size 336x250 --font 'DejaVu Serif,8')
    keeps "${words[@]}" points.svg
    tells 'the looks of SVG' "set terminal svg size 336,250 noenhanced background 'white' \
font 'DejaVu Serif,10.66'"
    keeps "${words[@]}" points.png
    tells 'the looks of PNG' "set terminal pngcairo size 336,250 noenhanced background 'white' \
font 'DejaVu Serif,8'"
    keeps "${words[@]}" points.pdf
    tells 'the looks of PDF' "set terminal pdfcairo size 3.50in,2.60in noenhanced \
background 'white' fontscale 0.75 font 'DejaVu Serif,8'"
    keeps rates points.tsv points.svg --title 'A title of ours'
    gives 'a title' words ' A title of ourssize of l1-dcache (KiB)1 way2 ways'
    keeps rates points.tsv points.svg --title ''
    gives 'no title' words ' size of l1-dcache (KiB)1 way2 ways'
}

# Two builds in one picture, each a trace of the same name in a folder of its own.
test_builds() {
    { cat points.tsv && tail -n +2 points.tsv | sed 's,a/x,b/x,'; } >builds.tsv
    keeps rates builds.tsv builds.svg --by trace --only l1-dassoc 1
    gives 'points of two builds' points $'1\t8192\t50.000000\n1\t16384\t20.000000
2\t8192\t50.000000\n2\t16384\t20.000000'
    gives 'and their names' words \
        ' l1-dcache, 1 way, 32-byte blocks, LRUsize of l1-dcache (KiB)a/x.dinb/x.din'
    ends 'plot of two builds without a choice' 1 \
        'plot: builds.tsv: lines 2 and 6 differ in trace: choose by --only, or take --by trace' \
        "$plot" rates builds.tsv none.svg
    sed '4,$s/\tl$/\tf/' builds.tsv >policies.tsv
    ends 'plot of two builds with two policies' 1 \
        'plot: policies.tsv: lines 2 and 6 differ in trace and l1-drepl: choose by --only' \
        "$plot" rates policies.tsv none.svg
    { cat points.tsv && sed -n 3p points.tsv; } >twice.tsv
    ends 'plot of one configuration twice' 1 \
        'plot: twice.tsv: lines 3 and 6 are of one configuration' "$plot" rates twice.tsv none.svg
}

# sized_traces TRACE..: a table with two sizes of each.
sized_traces() {
    local trace size
    printf 'trace\tl1-dsize\tl1-dcache-fetches\tl1-dcache-misses\n'
    for trace; do
        for size in 1k 2k; do printf '%s\t%s\t10\t5\n' "$trace" "$size"; done
    done
}

# Of these letters of East Asia, which take two columns, 8 have room before the dots, and 9 behind.
test_widths() {
    local locale name=a_run_of_u_through_a_queue_of_u.din letters=語語語語語語語語語語
    sized_traces "$name" "$letters$letters" >widths.tsv
    for locale in C C.UTF-8; do
        LC_ALL=$locale keeps rates widths.tsv points.svg --by trace --size 336x250 --title ''
        gives "widths in the locale $locale" words \
            " size of l1-dcache (KiB)$name語語語語語語語語…語語語語語語語語語"
    done
}

test_points
test_axes
test_looks
test_builds
test_widths
test_options
test_places
test_equal_numbers
test_bytes
ends 'plot without awk' 69 'plot: awk is missing: install the package mawk' \
    env PATH="$(without awk)" "$plot" rates points.tsv points.svg
if has original-awk; then test_another_awk; else skip 'points of another awk' original-awk; fi
if [ -e "$work/locales/tr_TR.UTF-8" ]; then
    test_commas
else
    skip 'plot in Turkish' 'the sources of locales (locales)'
fi
