# Tests titles and names that bin/plot gives to gnuplot, and pictures that are no whole ones. Read
# by tools.sh, behind plot_points.sh.
# shellcheck shell=bash disable=SC2154  # names that tools.sh and its other files set

# Sizes in all of their forms, a second level that is never called, and what a title and the names
# of lines say of policies, and of another cache.
test_levels() {
    {
        echo trace l1-dsize l1-dassoc l1-dwback l2-usize l2-urepl l2-uwback l2-uwalloc \
            l2-ucache-fetches l2-ucache-misses
        echo a.din 8k 2 n 64K f n n 10 5
        echo a.din 8k 2 n 1M f n n 10 2
        echo a.din 8k 2 n 4m f n n 0 0
        echo a.din 8k 2 a 64K f n n 10 4
    } | tr ' ' '\t' >levels.tsv
    keeps rates levels.tsv points.svg --cache l2-ucache --by l1-dsize --only l1-dwback n
    gives 'points of sizes in other forms' points \
        $'1\t65536\t50.000000\n1\t1048576\t20.000000\n1\t4194304\t0.000000'
    gives 'a name of another cache, and a title of policies' words ' a.din, l2-ucache, FIFO, '\
'write-through, no write allocate, l1-dcache write-throughsize of l2-ucache (KiB)l1-dcache 8 KiB'
    keeps rates levels.tsv points.svg --cache l2-ucache --by l1-dsize --only l1-dwback n \
        --only l2-usize 1M --only l2-usize 4096k
    gives 'an axis of large sizes' words ' a.din, l2-ucache, FIFO, '\
'write-through, no write allocate, l1-dcache write-throughsize of l2-ucache (MiB)l1-dcache 8 KiB'
    tells 'and its marks' "set xtics scale 1,0.6 ('1' 1048576,'2' 2097152,'4' 4194304)"
    sed 's/\tf\tn\tn/\tl\ta\ta/' levels.tsv >others.tsv
    keeps rates others.tsv points.svg --cache l2-ucache --over l1-dsize --only l2-usize 64k \
        --by l1-dwback
    gives 'a title of a size and of the other policies' words ' a.din, l2-ucache, 64 KiB, LRU, '\
'write-back, write allocatesize of l1-dcache (KiB)l1-dcache write-throughl1-dcache write-back'
    keeps rates levels.tsv points.svg --over l1-dsize --cache l2-ucache --only l2-usize 1M
    gives 'the name of a large size' words ' a.din, l2-ucache, FIFO, write-through, '\
'no write allocatesize of l1-dcache (KiB)1 MiB'
    keeps rates levels.tsv points.svg --cache l2-ucache --over l1-dassoc --only l2-usize 1M
    gives 'an axis of another cache' words ' a.din, l2-ucache, FIFO, write-through, '\
'no write allocateways of l1-dcache1 MiB'
    keeps rates points.tsv points.svg --only l1-dsize 8k
    gives 'points of one size' points $'1\t8192\t50.000000\n2\t8192\t25.000000'
    ends 'plot over the size of a cache without counts' 1 \
        'plot: levels.tsv: the table has no column l1-dcache-fetches' \
        "$plot" rates levels.tsv none.svg --over l1-dsize
}

# Options in step: what differs from point to point is in no title.
test_steps() {
    {
        echo trace l1-dsize l1-dbsize l1-dassoc l1-drepl l1-dcache-fetches l1-dcache-misses
        echo a.din 1k 16 2 l 10 5
        echo b.din 2k 32 2 f 10 4
    } | tr ' ' '\t' >steps.tsv
    keeps rates steps.tsv points.svg
    gives 'a title of options in step' words ' l1-dcachesize of l1-dcache (KiB)2 ways'
    keeps rates steps.tsv points.svg --over l1-dbsize
    gives 'and over the block size' words ' l1-dcacheblock size of l1-dcache (bytes)2 ways'
}

# Lines that are named by words stand in the order of the table, and those that would look the same
# have no room.
test_orders() {
    local front end
    front=$(printf 'a%.0s' {1..30}) end=$(printf 'b%.0s' {1..30})
    sized_traces 10.din 9.din >order.tsv
    keeps rates order.tsv points.svg --by trace
    gives 'names that begin with a number' words ' l1-dcachesize of l1-dcache (KiB)10.din9.din'
    sized_traces "${front}1$end" "${front}2$end" >alike.tsv
    ends 'plot of names that differ in their midst' 2 "plot: no room for the text in 336x250, with \
letters of 8: take a larger --size, a smaller --font, or fewer lines by --only" \
        "$plot" rates alike.tsv none.svg --by trace --size 336x250
}

# In 720x460, the labels of three groups of six bars have room for three lines of 21 columns. The
# first line ends at the blank, and the last one has room for ten letters at each of its ends.
test_groups() {
    local names
    names=$(printf 'a %s%s %s' "$(printf 'b%.0s' {1..21})" "$(printf 'c%.0s' {1..17})" \
        "$(printf 'd%.0s' {1..17})")
    NAMES=$names awk -v OFS='\t' 'BEGIN {
        print "trace", "l1-dsize", "l1-dcache-fetches", "l1-dcache-compulsory", \
            "l1-dcache-capacity", "l1-dcache-conflict"
        split(ENVIRON["NAMES"], part, " ")
        for (i = 1; i <= 3; i++) for (size = 1; size <= 32; size *= 2)
            print part[1] " " part[2] i part[3], size "k", 10, 1, 2, 3
    }' >groups.tsv
    ends 'plot of groups that would look the same' 2 "plot: no room for the text in 720x460, with \
letters of 9: take a larger --size, a smaller --font, or fewer lines by --only" \
        "$plot" kinds groups.tsv none.svg --by trace
    keeps kinds groups.tsv points.svg --by trace --size 1440x920 --font sans-serif,9
    verdict 'and that do not where there is more room' $?
}

# What gnuplot has written is no whole picture.
test_halves() {
    local format
    mkdir "$work/half"
    printf '#!/bin/sh\necho half >picture\n' >"$work/half/gnuplot"
    chmod +x "$work/half/gnuplot"
    for format in svg png pdf; do
        ends "a half of a picture as $format" 4 "plot: no room for temporary files in $TMPDIR" \
            env PATH="$work/half:$PATH" "$plot" rates points.tsv "none.$format"
        [ ! -e "none.$format" ]
        verdict 'it is not put into its place' $?
    done
}

test_levels
test_steps
test_orders
test_groups
test_halves
