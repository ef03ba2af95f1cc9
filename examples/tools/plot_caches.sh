# Tests the points of tables that vary several caches. Read by tools.sh, behind plot_points.sh.
# shellcheck shell=bash disable=SC2154  # names that tools.sh and its other files set

# other_caches LINE..: a table with these lines.
other_caches() {
    { echo trace l1-isize l1-dsize l2-usize l2-urepl l1-icache-{fetches,misses} \
        l1-dcache-{fetches,misses,compulsory,capacity,conflict} l2-ucache-{fetches,misses}
    printf '%s\n' "$@"; } | tr ' ' '\t' >others.tsv
}

# What can't touch the drawn cache makes no points of its own, unless the counts say otherwise. Line
# 4 has as many misses as line 2, but of other kinds.
test_other_caches() {
    local lines=('x 4k 8k 64k l 10 1 200 20 5 5 10 40 4' 'x 4k 8k 128k f 10 1 200 20 5 5 10 40 2'
        'x 8192 8k 64k l 10 2 200 20 5 6 9 40 5' 'x 8k 16k 64k l 10 2 200 10 5 5 0 40 3')
    other_caches "${lines[@]}"
    keeps rates others.tsv points.svg --cache l1-dcache
    gives 'points of a cache that others do not touch' points $'1\t8192\t10.000000
1\t16384\t5.000000'
    ends 'plot of kinds that another cache seems to touch' 1 \
        "plot: others.tsv: lines 2 and 4 differ in l1-isize: \
choose by --only, or take --by l1-isize" "$plot" kinds others.tsv none.svg --cache l1-dcache
    ends 'plot of a cache that others touch' 1 "plot: others.tsv: lines 2 and 4 differ in l1-isize: \
choose by --only, or take --by l1-isize" "$plot" rates others.tsv none.svg --cache l2-ucache
    keeps rates others.tsv points.svg --cache l1-icache
    gives 'points of an instruction cache' points $'1\t4096\t10.000000\n1\t8192\t20.000000'
    keeps rates others.tsv points.svg --cache l1-dcache --by l2-usize
    gives 'points of a group for each other cache' points $'1\t8192\t10.000000
1\t16384\t5.000000\n2\t8192\t10.000000'
    other_caches "${lines[0]}" "${lines[0]/4k/4096}" "${lines[3]}"
    ends 'plot of one configuration that is written in two ways' 1 \
        'plot: others.tsv: lines 2 and 3 are of one configuration' \
        "$plot" rates others.tsv none.svg --cache l1-dcache
    other_caches "${lines[0]}" "${lines[1]/200 20/200 21}"
    ends 'plot of rates that another cache seems to touch' 1 'plot: others.tsv: lines 2 and 3 '\
'differ in l2-usize and l2-urepl: choose by --only' \
        "$plot" rates others.tsv none.svg --cache l1-dcache
    other_caches "${lines[0]}" "${lines[1]/x 4k/y 4k}"
    ends 'plot of two traces with two caches' 1 'plot: others.tsv: lines 2 and 3 differ in '\
'trace and l2-usize and l2-urepl: choose by --only' \
        "$plot" rates others.tsv none.svg --cache l1-dcache
}

test_other_caches
