# Tests the titles that bin/plot makes. Read by tools.sh.
# shellcheck shell=bash disable=SC2154  # names that tools.sh and its other files set

# A table in which each size of l1-dcache has each of two values of four options.
{
    printf '%s\n' trace l1-isize l1-iassoc l1-dsize l1-drepl l2-usize l2-urepl skipcount maxcount \
        flushcount l1-dcache-fetches l1-dcache-misses fault | paste -s -d '\t'
    for size in 1k 2k; do
        for choice in '64k f 500 0 1000' '128k f 500 0 1000' '64k l 500 0 1000' \
            '64k f 0 0 1000' '64k f 500 9 1000' '64k f 500 0 0'; do
            echo a/x.din 8k 2 $size f "${choice% *}" "${choice##* }" 10 5 - | tr ' ' '\t'
        done
    done
} >chosen.tsv
chosen=(--only l2-usize 64k --only --l2-urepl=f --only skipcount 500 --only maxcount 0)

# titled NAME TITLE WORD..: plot gives the picture, which is wide, this title.
titled() {
    keeps rates chosen.tsv points.svg --cache l1-dcache --size 1440x460 "${@:3}" &&
        [ "$(<"$work/kept/words")" = " ${2}size of l1-dcache (KiB)" ]
    verdict "$1" $?
}

test_titles() {
    titled 'a title with what was chosen' 'x.din, l1-dcache, FIFO, l2-ucache 64 KiB, '\
'l2-ucache FIFO, skipcount 500, maxcount all, flushcount 1000' "${chosen[@]}" --only flushcount 1000
    titled 'in the order of the words' 'x.din, l1-dcache, FIFO, flushcount never, '\
'l2-ucache 64 KiB, l2-ucache FIFO, skipcount 500, maxcount all' --only flushcount 0 "${chosen[@]}"
    titled 'and what the title has is there once' 'x.din, l1-dcache, FIFO, l2-ucache 64 KiB, '\
'l2-ucache FIFO, skipcount 500, maxcount all, flushcount 1000, l1-icache 2 ways' \
        --only l1-drepl f --only trace a/x.din --only fault=- "${chosen[@]}" \
        --only flushcount 1000 --only l1-iassoc 2 --only l2-usize 65536
}

# Of an option of the axis or of the groups, and of one that has two values, the title says nothing.
test_untitled() {
    keeps rates chosen.tsv points.svg --over l1-dsize --only l1-dsize 2k --by l2-usize \
        --only l2-usize 128k
    gives 'a title without the axis and the groups' words \
        ' x.din, l1-dcache, FIFOsize of l1-dcache (KiB)l2-ucache 128 KiB'
    keeps rates chosen.tsv points.svg --cache l1-dcache "${chosen[@]}" --by flushcount \
        --only flushcount 0 --only flushcount 1000
    gives 'a title without what has two values' words ' x.din, l1-dcache, FIFO, l2-ucache 64 KiB,'\
' l2-ucache FIFO, skipcount 500, maxcount allsize of l1-dcache (KiB)flushcount 1000flushcount never'
}

# Two texts of one size are one value.
test_title_of_one_size() {
    sed 's/\t8k\t/\t8192\t/; 2s/\t8192\t/\t8K\t/' chosen.tsv >spelt.tsv
    keeps rates spelt.tsv points.svg --cache l1-dcache --size 1440x460 "${chosen[@]}" \
        --only flushcount 1000 --only l1-isize 8k
    gives 'a title with a size that the table has in two ways' words ' x.din, l1-dcache, FIFO,'\
' l2-ucache 64 KiB, l2-ucache FIFO, skipcount 500, maxcount all, flushcount 1000, l1-icache 8 KiB'\
'size of l1-dcache (KiB)'
}

# A title of more letters than three lines hold is cut in its last one.
test_long_titles() {
    local size
    for size in 240x240 336x250 720x460; do
        apart "a title with what was chosen, $size" rates chosen.tsv apart.svg --size $size \
            --cache l1-dcache "${chosen[@]}" --only flushcount 1000 --only l1-iassoc 2 \
            --only l1-isize 8k
    done
    shows apart.svg 'x.din, l1-dcache, FIFO, l2-ucache 64 KiB, l2-ucache FIFO, skipcount 500, '\
'maxcount all,' 'flushcount 1000, l1-icache 2 ways, l1-icache 8 KiB'
    verdict 'and it is whole where there is room' $?
}

# is_named PICTURE NAME: it is the one that a browser shows.
is_named() {
    [ "$(python3 "$top/examples/tools/svg_texts.py" --name "$1" 2>"$err")" = "$2" ]
}

# names_picture NAME: the title of a picture is its name too, and a text of it.
names_picture() {
    run "$plot" rates chosen.tsv named.svg --cache l1-dcache "${chosen[@]}" --only flushcount 0 \
        --title "${1//$'\n'/ }"
    [ "$status" -eq 0 ] && [ ! -s "$err" ] && is_named named.svg "${1//$'\n'/ }" &&
        shows named.svg "${1//$'\n'/ }"
}

# What could end the element of a name, or be taken for another one.
test_names() {
    at_all_names 'names of pictures' names_picture "${hostile_paths[@]}" '<title>Gnuplot</title>' \
        '</title><script>x</script>' 'a &amp; b &lt; &#65; &' '<![CDATA[x]]> ]]]]>>' \
        '\n\\&\0 %s' 'é 語 "'
    sed -n '1p; 2s,a/x,<\&>]]>,p' chosen.tsv >named.tsv
    run "$plot" rates named.tsv named.svg --cache l1-dcache
    [ "$status" -eq 0 ] && is_named named.svg '<&>]]>.din, l1-dcache, FIFO' &&
        shows named.svg '<&>]]>.din, l1-dcache, FIFO'
    verdict 'and of one without a title of ours' $?
    run "$plot" rates named.tsv named.svg --cache l1-dcache --title ''
    [ "$status" -eq 0 ] && is_named named.svg '' && ! grep -q 'Gnuplot' named.svg
    verdict 'a picture without a title has no name' $?
}

# A name of 400 letters that XML writes as five each is 1993 bytes longer than that of gnuplot, so
# the next whole number of KiB has room for gnuplot's picture alone.
test_name_without_room() {
    local ampersands size
    printf -v ampersands '%400s' ''
    ampersands=${ampersands// /'&'}
    run "$plot" rates chosen.tsv named.svg --cache l1-dcache "${chosen[@]}" --only flushcount 0 \
        --title "$ampersands"
    check 'a long name' is_named named.svg "$ampersands"
    size=$(stat -c %s named.svg)
    ends 'and one without room' 4 "plot: no room for temporary files in $TMPDIR" \
        no_room $(((size - 1993 + 1023) / 1024)) "$plot" rates chosen.tsv none.svg \
        --cache l1-dcache "${chosen[@]}" --only flushcount 0 --title "$ampersands"
}

test_titles
test_untitled
test_title_of_one_size
if has gnuplot && has python3; then
    test_long_titles
    test_names
    test_name_without_room
else
    skip 'long titles, and names of pictures' 'gnuplot and python3 (gnuplot-nox, python3)'
fi
