# Tests bin/plot with hostile names in each place where a name can stand. Read by tools.sh.
# shellcheck shell=bash disable=SC2016,SC2154  # names that tools.sh and its other files set

# table_of TRACE: a table as somebody else could have made it.
table_of() {
    TRACE=$1 awk 'NR > 1 { sub(/^kinds\.din/, ""); $0 = ENVIRON["TRACE"] $0 } { print }' kinds.tsv
}

# is_drawn PICTURE TITLE: plot has just written it, and said nothing.
is_drawn() {
    [ "$status" -eq 0 ] && [ ! -s "$out" ] && [ ! -s "$err" ] &&
        grep -qF -e "<text>${2//&/&amp;}</text>" -- "$1"
}

# The name stands for the trace, the table, the picture and the folder of temporary files, each
# named from where the command runs, so that it begins as it stands.
draws() {
    local trace=${1//$'\n'/ }
    mkdir -- "./$1" && table_of "$trace" >"./$1.tsv" || return
    run env TMPDIR="$1" "$plot" kinds --only "trace=$trace" -- "$1.tsv" "$1.svg"
    is_drawn "./$1.svg" "$trace, l1-dcache" && rmdir -- "./$1" && rm -- "./$1.tsv" "./$1.svg"
}

# The name stands in the key, below a group of bars, as the name of the axis's column, and as the
# title, in each format.
draws_words() {
    local format word=${1//$'\n'/?}
    NAME=${1//$'\n'/ } awk -v OFS='\t' -F '\t' '
        NR == 1 { $2 = ENVIRON["NAME"] } NR == 3 { $1 = ENVIRON["NAME"] } NR < 4' kinds.tsv \
        >named.tsv
    for format in svg png pdf; do
        run "$plot" rates named.tsv "named.$format" --by trace --cache l1-dcache \
            --over "${1//$'\n'/ }" --title "$word"
        [ "$status" -eq 0 ] && [ ! -s "$err" ] || return
        run "$plot" kinds named.tsv "bars.$format" --by trace --cache l1-dcache \
            --over "${1//$'\n'/ }" --title "$word"
        [ "$status" -eq 0 ] && [ ! -s "$err" ] || return
    done
    shows named.svg "$word" && shows bars.svg "$word" &&
        [ "$(grep -cxF -e "${1//$'\n'/ }" -e "$word" "$work/texts")" -eq 3 ]
}

refuses_value() {
    run "$plot" rates kinds.tsv none.svg --only "trace=$1"
    [ "$status" -eq 1 ] &&
        [ "$(<"$err")" = "plot: kinds.tsv: no line without a fault has trace=${1//$'\n'/?}" ]
}

refuses_column() {
    local option name=${1//$'\n'/?}
    run "$plot" rates kinds.tsv none.svg --only "$1=8"
    [ "$status" -eq 1 ] &&
        [ "$(<"$err")" = "plot: kinds.tsv: the table has no column ${name%%=*}" ] || return
    for option in --over --by; do
        run "$plot" rates kinds.tsv none.svg "$option" "$1"
        [ "$status" -eq 1 ] &&
            [ "$(<"$err")" = "plot: kinds.tsv: the table has no column $name" ] || return
    done
}

refuses_words() {
    run "$plot" "./$1" kinds.tsv none.svg && [ "$status" -eq 2 ] &&
        [ "$(<"$err")" = "plot: unknown kind: ./$1; try --help" ] || return
    run "$plot" kinds kinds.tsv none.svg --cache "$1" && [ "$status" -eq 2 ] &&
        [ "$(<"$err")" = "plot: unknown cache: $1; try --help" ] || return
    run "$plot" kinds kinds.tsv none.svg --font "$1" && [ "$status" -eq 2 ] &&
        [ "$(<"$err")" = "plot: --font: not NAME or NAME,SIZE: '$1'; try --help" ] || return
    run "$plot" kinds kinds.tsv none.svg --size "$1" && [ "$status" -eq 2 ] &&
        [ "$(<"$err")" = "plot: --size: not WxH: '$1'; try --help" ] || return
    run "$plot" kinds kinds.tsv -- "$1" && [ "$status" -eq 2 ] &&
        [ "$(<"$err")" = "plot: none of .svg, .png and .pdf: $1; try --help" ]
}

# A cell of ways or of a size, where a number should stand.
refuses_cells() {
    CELL=$1 awk -F '\t' -v OFS='\t' 'NR == 3 { $3 = ENVIRON["CELL"] } { print }' kinds.tsv >named.tsv
    run "$plot" rates named.tsv none.svg && [ "$status" -eq 1 ] &&
        [ "$(<"$err")" = "plot: named.tsv: line 3: l1-dassoc is no number: $1" ] || return
    CELL=$1 awk -F '\t' -v OFS='\t' 'NR == 3 { $2 = ENVIRON["CELL"] } { print }' kinds.tsv >named.tsv
    run "$plot" rates named.tsv none.svg && [ "$status" -eq 1 ] &&
        [ "$(<"$err")" = "plot: named.tsv: line 3: l1-dsize is no size: $1" ]
}

test_plot_names() {
    at_all_names 'plot with hostile names' draws "${hostile_paths[@]}"
    at_all_names 'plot with hostile titles, labels and columns' draws_words "${hostile_paths[@]}"
    at_all_names 'plot of values that no line has' refuses_value "${few[@]}"
    at_all_names 'plot of columns that are not there' refuses_column "${few[@]}"
    at_all_names 'plot with hostile words' refuses_words "${few[@]}"
    at_all_names 'plot of hostile cells' refuses_cells "${few[@]::4}"
    table_of $'x\r\e[1m\xff' >named.tsv
    run "$plot" kinds named.tsv named.svg
    is_drawn named.svg 'x??[1m?, l1-dcache'
    verdict 'plot shows a question mark for what has no shape' $?
}

if has gnuplot && has python3; then
    test_plot_names
else
    skip 'pictures with hostile names' 'gnuplot and python3 (gnuplot-nox, python3)'
fi
