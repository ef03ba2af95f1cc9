# What gnuplot is told. Read by plot.
# shellcheck shell=bash disable=SC2154,SC2034  # names that plot and its other files set, or use
#
# gnuplot runs in the folder of its script, where each file has a name of ours, and the points are
# numbers. Text from outside is no part of the script (plot_text.sh).

# fits_argument: the system takes no longer argument.
fits_argument() {
    local LC_ALL=C
    [ ${#text} -lt 131072 ]
}

# run_gnuplot: its own variable for the kind of terminal is not for pictures. What a shell says of a
# process that a signal ended is left out.
run_gnuplot() (
    unset GNUTERM
    { cd -- "$work" && gnuplot -d -c script "$text" 2> complaint; } || exit
) 2>/dev/null

# What stands above the key of kinds, in two lines: of misses by their kinds, or of whole counts.
own_heading='each miss\nby its own kind'
whole_heading='by subtraction\nof whole counts'

# finish_svg: the picture on standard input gets its title as the name that a browser shows, or no
# name. gnuplot names it Gnuplot, takes no other name but of letters, and leaves a `]]>` in a text,
# where XML has none. In the names of the bars, it writes the end of a line in the key as `\n`.
finish_svg() {
    local name=${title//'&'/'&amp;'}
    name=${name//'<'/'&lt;'}
    name=${name//'>'/'&gt;'}
    NAME=$name OWN=$own_heading WHOLE=$whole_heading awk '
        # ends_with(NAME): the line does, and it is the name of bars.
        function ends_with(name) {
            name = "<title>" name "</title>"
            return substr($0, length($0) - length(name) + 1) == name
        }
        $0 == "<title>Gnuplot</title>" && !named++ {
            if (ENVIRON["NAME"] != "") print "<title>" ENVIRON["NAME"] "</title>"
            next
        }
        ends_with(ENVIRON["OWN"]) || ends_with(ENVIRON["WHOLE"]) { sub(/\\n/, " ") }
        { gsub(/\]\]>/, "]]\\&gt;") }
        { print }'
}

# print_script: of the file `points`. The looks differ in lightness, so that they are told apart in
# grey.
print_script() {
    echo 'set encoding utf8'
    echo "set terminal $(terminal)"
    echo "set output 'picture'"
    cat <<'END' || return
set datafile separator tab
set grid ytics lt 1 lc rgb '#dddddd'
set border 3
set tics nomirror out
END
    echo "set tmargin at screen $((height - top))./$height"
    echo "set bmargin at screen $bottom./$height"
    print_title
    print_key
    print_axes || return
    "print_$kind"
}

# terminal: a picture has 96 pixels to the inch, and a font's size is in points, 72 to the inch.
terminal() {
    local look="noenhanced background 'white'" points=$font_size
    case $picture in
    *.svg)
        points=$(hundredths $((font_size * 400 / 3)))
        echo "svg size $width,$height $look font '$font_name,$points'"
        ;;
    *.png) echo "pngcairo size $width,$height $look font '$font_name,$points'" ;;
    *.pdf)
        echo "pdfcairo size $(hundredths $((width * 100 / 96)))in,$(hundredths $((height * 100 / 96)))in \
$look fontscale 0.75 font '$font_name,$points'"
        ;;
    esac
}

# hundredths NUMBER: as a decimal fraction.
hundredths() {
    printf '%d.%02d' $(($1 / 100)) $(($1 % 100))
}

# put_text TEXT X Y: in the middle of X, a place of gnuplot's, and so many pixels from the bottom of
# the picture.
put_text() {
    say "$1"
    echo "set label $said at $2, screen $3./$height center"
}

# print_title: its lines, from the top of the picture.
print_title() {
    local i
    for i in "${!title_lines[@]}"; do
        put_text "${title_lines[i]}" 'screen 0.5' $((height - (12 + i * 14) * em / 10))
    done
}

# print_key: the letters of SVG are higher for gnuplot than those of the other formats.
print_key() {
    local y=$((height - (6 + ${#title_lines[@]} * 14) * em / 10)) spacing=1.1 heading
    [[ $picture != *.svg ]] || spacing=0.9
    case $key_place in
    none) echo 'set key off' && return ;;
    right) echo 'set key outside right top' ;;
    top) echo "set key at screen 0.5, screen $y./$height center top horizontal maxcols $key_columns" ;;
    esac
    echo "set key reverse Left samplen 2 spacing $spacing"
    [ "$kind" = kinds ] || return 0
    echo 'set key samplen 1'
    heading=$own_heading
    [ -z "$whole" ] || heading=$whole_heading
    [ "$key_place" = right ] || heading=${heading/'\n'/ }
    [ "$key_place" = top ] || echo 'set key invert'
    echo "set key title \"$heading\""
}

# print_axes: their labels. A plot that is not high has the label of its height in two lines.
print_axes() {
    local i what='miss rate' gap=' '
    [ "$kind" = rates ] || what=misses
    in_columns "$plot_height"
    [ "$columns" -ge 23 ] || gap='\n'
    echo "set ylabel \"$what$gap(% of accesses)\""
    [[ $picture != *.svg ]] || echo 'set xtics offset 0,0.4'
    print_height_tics || return
    for i in "${!axis_lines[@]}"; do
        put_text "${axis_lines[i]}" 'graph 0.5' $((bottom - (30 + (group_rows + i) * 14) * em / 10))
    done
}

print_rates() {
    local lines=() i colours=('#08306b' '#2171b5' '#6baed6' '#00441b' '#41ab5d' '#969696')
    local dashes=(1 2 1 4 1 3) shapes=(7 5 9 13 11 4 6) dot=$em/12.
    [[ $picture == *.png ]] || dot=$em/16.
    print_rate_tics
    put_lines || return
    for i in "${!labels[@]}"; do
        say "${labels[i]}"
        lines+=("'lines' index $i using 2:3 with linespoints lw 2*$em/12. ps $dot \
lc rgb '${colours[i % 6]}' dt ${dashes[i % 6]} pt ${shapes[i % 7]} title $said")
    done
    join_lines "${lines[@]}"
}

# put_lines: the points of each group, apart from those of the others.
put_lines() {
    awk -v OFS='\t' -v "far_place=$far_place" -v "far_away=$far_away" '
        $1 != group && NR > 1 { print "\n" }
        { group = $1 }
        $2 == far_away "" { $2 = far_place }
        { print }' "$work/points" > "$work/lines"
}

# print_kinds: the bars of a group stand side by side, and a gap is between two groups. What is
# below zero hangs from there.
print_kinds() {
    local box="'bars' using 1:(0):(\$1-0.4):(\$1+0.4)" style='with boxxyerror lw 1'
    [ "$slot" -ge 12 ] || style='with boxxyerror lw 0.4'
    awk '{ print NR + $1 - 2 "\t" $0 }' "$work/points" > "$work/bars" || return
    print_group_labels
    print_bar_tics
    cat <<'END' || return
set style fill solid 1 border lc rgb 'black'
set xzeroaxis lt -1
set xtics scale 0
END
    join_lines "$box:(0):4 $style lc rgb '#08306b' title 'compulsory'" \
        "$box:4:(\$4+\$5) $style lc rgb '#4292c6' title 'capacity'" \
        "$box:(\$6<0?0:\$4+\$5):(\$6<0?\$6:\$4+\$5+\$6) $style lc rgb '#deebf7' title 'conflict'"
}

print_group_labels() {
    local group middle line i
    [ "$group_rows" -gt 0 ] || return 0
    while read -r group middle; do
        i=0
        while IFS= read -r line; do
            put_text "$line" "first $middle" $((bottom - (26 + i * 14) * em / 10))
            i=$((i + 1))
        done <<<"${group_lines[group - 1]}"
    done < <(awk '
        { if (!($2 in least)) least[$2] = $1; most[$2] = $1 }
        END { for (group in least) print group, (least[group] + most[group]) / 2 }' "$work/bars" |
        sort -n)
}

join_lines() {
    local IFS=,
    echo "plot $*"
}
