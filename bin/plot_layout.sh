# Where things stand in a picture, in pixels. Read by plot.
# shellcheck shell=bash disable=SC2154,SC2034  # names that plot and its other files set, or use
#
# gnuplot itself makes room for what stands to the left of the plot, and for a key to the right of
# it. What stands above and below is measured here, and so is how many labels an axis has room for.

# The size of a letter.
em=

plot_width=0
plot_height=0
title_lines=()
axis_lines=()
group_lines=()

# in_columns PIXELS: sets `columns` to how many characters have room there.
in_columns() {
    columns=$(($1 * 100 / (em * 62)))
}

# no_room_in_picture: for what is to be drawn.
no_room_in_picture() {
    die 2 "no room for the text in ${width}x$height, with letters of $font_size: take a larger --size, \
a smaller --font, or fewer lines by --only"
}

# choose_size BARS: without --size, a picture grows with what is drawn.
choose_size() {
    if [ -z "$size" ]; then
        width=720 height=460
        [ "$kind" = rates ] || [ "$1" -le 24 ] || width=$((200 + 22 * $1))
        [ "$kind" = kinds ] || [ ${#labels[@]} -le 20 ] || height=$((120 + 17 * ${#labels[@]}))
        : "${font_size:=9}"
        [ $((width > height ? width : height)) -le 10000 ] || no_room_in_picture
        return
    fi
    width=${size%x*} height=${size#*x}
    [ -z "$font_size" ] || return 0
    font_size=$((width * 9 / 720))
    [ "$font_size" -le $((height * 9 / 460)) ] || font_size=$((height * 9 / 460))
    [ "$font_size" -ge 8 ] || font_size=8
}

# lay_out: of the file `points`.
lay_out() {
    local bars
    bars=$(wc -l < "$work/points")
    choose_size "$bars"
    em=$(((font_size * 4 + 2) / 3))
    [ "$width" -ge $((20 * em)) ] || no_room_in_picture
    in_columns $((width - 2 * em))
    title_lines=()
    [ -z "$title" ] || wrap "$title" "$columns" 3
    [ -z "$title" ] || title_lines=("${wrapped[@]}")
    place_key
    top=$(((12 + (${#title_lines[@]} + key_rows) * 14) * em / 10))
    plot_width=$((width - 7 * em - key_width))
    [ "$plot_width" -ge $((12 * em)) ] || no_room_in_picture
    in_columns $((plot_width + 4 * em))
    wrap "$axis" "$columns" 2
    axis_lines=("${wrapped[@]}")
    group_rows=0
    [ "$kind" = rates ] || place_groups "$bars"
    bottom=$(((26 + (${#axis_lines[@]} + group_rows) * 14) * em / 10))
    plot_height=$((height - top - bottom))
    [ "$plot_height" -ge $((7 * em)) ] || no_room_in_picture
}

# place_key: to the right of the plot where there is room, else above it.
place_key() {
    local label longest=9 entries=3 titles=2 sample=6
    [[ $picture != *.svg ]] || sample=9
    if [ "$kind" = rates ]; then
        longest=0 entries=${#labels[@]} titles=0
        in_columns $((width - 8 * em))
        shorten_labels "$columns"
        for label in "${labels[@]}"; do
            measure "$label"
            [ "$columns" -le "$longest" ] || longest=$columns
        done
    fi
    key_place=none key_rows=0 key_width=$((2 * em))
    [ "$longest" -gt 0 ] || return 0
    in_columns $((width - 2 * em))
    key_columns=$((columns / (longest + sample)))
    if [ $((longest + sample)) -le $((columns * 3 / 10)) ] && [ "$columns" -ge 65 ] &&
        [ $(((entries + titles) * em * 14 / 10)) -le $((height - 9 * em)) ]; then
        key_place=right
        key_width=$(((longest + sample) * em * 62 / 100))
    else
        key_place=top
        [ "$key_columns" -gt 0 ] || key_columns=1
        key_rows=$(((entries + key_columns - 1) / key_columns + (titles + 1) / 2))
    fi
}

# check_labels LABEL..: no two of them are the same.
check_labels() {
    [ "$(printf '%s\0' "$@" | LC_ALL=C sort -zu | tr -dc '\0' | wc -c)" = $# ] ||
        no_room_in_picture
}

# shorten_labels COLUMNS: they can still be told apart.
shorten_labels() {
    local i
    for i in "${!labels[@]}"; do
        shorten "${labels[i]}" "$1"
        labels[i]=$piece
    done
    check_labels "${labels[@]}"
}

# place_groups BARS: below the bars of each group stands its label. It is broken inside a word only
# where it would meet the next one.
place_groups() {
    local group across slots=$(($1 + ${#labels[@]})) middles=() rooms=() widths=() shortened=()
    slot=$((plot_width / slots))
    [ -n "${labels[0]}" ] || return 0
    in_columns "$plot_width"
    across=$columns
    find_middles
    find_rooms
    for group in "${!labels[@]}"; do
        break_label "$group" "${rooms[group]}"
    done
    for group in "${!labels[@]}"; do
        widest_word "${labels[group]}"
        [ "$columns" -le "${rooms[group]}" ] || ! has_room "$group" "$columns" ||
            break_label "$group" "$columns"
    done
    for group in "${!labels[@]}"; do
        mapfile -t wrapped <<<"${group_lines[group]}"
        [ ${#wrapped[@]} -le "$group_rows" ] || group_rows=${#wrapped[@]}
    done
    check_labels "${shortened[@]}"
    check_labels "${group_lines[@]}"
}

# find_middles: sets `middles` to where each group has its middle, in hundredths of the columns that
# go `across` the plot. Between two groups is a gap of a bar, and half of one at each end.
find_middles() {
    local count before=0
    while read -r count; do
        middles+=($((across * 100 * (2 * before + count + 1) / (2 * slots))))
        before=$((before + count + 1))
    done < <(cut -f 1 "$work/points" | uniq -c | sed 's/^ *//; s/ .*//')
}

# space_beside GROUP: sets `left` and `right` to how far it is to the middles of the groups beside
# it, or to twice as far as its label may reach: the height of four letters to the left of the plot,
# and that of one to the right.
space_beside() {
    left=$((2 * (middles[$1] + 4 * 10000 / 62)))
    right=$((2 * (across * 100 + 10000 / 62 - middles[$1])))
    [ "$1" -eq 0 ] || left=$((middles[$1] - middles[$1 - 1]))
    [ "$1" -eq $((${#middles[@]} - 1)) ] || right=$((middles[$1 + 1] - middles[$1]))
}

# find_rooms: sets `rooms` to the columns that each label may take, if those beside it take
# as many as they may.
find_rooms() {
    local group left right
    for group in "${!labels[@]}"; do
        space_beside "$group"
        rooms[group]=$(((left < right ? left : right) / 100 - 1))
        [ "${rooms[group]}" -ge 2 ] || no_room_in_picture
    done
}

# has_room GROUP COLUMNS: a label that wide does not meet those beside it.
has_room() {
    local left right last=$((${#middles[@]} - 1)) before=$2 behind=$2
    space_beside "$1"
    [ "$1" -eq 0 ] || before=${widths[$1 - 1]}
    [ "$1" -eq "$last" ] || behind=${widths[$1 + 1]}
    [ $((($2 + before + 2) * 50)) -le "$left" ] && [ $((($2 + behind + 2) * 50)) -le "$right" ]
}

# widest_word TEXT: sets `columns` to what the widest of its words takes.
widest_word() {
    local word words widest=0
    IFS=' ' read -r -a words <<<"$1"
    for word in "${words[@]}"; do
        measure "$word"
        [ "$columns" -le "$widest" ] || widest=$columns
    done
    columns=$widest
}

# break_label GROUP COLUMNS: into lines.
break_label() {
    local line
    shorten "${labels[$1]}" $(($2 * 3))
    shortened[$1]=$piece
    wrap "$piece" "$2" 3
    group_lines[$1]=$(printf '%s\n' "${wrapped[@]}")
    widths[$1]=0
    for line in "${wrapped[@]}"; do
        measure "$line"
        [ "$columns" -le "${widths[$1]}" ] || widths[$1]=$columns
    done
}
