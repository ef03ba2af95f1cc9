# The marks of both axes. Read by plot.
# shellcheck shell=bash disable=SC2154,SC2034  # names that plot and its other files set, or use

# What plot_points.awk gives as the place behind all others, and where a line has that place.
far_away=9000000000000000000
far_place=

# name_place BYTES: sets `name` to what stands at that place of the axis, in its unit.
name_place() {
    name=$(($1 / unit))
    [ "$1" != "$far_away" ] || name=$far
    [ "$class" = size ] && [ "$unit" -eq 1 ] && [ "$most" -ge 10240 ] || return 0
    if [ "$1" -ge 1048576 ] && [ $(($1 % 1048576)) -eq 0 ]; then
        name=$(($1 / 1048576))M
    elif [ "$1" -ge 1024 ] && [ $(($1 % 1024)) -eq 0 ]; then
        name=$(($1 / 1024))k
    fi
}

# widest_name PLACE..: sets `widest` to the characters of the longest of their names, and of that of
# the place behind all others, if a point is there.
widest_name() {
    local place
    widest=0
    [ "$far" = - ] || widest=${#far}
    for place; do
        name_place "$place"
        [ ${#name} -le "$widest" ] || widest=${#name}
    done
}

# print_rate_tics: and sets `far_place`.
print_rate_tics() {
    in_columns "$plot_width"
    if [ "$far" != - ] && [ "$most" -eq 0 ]; then
        far_place=1
        echo 'set xrange [0:2]'
        print_marks "'$far' 1"
    elif is_logarithmic; then
        print_log_tics
    else
        print_linear_tics
    fi
}

# list_log_places: sets `places` to the powers of two, or to 1, 2 and 5 times the powers of ten,
# around the places of all points.
list_log_places() {
    local step=1 first=1
    while [ "$step" -le "$least" ]; do
        first=$step
        next_step
    done
    step=$first places=("$first")
    while [ "$step" -lt "$most" ]; do
        next_step
        places+=("$step")
    done
}

# choose_log_distance: sets `distance` to how many marks it is from one that has a name to the next,
# so that each name has room. That of the place behind all others comes after the last mark.
choose_log_distance() {
    local beyond=0
    distance=1
    while
        [ "$far" = - ] || beyond=$distance
        [ $(((${#places[@]} + beyond) * (widest + 2))) -gt $((columns * distance)) ]
    do
        distance=$((distance + 1))
        # 10, 20 and 50 have names, or 10, 100 and 1000.
        while [ "$class" = interval ] && [ $((distance % 3)) -ne 0 ]; do
            distance=$((distance + 1))
        done
    done
}

# print_log_tics: a mark at each place, of which so many have a name as have room.
print_log_tics() {
    local i step distance places marks=()
    list_log_places
    widest_name "${places[@]}"
    choose_log_distance
    for i in "${!places[@]}"; do
        name_place "${places[i]}"
        if [ $((i % distance)) -eq 0 ]; then
            marks+=("'$name' ${places[i]}")
        else
            marks+=("'' ${places[i]} 1")
        fi
    done
    step=${places[-1]}
    if [ "$far" != - ]; then
        for ((i = 0; i < distance; i++)); do next_step; done
        marks+=("'$far' $step")
    fi
    far_place=$step
    if is_binary; then echo 'set logscale x 2'; else echo 'set logscale x 10'; fi
    echo "set xrange [${places[0]}/1.15:$step*1.15]"
    print_marks "${marks[@]}"
}

# is_binary: what is on the axis are powers of two.
is_binary() {
    [ "$class" = size ] || [ "$class" = ways ]
}

# next_step: sets `step` to the next larger one. For sizes and ways it is a power of two, for all
# else it is 1, 2 or 5 times a power of ten.
next_step() {
    if is_binary; then
        step=$((step * 2))
    elif [[ $step == 2* ]]; then
        step=$((step * 5 / 2))
    else
        step=$((step * 2))
    fi
}

# names_have_room: sets `places` to the marks at equal distances of `step`, each of which has room
# for the longest of their names, and `end` to where the axis ends: the place behind all others is a
# step away from the last point.
names_have_room() {
    local place
    places=() end=$most
    for ((place = (least + step - 1) / step * step; place <= most; place += step)); do
        places+=("$place")
    done
    widest_name "${places[@]}"
    [ "$far" = - ] || end=$((most + step))
    span=$((end - least))
    [ $((span * (widest + 2))) -le $((columns * step)) ]
}

# print_linear_tics: named marks at equal distances, so many as have room, and at most eleven. The
# axis begins at 0 if that leaves the points at least half of it.
print_linear_tics() {
    local least=$least end span step=$unit place places marks=()
    [ $((least * 2)) -gt "$most" ] || least=0
    while [ $(((most - least) / step)) -gt 10 ] || ! names_have_room; do next_step; done
    for place in "${places[@]}"; do
        name_place "$place"
        marks+=("'$name' $place")
    done
    if [ ${#marks[@]} -eq 0 ]; then
        name_place "$least"
        marks=("'$name' $least")
    fi
    [ "$far" = - ] || marks+=("'$far' $end")
    far_place=$end
    [ "$span" -gt 0 ] || span=$unit
    echo "set xrange [$least-0.03*$span:$end+0.03*$span]"
    print_marks "${marks[@]}"
}

# print_bar_tics: below each bar, if there is room, and else below the first of each group, the one
# behind all others, and as many others as keep their distance to that of the next group.
print_bar_tics() {
    local group place bar step slots firsts=() at=() places=() names=() marked=() marks=()
    while read -r group place _; do
        [ "$group" -eq ${#firsts[@]} ] || firsts+=(${#places[@]})
        name_place "$place"
        at+=($((${#places[@]} + group - 1))) places+=("$place") names+=("$name")
    done < "$work/points"
    widest_name "${places[@]}"
    slots=$((${#places[@]} + ${#firsts[@]}))
    in_columns "$plot_width"
    step=$((((widest + 1) * slots + columns - 1) / columns))
    firsts+=(${#places[@]})
    for group in "${!labels[@]}"; do
        mark_bars "${firsts[group]}" "${firsts[group + 1]}"
    done
    for bar in "${!marked[@]}"; do
        marks+=("'${names[bar]}' ${at[bar]}")
    done
    echo "set xrange [-1:$((at[-1] + 1))]"
    print_marks "${marks[@]}"
}

# mark_bars FIRST NEXT: adds to `marked` the bars of a group that get a mark. It begins with the
# first, and the next group with the other.
mark_bars() {
    local bar last=$(($2 - 1)) before=("${!marked[@]}")
    [ ${#before[@]} -eq 0 ] || have_room "${before[-1]}" "$1" || return 0
    for ((bar = $1; bar < $2; bar += step)); do
        [ "$bar" -gt "$1" ] && [ $((bar + step)) -gt $(($2 + 1)) ] || marked[bar]=yes
    done
    [ "${places[last]}" = "$far_away" ] && have_room "$1" "$last" && have_room "$last" "$2" ||
        return 0
    for ((bar = last - 1; bar > $1; bar--)); do
        have_room "$bar" "$last" || unset "marked[bar]"
    done
    marked[last]=yes
}

# have_room BAR OTHER: the names of both, side by side. Behind the last bar there is room.
have_room() {
    local wide
    [ "$2" -ne ${#places[@]} ] || return 0
    wide=$((${#names[$1]} + ${#names[$2]} + 2))
    [ $((wide * slots)) -le $((2 * columns * (at[$2] - at[$1]))) ]
}

# print_height_tics: marks at a distance of 1, 2 or 5 times a power of ten, so many as have room.
# The height of a point is its first share, and that of a bar all of them.
print_height_tics() {
    awk -v rows=$((plot_height / (2 * em))) '
        {
            height = $3
            for (i = 4; i <= NF; i++) if ($i > 0) height += $i; else if ($i < lowest) lowest = $i
            if (height > highest) highest = height
        }
        END {
            if (rows > 10) rows = 10
            if (highest <= 0) highest = 1
            for (step = 1e-6; (highest - lowest) / step > rows; step *= 10) {
                if ((highest - lowest) / step <= rows * 2) { step *= 2; break }
                if ((highest - lowest) / step <= rows * 5) { step *= 5; break }
            }
            printf "set ytics %.10g\n", step
            printf "set yrange [%s:%s]\n", (lowest < 0 ? "*" : "0"), (highest == 1 ? "1" : "*")
        }' "$work/points"
}

# print_marks MARK..
print_marks() {
    local IFS=,
    echo "set xtics scale 1,0.6 ($*)"
}
