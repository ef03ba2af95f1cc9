# The places of a picture, each with a point of one line of the table, or of several whose counts
# have to be the same. Read before plot_points.awk, whose names it uses.

# place_of(OPTION, VALUE): among its other values.
function place_of(option, value) {
    return is_endless(option, value) ? far_away : value
}

function keep_points(   i, place, x) {
    for (i = 1; i <= lines; i++) {
        read_line(i)
        x = place_of(over, amount(over))
        group_at[i] = group_of_line()
        place = group_at[i] SUBSEP sprintf("%.0f", x)
        if (place in taken) {
            if (is_one_point(taken[place], i)) continue
            tell_apart(taken[place], i)
        }
        taken[place] = i
        point[i] = sprintf("%.0f\t%s", x, shares())
        note_place(x)
    }
}

# note_place(X): on the axis. What is endless stands behind all others, wherever they end.
function note_place(x) {
    if (x == far_away) {
        far = endless(over)
        return
    }
    if (least == "" || x < least) least = x
    if (most == "" || x > most) most = x
    if (x % 1024) is_in_bytes = 1
    if (x % 1048576) is_in_kib = 1
}

# is_apart(K, TEXT): in the K-th column, another line has this text, which is another value.
function is_apart(k, text) {
    return plain(name[k], $k) "" != plain(name[k], text) ""
}

# is_untouched_by(OPTION): the drawn cache is of the first level, and the option of another cache,
# which no cache of the first level knows of.
function is_untouched_by(option) {
    return cache ~ /^l1-/ && cache_of(option) != "" && cache_of(option) != cache
}

# is_one_point(I, J): two lines that have one place in the picture differ only in options that can't
# touch the drawn cache, and have the same of its counts that are drawn.
function is_one_point(i, j,   k, first, several) {
    split(line[i], first, FS)
    read_line(j)
    for (k = 1; k <= columns; k++)
        if ((name[k] in drawn || !is_count(name[k])) && is_apart(k, first[k])) {
            if (!is_untouched_by(name[k])) return 0
            several++
        }
    return several > 0
}

# tell_apart(I, J): two lines have one place in the picture; says why.
function tell_apart(i, j,   k, first, several, which) {
    split(line[i], first, FS)
    read_line(j)
    for (k = 1; k <= columns; k++)
        if (!is_count(name[k]) && name[k] != over && name[k] != by && is_apart(k, first[k])) {
            which = which (several++ ? " and " : "") name[k]
        }
    if (!several) fail("lines " number_of[i] " and " number_of[j] " are of one configuration")
    fail("lines " number_of[i] " and " number_of[j] " differ in " which ": choose by --only" \
        (several == 1 ? ", or take --by " which : ""))
}
